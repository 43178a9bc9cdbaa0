#!/bin/sh
# dist/unpack.sh OUT: writes the prebuilt program to OUT, a new file, once it is the one of its
# digest and runs here. It takes x86-64 Linux with the C library 2.34 or newer, gzip and sha256sum.
set -eu
fail() {
  echo "unpack.sh: $*" >&2
  exit 1
}
[ $# -eq 1 ] || { sed -n '2,3s/^# //p' "$0"; exit 2; }
here=$(dirname "$0")
name=vickrey-x86_64-linux
[ ! -e "$1" ] || fail "$1 is there"
[ "$(uname -sm)" = 'Linux x86_64' ] || fail "the prebuilt program is for x86-64 Linux, and this is $(uname -sm)"
[ -f "$here/$name.gz" ] || fail "there is no $here/$name.gz"
trap 'rm -f "$1"' EXIT
(umask 022 && gzip -dc "$here/$name.gz" >"$1")
[ "$(sha256sum <"$1" | cut -d ' ' -f 1)" = "$(cut -d ' ' -f 1 "$here/$name.sha256")" ] ||
  fail "$here/$name.gz isn't what $name.sha256 says"
chmod 755 "$1"
status=0
"$1" >/dev/null 2>&1 || status=$?
[ $status -eq 2 ] || fail "the prebuilt program doesn't run here: it wants the C library 2.34 or newer"
trap - EXIT
