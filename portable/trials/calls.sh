#!/usr/bin/env bash
# portable/trials/calls.sh: each call of the system that portable/host.js makes, beside the system's
# own: portable/trials/calls.c is built for Linux, with the kit's part of C, and for node, and both
# have to print the same, line by line, and leave the same files, as root and as another user. It
# wants the kit, a C compiler, node and binaryen.
set -u
[ $# -eq 0 ] || { sed -n '2,5s/^# //p' "$0"; exit 2; }
here=$(realpath "$(dirname "$0")")
kit=$(dirname "$(dirname "$(realpath "$(command -v rt)")")")
work=$(mktemp -d)
trap 'rm -rf "$work"' EXIT
chmod 755 "$work"
failed=0

# The words that both are handed: one of no bytes, with a blank, in UTF-8, and not in UTF-8
given=('all' '' 'two words' 'ä' $'\xff\xfe' 'last')

build() {
  "$here/../build.sh" --calls "$work" || exit 1
  printf '%s\n' '#include "calls.c"' 'int main(void) { return program_start(); }' >"$work/main.c"
  "${CC:-cc}" -O1 -w -fno-builtin -I "$here" -o "$work/native" "$work/main.c" \
    "$kit/c/libos_c.a" "$kit/c/liblibc_c.a" || exit 1
  printf '#!/bin/sh\nexec %q %q %q "$@"\n' "$(command -v node)" "$here/command.js" \
    "$work/calls.wasm" >"$work/portable"
  chmod 755 "$work/portable"
}

# folder NAME: a folder with the files that the calls are tried on
folder() {
  mkdir "$work/$1" "$work/$1/inner"
  chmod 777 "$work/$1"
  cd "$work/$1" || exit 1
  printf 'some bytes' >file
  printf 'all of this goes' >'cut'
  ln file twin
  ln -s file link
  ln -s nothing lost
  ln -s loop loop
  chmod 666 file cut
}

# try WHO COMMAND..: both, by that user, in folders of their own
try() {
  local who=$1 kind
  shift
  for kind in native portable; do
    folder "$who-$kind"
    (umask 027 && "$@" "$work/$kind" "${given[@]}") >"$work/$who-$kind.said" 2>&1
    echo "status $?" >>"$work/$who-$kind.said"
    stat -c '%n %F %a %h %U %G %s' -- * >"$work/$who-$kind.left"
    cat written length >>"$work/$who-$kind.left"
  done
  cd "$work" || exit 1
  for kind in said left; do
    if ! diff "$who-native.$kind" "$who-portable.$kind"; then
      failed=$((failed + 1))
    fi
  done
  echo "$who: $(wc -l <"$who-native.said") lines"
}

build
try root
if [ "$(id -u)" -eq 0 ]; then
  try nobody setpriv --reuid=65534 --regid=65534 --clear-groups
fi
echo "$failed of them differ"
[ $failed -eq 0 ]
