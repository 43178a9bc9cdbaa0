#!/usr/bin/env bash
# dist/check.sh: builds the program as `rt run` does, by build.py, and says whether dist/ has the
#   same, byte for byte.
# dist/check.sh --anew FOLDER JOBS: the same of the last commit's files in the new folder FOLDER,
#   where nothing is proved yet, so many crates at a time: whether the program depends on the
#   folder's name, on what was there before, or on the number of jobs.
# dist/check.sh --write: builds it, and writes it to dist/, for a new version.
# It wants the kit; where the program isn't proved yet it takes as long as the proofs.
set -eu
usage() { sed -n '2,8s/^# //p' "$0"; exit 2; }
fail() { echo "check.sh: $*" >&2; exit 1; }
here=$(realpath "$(dirname "$0")")
name=vickrey-x86_64-linux
work=$(mktemp -d)
trap 'rm -rf "$work"' EXIT

# build TOP WORD..: the program of the repository TOP, by its build.py with these words, as $built
build() {
  local crate=$1/crates/vickrey
  shift
  command -v rt >/dev/null || fail 'there is no rt: install the kit'
  (cd "$crate" && ../../build.py "$@" verify data/board data/challenge-0 data/reply-0) |
    tail -n 1 | grep -qx accepted || fail 'the program is not built, or does not run'
  built=$crate/out/vickrey
}

# same: dist/ has what was built
same() {
  "$here/unpack.sh" "$work/program"
  cmp "$built" "$work/program" || fail "dist/$name.gz isn't what is built here, with $(rt version)"
  echo "the same: $(cat "$here/$name.sha256")"
}

digest() { sha256sum <"$1" | cut -d ' ' -f 1; }

case "${1-} $#" in
  ' 0')
    build "$here/.."
    same
    ;;
  '--anew 3')
    [ ! -e "$2" ] || fail "$2 is there"
    mkdir -p "$2"
    git -C "$here/.." archive HEAD | tar -x -C "$2"
    build "$(realpath "$2")" --jobs "$3"
    same
    ;;
  '--write 1')
    build "$here/.."
    gzip -9nc "$built" >"$here/$name.gz"
    echo "$(digest "$built")  $name" >"$here/$name.sha256"
    cat "$here/$name.sha256"
    ;;
  *) usage ;;
esac
