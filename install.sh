#!/usr/bin/env bash
# install.sh PREFIX [PROGRAM]: puts under PREFIX, a folder such as ~/.local or /usr/local, all that
#   sellers, bidders and auditors run and read: the built program `vickrey`, its manual page and its
#   completions for bash and zsh; `vickrey-check`, the second checker, `vickrey-audit` and
#   `vickrey-take`, which are demo/audit.sh and demo/take.sh, these three for python3; the page for a
#   browser in share/vickrey, and docs/ in share/doc/vickrey. PROGRAM is crates/vickrey/out/vickrey
#   where none is named. Where it would have to write over a file that it did not put there, or that
#   was changed since, it does nothing. It may be run again, for another build.
# install.sh --native PREFIX [CPU]: the same, but the program is first compiled for this kind of
#   processor by bench/native.sh, which wants the Rattle kit and takes minutes. The program then runs
#   on no lesser processor.
# install.sh --prebuilt PREFIX: the same, with the program of dist/, once its digest is right and it
#   runs here: for x86-64 Linux, and nothing else is wanted. dist/check.sh says whether it is what
#   the sources give.
# install.sh --node PREFIX: the same, with a program that has node run portable/vickrey.js of this
#   folder, which has to stay here.
# install.sh --undo PREFIX: takes away just what it put there. A file that was changed since is left,
#   and named.
# With DESTDIR in the environment all goes to the folder DESTDIR/PREFIX, as for a package that is
#   unpacked at PREFIX later; no record is kept there, and --undo is the package manager's.
set -eu
usage() { sed -n '2,/^set -eu$/s/^# //p' "$0"; }
refuse() { usage >&2; exit 2; }
fail() { echo "install.sh: $*" >&2; exit 1; }
here=$(realpath "$(dirname "$0")")

# Where the files go, under PREFIX, each with its mode and its source; and what was put there, in
# lines `folder PATH` and `file DIGEST PATH`
places=()
modes=()
sources=()
record=share/vickrey/installed

# place PATH MODE SOURCE
place() {
  places+=("$1")
  modes+=("$2")
  sources+=("$3")
}

# placed FOLDER MODE SOURCE..: these files, under their own names
placed() {
  local folder=$1 mode=$2 source
  shift 2
  for source in "$@"; do
    if [ -f "$source" ]; then place "$folder/$(basename "$source")" "$mode" "$source"; fi
  done
}

# command_of NAME SCRIPT WITH: a command that runs this script of share/vickrey, begun by these words
command_of() {
  # shellcheck disable=SC2016
  printf '#!/bin/sh\nexport PYTHONDONTWRITEBYTECODE=1\nexec %s"$(dirname "$(realpath "$0")")/../share/vickrey/%s" "$@"\n' "$3" "$2" >"$made/$1"
  place "bin/$1" 755 "$made/$1"
}

# list: all that is put, of the program `$program`
list() {
  place bin/vickrey 755 "$program"
  command_of vickrey-check checker/check.py 'python3 '
  command_of vickrey-audit demo/audit.sh ''
  command_of vickrey-take demo/take.sh ''
  place share/man/man1/vickrey.1 644 "$here/docs/vickrey.1"
  place share/bash-completion/completions/vickrey 644 "$here/docs/vickrey.bash-completion"
  place share/zsh/site-functions/_vickrey 644 "$here/docs/vickrey.zsh-completion"
  placed share/vickrey/checker 644 "$here"/checker/*.py
  placed share/vickrey/demo 755 "$here/demo/audit.sh" "$here/demo/take.sh"
  placed share/vickrey/page 644 "$here/page/vickrey.html" "$here/page/vickrey.html.sha256"
  placed share/doc/vickrey 644 "$here/README.md" "$here/CHANGELOG.md"
  placed share/doc/vickrey/docs 644 "$here"/docs/*.md "$here"/docs/*.svg
}

digest() { sha256sum <"$1" | cut -d ' ' -f 1; }

# put_by_us PATH: whether the file is as it was put there
put_by_us() {
  [ -f "$1" ] && [ ! -L "$1" ] && [ -f "$record" ] && grep -qxF "file $(digest "$1") $1" "$record"
}

# folder PATH: makes a folder where there is none, and those above it, and notes them
folder() {
  if [ ! -d "$1" ]; then
    folder "$(dirname "$1")"
    mkdir -m 755 "$1"
    folders+=("folder $1")
  fi
}

# keep LINE..: these lines are the record, where one is kept
keep() {
  if [ -z "${DESTDIR-}" ]; then
    printf '%s\n' "$@" >"$record.new"
    mv "$record.new" "$record"
  fi
}

put() {
  local place index folders=() files=() former=()
  [ -f "$program" ] || fail "there is no program $program: build it first, as README.md says"
  list
  if [ ! -d "$prefix" ]; then
    if [ -n "${DESTDIR-}" ]; then mkdir -p "$(dirname "$prefix")"; fi
    mkdir -m 755 "$prefix" || exit 1
    folders=('folder .')
  fi
  cd "$prefix"
  for place in "${places[@]}"; do
    if [ -e "$place" ] || [ -L "$place" ]; then
      put_by_us "$place" || fail "$prefix/$place is there, and is not as install.sh put it there"
    fi
  done
  if [ -f "$record" ]; then
    mapfile -t folders < <(grep '^folder ' "$record")
    mapfile -t former < <(grep '^file ' "$record")
  fi
  folder "$(dirname "$record")"
  for index in "${!places[@]}"; do
    folder "$(dirname "${places[index]}")"
    files+=("file $(digest "${sources[index]}") ${places[index]}")
  done
  # Until all files are there, those of an earlier run are known too
  keep "${folders[@]}" "${files[@]}" "${former[@]}"
  for index in "${!places[@]}"; do
    install -m "${modes[index]}" "${sources[index]}" "${places[index]}.new"
    mv "${places[index]}.new" "${places[index]}"
    echo "$prefix/${places[index]}"
  done
  # What an earlier version put there, and this one doesn't
  for place in "${former[@]#file * }"; do
    if ! printf '%s\n' "${places[@]}" | grep -qxF -- "$place" && put_by_us "$place"; then rm "$place"; fi
  done
  keep "${folders[@]}" "${files[@]}"
}

undo() {
  local place folders named status=0
  [ -f "$prefix/$record" ] || fail "nothing was put under $prefix"
  cd "$prefix"
  mapfile -t named < <(sed -n 's/^file [0-9a-f]* //p' "$record")
  for place in "${named[@]}"; do
    if put_by_us "$place"; then
      rm "$place"
    elif [ -e "$place" ] || [ -L "$place" ]; then
      echo "install.sh: $prefix/$place was changed, and is left" >&2
      status=1
    fi
  done
  mapfile -t folders < <(sed -n 's/^folder //p' "$record")
  rm "$record"
  # The last that was made first; a folder that holds something else stays
  cd /
  for ((index = ${#folders[@]} - 1; index >= 0; index--)); do
    rmdir "$(realpath -m "$prefix/${folders[index]}")" 2>/dev/null || true
  done
  exit $status
}

# into PREFIX: takes it for where files go
into() { prefix=$(realpath -m "${DESTDIR-}${DESTDIR:+/}$1"); }

made=$(mktemp -d)
trap 'rm -rf "$made"' EXIT
program=$made/vickrey
case ${1-} in
  --help)
    usage
    ;;
  --native)
    [ $# -eq 2 ] || [ $# -eq 3 ] || refuse
    into "$2"
    "$here/bench/native.sh" "$program" ${3:+"$3"}
    put
    ;;
  --prebuilt)
    [ $# -eq 2 ] || refuse
    into "$2"
    "$here/dist/unpack.sh" "$program"
    put
    ;;
  --node)
    [ $# -eq 2 ] || refuse
    into "$2"
    printf '#!/usr/bin/env bash\nexec node %q "$@"\n' "$here/portable/vickrey.js" >"$program"
    chmod 755 "$program"
    "$program" 2>&1 | grep -q '^usage: ' || fail "it doesn't run here: $("$program" 2>&1)"
    put
    ;;
  --undo)
    [ $# -eq 2 ] || refuse
    into "$2"
    undo
    ;;
  '' | -*) refuse ;;
  *)
    [ $# -le 2 ] || refuse
    into "$1"
    program=$(realpath -m "${2:-$here/crates/vickrey/out/vickrey}")
    put
    ;;
esac
