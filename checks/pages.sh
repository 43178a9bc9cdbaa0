#!/usr/bin/env bash
# checks/pages.sh PROGRAM: runs the commands of README.md, of AUCTION.md, CLAIMS.md, MANY.md and METHOD.md in docs, and of the manual page
# exactly as they are written, each page in a new copy of this folder, with nothing on PATH but the system. Only `rt` is stood in for: `rt run` and
# `rt try` run the program, and `rt ci` does nothing. It is no part of the gate, and wants sqlite3. The last line says how many passed and failed.
set -u
[ $# -eq 1 ] || { sed -n '2,4p' "$0"; exit 2; }
program=$(realpath "$1")
top=$(realpath "$(dirname "$0")/..")
folder=$(mktemp -d)
trap 'rm -rf "$folder"' EXIT
system=$(getconf PATH)
passed=0
failed=0

# begin PAGE: into a new folder with what the repository has, but for its crates, and the program where README's build leaves it
begin() {
  local here=$folder/$1 entry
  mkdir -p "$here/crates/vickrey/out" "$folder/$1.tmp" && cd "$here" || exit 1
  for entry in "$top"/*; do
    [ "$entry" = "$top/crates" ] || cp -r "$entry" .
  done
  cp -r "$top/crates/vickrey/data" crates/vickrey
  cp "$program" crates/vickrey/out/vickrey
}

# The commands of a page, from a line on: its blocks of the shell
blocks() { awk -v from="${2:-}" '$0 == from { begun = 1 } /^```/ { inside = ($0 == "```sh"); next } inside && (begun || from == "")' "$1"; }

# What a page shows beside them: the lines of its other blocks
shown() { awk '/^```/ { inside = !inside; other = ($0 == "```"); next } inside && other' "$1"; }

# The commands in the literal blocks of a manual page
examples() { awk '/^\.Bd -literal/ { inside = 1; next } /^\.Ed/ { inside = 0 } inside' "$1" | sed 's/\\e/\\/g'; }

# What stands in for the kit's command
rt() {
  [ "$1" != ci ] || return 0
  shift 2
  out/vickrey "$@"
}

# page NAME PATH TEXT..: the commands of standard input end well in this folder, and each text is a line of what they print
page() {
  local name=$1 path=$2 commands text
  shift 2
  commands=$(declare -f rt; cat)
  if ! env -i HOME="$folder" PATH="$path" TMPDIR="$PWD.tmp" bash -euo pipefail -c "$commands" >"$PWD.printed" 2>&1 </dev/null; then
    failed=$((failed + 1))
    echo "FAILED: $name: $(tail -n 3 "$PWD.printed")"
    return
  fi
  for text in "$@"; do
    grep -qxF -- "$text" "$PWD.printed" || { failed=$((failed + 1)); echo "FAILED: $name: no line '$text'"; return; }
  done
  passed=$((passed + 1))
}

begin README
mapfile -t lines < <(shown README.md)
page README.md "$system" "${lines[@]}" < <(blocks README.md)
begin worked
page 'the worked auction of README.md' "$system" 'sealed seat 7 lanes 2' 'proved winner 7 price 9' answered 'board: OK' accepted \
  < <(blocks README.md '## A worked auction')

# In the folder that this auction was held in: what README says of it beside its blocks
tried=$PWD/crates/vickrey/out:$system
auction=$(find "$PWD.tmp" -name digest | head -n 1)
mkdir "$folder/faults" && cd "$folder/faults" || exit 1
[ -z "$auction" ] || cp "${auction%digest}"* .
page 'what README.md says of faults' "$tried" 'refused dear price' 'malformed short line 21' \
  "house other challenge kept $(sed -n 's/^bits //p' challenge)" <<'END'
sed '7s/.*/price 16/' board >dear
head -n 20 board >short
sed '/^bits/y/01/10/' challenge >other
vickrey verify dear challenge reply || [ $? = 1 ]
vickrey verify short challenge reply || [ $? = 4 ]
vickrey answer "$(sed -n 's/^auction //p' board)" other other-reply || [ $? = 8 ]
END

begin AUCTION
page docs/AUCTION.md "$system" 'joined auditors 3 bits 40' 'Seat 7 wins and pays 97.50 EUR. All 23 checks hold.' \
  'Seat 7 wins and pays 97.50 EUR. All 20 checks hold.' '24 ok, 0 FAILED' 'proved unsold' '12 ok, 0 FAILED' 'taken seat 3 position 1' \
  < <(blocks docs/AUCTION.md)
begin CLAIMS
page docs/CLAIMS.md "$system" 'claim-sample uniform 1' 'inputs 10 lanes 8 wires 747 rows 56' accepted 'refused claim-reply-1 lane 2 row 41' \
  'refused turned public' 'claim-sample matching 2' 'inputs 32 lanes 8 wires 548 rows 88' 'refused claim-reply-1 lane 1 row 64' \
  'refused doubled public' < <(blocks docs/CLAIMS.md)
begin MANY
page docs/MANY.md "$system" '     20 accepted' '     20 width 16 lanes 40 seals 3 phase answered' 20 < <(blocks docs/MANY.md)
begin METHOD
page docs/METHOD.md "$PWD/crates/vickrey/out:$system" coin.svg crates.svg < <(blocks docs/METHOD.md)
begin manual
page docs/vickrey.1 "$PWD/crates/vickrey/out:$system" answered accepted 'joined auditors 2 bits 2' 'held seat 7' < <(examples docs/vickrey.1)
echo "$passed passed, $failed failed"
[ "$failed" = 0 ]
