#!/usr/bin/env bash
# page/test.sh MODULE PROGRAM VECTORS: tries the module, as page/build.sh makes it, under node.
#   1. page/heap_test.js: the heap of page/runtime.c
#   2. the cases of VECTORS, folders of cases with their runner `run-cases`, with the module in the
#      place of the program. Cases are left out and counted that have a space in a word, as no word
#      of the module's line has; a file of 2 GB, for which it has no room; or a house that keeps an
#      auction from one command to the next.
#   3. page/changed.js: sets of files on which the module and PROGRAM have to agree
# COUNT (2500) and SEED (1) are those of page/changed.js. The status is 0 where nothing fails.
set -u
[ $# -eq 3 ] || { sed -n '2,10s/^# //p' "$0"; exit 2; }
here=$(realpath "$(dirname "$0")")
module=$(realpath "$1")
program=$(realpath "$2")
vectors=$(realpath "$3")
work=$(mktemp -d)
trap 'rm -rf "$work"' EXIT
failed=0

# Without the auctioneer's commands as processes of their own, which need a store
folders=(verify extract confront report seals sample ceremony reserve claims matching coin hostile)

cat >"$work/command" <<COMMAND
#!/bin/sh
exec node '$here/command.js' '$module' "\$@"
COMMAND
chmod +x "$work/command"

# left_out CASE: whether it is one of those
left_out() {
  if [ -f "$1/args" ]; then
    grep -q ' ' "$1/args"
  else
    steps=$1
    [ ! -d "$1" ] || steps=$1/steps
    grep -qE '^run .*\\x20|^zeros [^ ]+ ([2-9][0-9]{9}|[0-9]{11})|^run (submit|prove|answer) ' "$steps"
  fi
}

# cases FOLDER: its cases but those, as $work/FOLDER; and how many those are
cases() {
  local case
  left=0
  mkdir -p "$work/$1/cases"
  for case in "$vectors/$1"/cases/*; do
    if left_out "$case"; then
      left=$((left + 1))
    else
      ln -s "$case" "$work/$1/cases/"
    fi
  done
  if [ -f "$vectors/$1/cuts.txt" ]; then
    ln -s "$vectors/$1/cuts.txt" "$work/$1/"
  fi
}

# note WHAT STATUS: a fault is counted, and goes on
note() {
  if [ "$2" -ne 0 ]; then
    echo "FAILED: $1"
    failed=$((failed + 1))
  fi
}

"$here/build.sh" --runtime "$work"
node "$here/heap_test.js" "$work/runtime.wasm"
note 'the heap' $?

printf '%-10s %-26s %s\n' cases '' 'left out'
for folder in "${folders[@]}"; do
  cases "$folder"
  said=$(python3 "$vectors/run-cases" "$work/command" "$work/$folder" 2>&1)
  status=$?
  [ $status -eq 0 ] || printf '%s\n' "$said" | head -n -1
  printf '%-10s %-26s %s\n' "$folder" "$(tail -n 1 <<<"$said")" "$left"
  note "the cases of $folder" $status
done

node "$here/changed.js" "$module" "$program" "${COUNT:-2500}" "${SEED:-1}"
note 'changed sets' $?
echo "$failed of $((${#folders[@]} + 2)) parts failed"
[ $failed -eq 0 ]
