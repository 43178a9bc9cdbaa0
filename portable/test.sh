#!/usr/bin/env bash
# portable/test.sh PROGRAM VECTORS [PART..]: tries the program on node, portable/vickrey.js, beside
# the built program. It wants Linux, root, the kit, gcc, node, python3 and sqlite3. The parts:
#   calls     each call of the system beside the system's own (trials/calls.sh)
#   vectors   the cases of all folders of VECTORS, or of FOLDERS alone, with their runner
#             `run-cases`; those of files of version 0, which neither program reads, end as they do
#             with the built program; those of hostile files run in forks, as in the part `hostile`
#   program   checks/program.sh, checks/house.sh, and KILLS (20) kills a kind of checks/kill.py
#   turns     checks/house.sh and the cases of a house, by the built program and node in turns
#   two       two processes on one store (trials/two.py)
#   helpers   when a helper is started, be it perl or python3 (trials/helpers.js)
#   hostile   checks/hostile.py where each call of the system fails, is interrupted or moves little,
#             is a kill; full disks and outputs, odd names, places that can't be written; then the
#             kills again, with the built program going on behind. Of each table it tries a sample,
#             or with QUICK= all of it, by WORKERS (2) at a time; of TABLES alone where these are
#             set. Runs are forks of one process of node (trials/forks.js), where its headers are
#             there, but those that get signals
#   kills     a kill at every call of the first opening of a store, and of `submit`, `prove` and
#             `answer`, behind which the built program goes on
#   refused   what is refused: no helper for a lock, a damaged module, another system
# Where none is named, all of them. The status is 0 where nothing fails.
set -u
[ $# -ge 2 ] || { sed -n '2,21s/^# //p' "$0"; exit 2; }
here=$(realpath "$(dirname "$0")")
top=$(dirname "$here")
program=$(realpath "$1")
vectors=$(realpath "$2")
shift 2
[ $# -gt 0 ] || set -- calls vectors program turns two helpers hostile kills refused
node=$(command -v node)
work=$(mktemp -d)
trap 'kill ${server-} 2>/dev/null; rm -rf "$work"' EXIT
chmod 755 "$work"
failed=0

# wrapper NAME COMMAND..: a program of that name that is this command
wrapper() {
  local name=$1
  shift
  printf '#!/bin/sh\nexec %s"$@"\n' "$(printf '%q ' "$@")" >"$work/$name"
  chmod 755 "$work/$name"
}

# note WHAT COMMAND..: a fault is counted, and it goes on
note() {
  local what=$1 last
  shift
  if ! "$@" >"$work/said" 2>&1; then
    failed=$((failed + 1))
    echo "FAILED: $what"
    grep -v '^$' "$work/said" | tail -n 40
  fi
  last=$(tail -n 1 "$work/said")
  echo "$what: ${last:-as it has to be}"
}

calls() { note 'calls of the system' "$here/trials/calls.sh"; }

# cases COMMAND FOLDER..: their cases
cases() {
  local command=$1 folder
  shift
  for folder; do
    note "cases of $folder" python3 "$vectors/run-cases" "$command" "$vectors/$folder"
  done
}

# as_program FOLDER: its cases end on node as with the built program, those that fail too
as_program() {
  python3 "$vectors/run-cases" "$program" "$vectors/$1" >"$work/there"
  python3 "$vectors/run-cases" "$work/portable" "$vectors/$1" >"$work/here"
  diff "$work/there" "$work/here" && tail -n 1 "$work/here" | grep ' passed, '
}

vectors() {
  local folder
  for folder in "$vectors"/*/cases; do
    folder=$(basename "$(dirname "$folder")")
    [[ " ${FOLDERS:-$folder} " == *" $folder "* ]] || continue
    case $folder in
      # Most of its files are of version 0, which neither program reads
      first-path) note "cases of $folder, as the built program" as_program "$folder" ;;
      # More than a thousand
      hostile)
        launcher in-forks "$work/portable" 1
        cases "$work/in-forks" "$folder"
        ;;
      *) cases "$work/portable" "$folder" ;;
    esac
  done
}

program() {
  note 'checks/program.sh' "$top/checks/program.sh" "$work/portable"
  note 'checks/house.sh' "$top/checks/house.sh" "$work/portable"
  note 'checks/kill.py' python3 "$top/checks/kill.py" "$work/portable" "${KILLS:-20}"
}

turns() {
  note 'checks/house.sh in turns' "$top/checks/house.sh" "$work/turns"
  cases "$work/turns" house ledger
}

two() { note 'two processes on one store' python3 "$here/trials/two.py" "$program"; }

helpers() {
  local helper place
  for helper in perl python3; do
    mkdir "$work/$helper"
    place=$(command -v $helper)
    # Where a script stands in its place, which wants more than this: Python itself
    [ $helper = perl ] || place=$(python3 -c 'import os, sys; print(os.path.realpath(sys.executable))')
    ln -s "$place" "$work/$helper/$helper"
    note "helpers, $helper" env "PATH=$work/$helper" "$node" "$here/trials/helpers.js" "$work/locked"
  done
}

# forks: a process of node that has the module loaded, and makes each run in a fork of its own
# (trials/forks.js), at $work/socket. Where node's headers aren't there, each run starts node
forks() {
  local headers
  [ -z "${server-}" ] || return 0
  server=none
  headers=$(dirname "$(dirname "$(realpath "$node")")")/include/node
  if ! gcc -shared -fPIC -O1 -I "$headers" "$here/trials/forks.c" -o "$work/forks.node"; then
    echo "each run starts node: there is no addon by $headers"
    return 0
  fi
  env -i "LD_PRELOAD=$work/forks.node" "$node" --single-threaded "$here/trials/forks.js" \
    "$work/forks.node" "$work/socket" &
  server=$!
  until [ -S "$work/socket" ]; do
    sleep 0.1
    kill -0 $server || return 0
  done
}

# launcher NAME OTHER IN_FORKS: the program on node whose calls fail as the settings say; where
# there are no such settings, the program OTHER, or where IN_FORKS is 1 the one on node in a fork.
# It is linked statically, so that nothing is loaded before it
launcher() {
  forks
  gcc -static -O1 "-DNODE=\"$node\"" "-DSCRIPT=\"$here/trials/faults.js\"" "-DOTHER=\"$2\"" \
    "-DIN_FORKS=$3" "-DSOCKET=\"$work/socket\"" "-DDISKS=\"$(readlink /proc/self/ns/mnt)\"" \
    "$here/trials/launch.c" -o "$work/$1"
}

# attack WHAT PROGRAM WORD..: checks/hostile.py, of a sample where QUICK isn't empty, by WORKERS
attack() {
  local what=$1 program=$2 settings=(--workers "${WORKERS:-2}")
  shift 2
  [ "${QUICK-yes}" != yes ] || settings+=(--quick)
  note "$what" python3 "$top/checks/hostile.py" "$program" "${settings[@]}" "$@"
}

hostile() {
  local table
  launcher faulty "$work/portable" 1
  # A signal goes to the process that was started, which has to be node's own
  launcher signalled "$work/portable" 0
  launcher before-program "$program" 0
  for table in ${TABLES:-calls interrupted killed disk output places spellings}; do
    if [ "$table" != killed ]; then
      attack "hostile: $table" "$work/faulty" --no-closed --only "$table"
    else
      attack 'hostile: killed' "$work/signalled" --no-closed --only killed
      attack 'hostile: killed, and then the built program' "$work/before-program" --only killed
    fi
  done
}

kills() {
  launcher killed "$program" 0
  QUICK='' attack 'killed at every call' "$work/killed" --only killed \
    --of announce,submit,prove,answer
}

# refusal STATUS TEXT COMMAND..: it ends so and says the text, and leaves no file but those of a store
refusal() {
  local status=$1 text=$2 got
  shift 2
  rm -rf "$work/place"
  mkdir "$work/place"
  (cd "$work/place" && "$@" >"$work/out" 2>"$work/err")
  got=$?
  if [ $got -ne "$status" ] || ! grep -qF -- "$text" "$work/err"; then
    echo "status $got, not $status; said $(cat "$work/err")"
    return 1
  fi
  [ "$(find "$work/place" -type f -size +0 | wc -l)" -eq 0 ]
}

refused() {
  local id=000102030405060708090a0b0c0d0e0f helper
  mkdir "$work/bin" "$work/copy"
  ln -s "$node" "$work/bin/node"
  note 'no helper for a lock' refusal 6 'neither perl nor python3' \
    env "PATH=$work/bin" node "$here/vickrey.js" announce $id 4 2
  # One that is there and starts nothing, as a script does whose interpreter is missing
  for helper in perl python3; do
    printf '#!/bin/sh\nexit 127\n' >"$work/bin/$helper"
    chmod 755 "$work/bin/$helper"
  done
  note 'no helper that starts' refusal 6 'neither perl nor python3' \
    env "PATH=$work/bin" node "$here/vickrey.js" announce $id 4 2
  cp "$here"/*.js "$here"/vickrey.wasm.* "$work/copy"
  truncate -s -1000 "$work/copy/vickrey.wasm.gz"
  note 'a damaged module' refusal 69 'unexpected end of file' node "$work/copy/vickrey.js" show $id
  printf 'Object.defineProperty(process, "platform", { value: "win32" });' >"$work/windows.js"
  note 'another system' refusal 69 'it runs under Linux alone' \
    node -r "$work/windows.js" "$here/vickrey.js" show $id
  printf 'Object.defineProperty(process, "arch", { value: "arm" });' >"$work/arm.js"
  note 'a processor of 32 bits' refusal 69 'processors of 64 bits' \
    node -r "$work/arm.js" "$here/vickrey.js" show $id
}

wrapper portable "$node" "$here/vickrey.js"
: >"$work/counter"
chmod 666 "$work/counter"
wrapper turns "$here/trials/turns.sh" "$work/counter" "$program"
for part; do
  case $part in
    calls | vectors | program | turns | two | helpers | hostile | kills | refused) $part ;;
    *) echo "test.sh: no part $part"; exit 2 ;;
  esac
done
echo "$failed failed"
[ $failed -eq 0 ]
