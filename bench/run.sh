#!/usr/bin/env bash
# bench/run.sh PROGRAM: how long the program takes, beside a plain verifier in C, on files of their own making. One table.
#
# `sample 1` of the program makes the board of 20 seals and 40 lanes that the first rows judge. bench/baseline/verify.c does
# the least that a verdict takes; it is built without hashing, with a scalar SHA-256, and, where its headers are installed,
# with OpenSSL's. bench/make_board.py, which is written from docs/FORMATS.md alone, makes the boards of other sizes
# (seals:width:lanes), one of each version of the same bids, of which that of version 2 has a reserve below its price, and
# so the same circuit, claim files of 64 inputs with one, some and many winners, and matchings (men:width:lanes), up to 16
# men and 16 women, each beside bench/baseline/hash.c, which makes as many digests as its reply has openings. The last rows
# are of a house of 64 seals with 64 lanes at width 40, over a real file, alone and beside 200 auctions of 20 seals with 40
# lanes. Each round runs every row once, so that all meet the same noise; the best of each counts. ROUNDS (5) says how many
# rounds, CPU the processor that the runs are pinned to, CC the compiler. It takes 1 GB of disk, and minutes.
set -eu
[ $# -eq 1 ] || { sed -n '2,12p' "$0"; exit 2; }
program=$(realpath "$1")
here=$(cd "$(dirname "$0")" && pwd)
folder=$(mktemp -d)
trap 'rm -rf "$folder"' EXIT
cd "$folder"
pin=${CPU:+taskset -c $CPU}
cc=${CC:-cc}
id=000102030405060708090a0b0c0d0e0f

names=()
declare -A command last before best peak

# row NAME LAST-LINE COMMAND [BEFORE]: what is timed, the last line that it has to print, and what is done before each run
row() {
  names+=("$1")
  last[$1]=$2
  command[$1]=$3
  before[$1]=${4:-true}
}

sample_rows() {
  local files='sample-board sample-challenge-1 sample-reply-1'
  "$program" sample 1 >said
  "$cc" -O3 -DNOHASH -o no-hashing "$here/baseline/verify.c"
  "$cc" -O3 -o scalar "$here/baseline/verify.c"
  row 'C, no hashing' accepted "./no-hashing $files"
  row 'C, scalar SHA-256' accepted "./scalar $files"
  if "$cc" -O3 -DOPENSSL -o openssl "$here/baseline/verify.c" -lcrypto 2>/dev/null; then
    row 'C, OpenSSL' accepted "./openssl $files"
  fi
  row verify accepted "$program verify $files"
  row extract end "$program extract $files sample-challenge-2 sample-reply-2"
  row coin-board 'derived bits 40' "$program coin-board sample-board derived"
  row 'sample 1' end "$program sample 1"
}

size_rows() {
  local size files
  for size in 20:40:1 20:40:4 20:40:16 20:40:64 4:40:2 16:40:2 64:40:2; do
    mkdir "$size"
    python3 "$here/make_board.py" ${size//:/ } 1 "$size"
    files="$size/board $size/challenge-1 $size/reply-1"
    row "verify $size" accepted "$program verify $files"
    row "extract $size" end "$program extract $files $size/challenge-2 $size/reply-2"
  done
}

version_rows() {
  local name
  python3 "$here/make_board.py" 20 40 40 1 version-1
  python3 "$here/make_board.py" 20 40 40 1 version-2 above
  for name in version-1 version-2; do
    row "verify 20:40:40, ${name/-/ }" accepted "$program verify $name/board $name/challenge-1 $name/reply-1"
  done
}

# hashing_row NAME REPLY: as many digests in C as the reply has openings
hashing_row() {
  local openings
  openings=$(grep -oE '[0-9a-f]{64} ' "$2" | wc -l)
  row "$openings digests in C, $1" "hashed $openings" "./hashing $openings"
}

claim_rows() {
  local units
  "$cc" -O3 -o hashing "$here/baseline/hash.c"
  row 'claim-sample uniform 1' end "$program claim-sample uniform 1"
  for units in 1 8 32; do
    python3 "$here/make_board.py" 64 40 2 1 "units-$units" "units:$units"
    row "claim-verify 64:40:2, $units won" accepted \
      "$program claim-verify units-$units/claim units-$units/challenge-1 units-$units/reply-1"
    hashing_row "$units won" "units-$units/reply-1"
  done
}

matching_rows() {
  local size
  row 'claim-sample matching 1' end "$program claim-sample matching 1"
  for size in 4:2:2 16:4:2 16:16:2 16:4:40; do
    python3 "$here/make_board.py" ${size//:/ } 1 "matching-$size" matching
    row "claim-verify $size, matching" accepted \
      "$program claim-verify matching-$size/claim matching-$size/challenge-1 matching-$size/reply-1"
    hashing_row "$size" "matching-$size/reply-1"
  done
}

# state NAME: keeps the store as it is, to be put back before each run
state() {
  cp house.sqlite "$1"
  if [ -e house.sqlite-wal ]; then cp house.sqlite-wal "$1-wal"; else : >"$1-wal"; fi
}

house_rows() {
  local seat seed
  seed=$(printf '%064d' 7)
  printf 'vickrey-challenge 1\nbits %s\nend\n' "$(printf '01%.0s' $(seq 32))" >challenge
  "$program" announce $id 40 64 >said
  for seat in $(seq 64); do
    "$program" seal $id "$seat" $((seat * 1000000007)) 40 64 "$(printf '%064d' "$seat")" "secret-$seat" "seal-$seat" >said
    [ "$seat" = 64 ] || "$program" submit $id "seal-$seat" "secret-$seat" >said
  done
  row 'seal, 64 lanes' 'sealed seat 64 lanes 64' "$program seal $id 64 64000000448 40 64 $(printf '%064d' 64) secret-64 seal-64"
  state taken
  row 'submit the 64th' 'taken seat 64 position 64' "$program submit $id seal-64 secret-64" 'restore taken'
  "$program" submit $id seal-64 secret-64 >said
  state full
  row 'prove 64:40:64' "$("$program" prove $id "$seed" board)" "$program prove $id $seed board" 'restore full'
  state proved
  row 'answer 64:40:64' answered "$program answer $id challenge reply" 'restore proved'
  "$program" answer $id challenge reply >said
  row 'verify 64:40:64' accepted "$program verify board challenge reply"
  restore proved
  row 'show' "$("$program" show $id)" "$program show $id" 'restore proved'
}

# many_rows: the rows of the house over stores that keep 200 auctions more
many_rows() {
  local name
  restore proved
  announce_other
  state proved-other
  for name in taken full proved; do
    restore $name
    add_others
    state "many-$name"
  done
  row 'show, of 201' "$("$program" show $id)" "$program show $id" 'restore many-proved'
  row 'submit the 64th, of 201' 'taken seat 64 position 64' "$program submit $id seal-64 secret-64" 'restore many-taken'
  row 'prove 64:40:64, of 201' "$("$program" prove $id "$(printf '%064d' 7)" board)" "$program prove $id $(printf '%064d' 7) board" 'restore many-full'
  row 'answer 64:40:64, of 201' answered "$program answer $id challenge reply" 'restore many-proved'
}

# announce_other: one more auction, of 20 seals with 40 lanes
announce_other() {
  local seat other=101112131415161718191a1b1c1d1e1f
  "$program" announce $other 40 40 500 >said
  for seat in $(seq 20); do
    "$program" seal $other "$seat" $((seat * 1000000007)) 40 40 "$(printf '%064d' "$seat")" other-secret other-seal >said
    "$program" submit $other other-seal other-secret >said
  done
}

# add_others: puts 200 copies of that auction, each under an id of its own, into the store that is there
add_others() {
  python3 - <<'COPIES'
import sqlite3

other = bytes(range(16, 32))
store = sqlite3.connect("house.sqlite")
store.execute("ATTACH 'proved-other' AS source")
for table in ("auction", "terms", "seal"):
    rest = ", ".join(row[1] for row in store.execute(f"PRAGMA table_info({table})") if row[1] != "id")
    for number in range(200):
        words = f"INSERT INTO main.{table} (id, {rest}) SELECT ?, {rest} FROM source.{table} WHERE id = ?"
        store.execute(words, (number.to_bytes(16, "little"), other))
store.commit()
COPIES
}

# size NAME: of a store that was kept as it was, with its log, in megabytes
size() { awk '{ printf "%.1f", $1 / 1000000 }' < <(cat "$1" "$1-wal" | wc -c); }

restore() {
  cp "$1" house.sqlite
  cp "$1-wal" house.sqlite-wal
}

# measure NAME: runs the row once, and keeps its time where it is the best
measure() {
  local start took
  ${before[$1]}
  start=${EPOCHREALTIME/./}
  # shellcheck disable=SC2086 # the words of a command
  $pin ${command[$1]} >said
  took=$((${EPOCHREALTIME/./} - start))
  [ "$(tail -n 1 said)" = "${last[$1]}" ] || { echo "$1 says: $(tail -n 1 said)"; exit 1; }
  [ "${best[$1]:-999999999}" -le "$took" ] || best[$1]=$took
}

# ratio NAME OTHER: the first time by the second, where both are of the sample
ratio() {
  case $1 in
    C,* | verify | extract | 'sample 1')
      [ -z "${best[$2]:-}" ] || printf '%d.%02d' $((best[$1] / best[$2])) $((best[$1] * 100 / best[$2] % 100)) ;;
  esac
}

sample_rows
size_rows
version_rows
claim_rows
matching_rows
house_rows
many_rows
for name in "${names[@]}"; do
  ${before[$name]}
  # shellcheck disable=SC2086 # the words of a command
  peak[$name]=$({ /usr/bin/time -f %M $pin ${command[$name]} >said; } 2>&1 | tail -n 1)
done
for _ in $(seq "${ROUNDS:-5}"); do
  for name in "${names[@]}"; do measure "$name"; done
done

echo "$(sed -n 's/^model name[^:]*: //p' /proc/cpuinfo | head -n 1), best of ${ROUNDS:-5} rounds"
printf '%-30s %9s %9s %9s %10s\n' '' seconds 'peak MB' '/ scalar' '/ OpenSSL'
for name in "${names[@]}"; do
  printf '%-30s %5d.%03d %9s %9s %10s\n' "$name" $((best[$name] / 1000000)) $((best[$name] % 1000000 / 1000)) \
    "$((peak[$name] / 1024)).$((peak[$name] % 1024 * 10 / 1024))" "$(ratio "$name" 'C, scalar SHA-256')" "$(ratio "$name" 'C, OpenSSL')"
done
echo "the store of that house: $(size proved) MB alone, $(size many-proved) MB beside 200 auctions"
