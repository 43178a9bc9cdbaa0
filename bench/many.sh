#!/usr/bin/env bash
# bench/many.sh PROGRAM [COUNT]: how many small auctions a machine holds and checks, each in a folder of its own (docs/MANY.md).
#
# It makes COUNT auctions (1000), each with announce, seal, submit, prove and answer, with 1, 2, 4 processors and so on, as
# `xargs -P` starts them, and then verifies them all likewise. An auction has 3 seals of width 16 with 40 lanes. Bids, seeds and
# challenges are worked out from its number and not drawn, so that all runs do the same; each winner and price is worked out
# beside the program, and each reply has to be accepted. Then it times single commands on an auction alone, with 200 auctions in
# other folders beside it, and with these 200 in its own store. The best of ROUNDS rounds (9) counts there, and of 3 before. It
# takes minutes, and 2.5 GB in a new folder of TMPDIR; in /dev/shm no disk is waited for.
set -eu
usage() { sed -n '2,9s/^# \{0,1\}//p' "$0"; exit 2; }
if [ $# -lt 1 ] || [ $# -gt 2 ] || [[ ! ${2:-1000} =~ ^[1-9][0-9]{0,6}$ ]]; then usage; fi
program=$(realpath "$1")
count=${2:-1000}
rounds=${ROUNDS:-9}
others=200
width=16
lanes=40
folder=$(mktemp -d)
trap 'rm -rf "$folder"' EXIT
cd "$folder"
export program width lanes

fail() { echo "many.sh: $*" >&2; exit 1; }

# id_of NUMBER: `id` is that of the auction
id_of() { printf -v id '%032x' "$1"; }

# seal_of NUMBER SEAT FOLDER: writes secret-SEAT and seal-SEAT of the auction NUMBER there; `bid` is the bid
seal_of() {
  local seed
  bid=$((($1 * 7919 + $2 * $2 * 10007) % (1 << width)))
  printf -v seed '%064x' $(($1 * 100 + $2))
  "$program" seal "$id" "$2" "$bid" $width $lanes "$seed" "$3/secret-$2" "$3/seal-$2"
}

# outcome BID..: what `prove` has to say of bids at the seats 1, 2 and so on
outcome() {
  local bid winner=0 seat=0 best=-1 second=0
  for bid in "$@"; do
    seat=$((seat + 1))
    if [ "$bid" -gt "$best" ]; then
      if [ "$best" -ge 0 ]; then second=$best; fi
      best=$bid winner=$seat
    elif [ "$bid" -gt "$second" ]; then
      second=$bid
    fi
  done
  said="proved winner $winner price $second"
}

# challenge_of NUMBER FOLDER: writes a challenge there
challenge_of() {
  local bits='' lane
  for ((lane = 0; lane < lanes; lane++)); do bits+=$((($1 >> lane % 10 ^ lane * lane / 7) & 1)); done
  printf 'vickrey-challenge 1\nbits %s\nend\n' "$bits" >"$2/challenge"
}

# hold NUMBER: a whole auction, in a new folder of that name, by a seller that keeps nothing else there
hold() {
  local id bid bids=() said seat seed
  mkdir "$1" && cd "$1" || exit 1
  id_of "$1"
  printf -v seed '%064x' "$1"
  {
    "$program" announce "$id" $width $lanes
    for seat in 1 2 3; do
      seal_of "$1" $seat .
      bids+=("$bid")
      "$program" submit "$id" "seal-$seat" "secret-$seat"
    done
    "$program" prove "$id" "$seed" board
    challenge_of "$1" .
    "$program" answer "$id" challenge reply
  } >lines
  outcome "${bids[@]}"
  if ! grep -qxF "$said" lines || ! grep -qxF answered lines; then
    echo "auction $1 says: $(cat lines)" >&2
    exit 255
  fi
}

# hold_some NUMBER..
hold_some() {
  local number
  for number in "$@"; do (hold "$number"); done
}
export -f id_of seal_of outcome challenge_of hold hold_some

# verify NUMBER..: the words of xargs for a verdict; `{}` is the number
verify=("$program" verify '{}/board' '{}/challenge' '{}/reply')

# clock: microseconds
clock() { now=${EPOCHREALTIME/./}; }

# hold_all PROCESSORS: the seconds' millionths that the auctions 1 to COUNT take are `took`
hold_all() {
  local start
  rm -rf auctions && mkdir auctions
  clock; start=$now
  seq "$count" | (cd auctions && xargs -P "$1" -n 10 bash -euc 'hold_some "$@"' hold) || fail 'see above'
  clock; took=$((now - start))
}

# verify_all PROCESSORS: as above, the best of three rounds
verify_all() {
  local start round
  took=''
  for round in 1 2 3; do
    clock; start=$now
    seq "$count" | (cd auctions && xargs -P "$1" -I '{}' "${verify[@]}") >verdicts || fail "round $round: a reply isn't accepted"
    clock
    [ "$(grep -cx accepted verdicts)" = "$count" ] || fail 'not every reply is accepted'
    if [ -z "$took" ] || [ $((now - start)) -lt "$took" ]; then took=$((now - start)); fi
  done
}

# rate MICROSECONDS AMOUNT: so much a second, with one digit behind the point
rate() { awk -v took="$1" -v amount="$2" 'BEGIN { printf "%.1f", amount * 1000000 / took }'; }

# processors: 1, 2, 4 and so on, and the last is all that there are
processors() {
  local number=1
  while [ $number -lt "$(nproc)" ]; do echo $number; number=$((number * 2)); done
  nproc
}

# bytes FILE..: how many the files have together
bytes() { cat "$@" | wc -c; }

throughput() {
  local number held size=''
  printf '%-12s %15s %19s %12s\n' processors 'held a second' 'verified a second' 'MB a second'
  for number in $(processors); do
    hold_all "$number"
    held=$took
    [ -n "$size" ] || size=$(bytes auctions/*/board auctions/*/reply)
    verify_all "$number"
    printf '%-12s %15s %19s %12s\n' "$number" "$(rate "$held" "$count")" "$(rate "$took" "$count")" \
      "$(rate "$took" $((size / 1000000)))"
  done
  echo "$count auctions, $((size / count)) bytes of board and reply each; all replies accepted"
  petabyte $((size * 1000000 / took)) "of such auctions, on all $(nproc)"
}

# petabyte BYTES-A-SECOND WHAT: what 10^15 bytes of boards and replies take, computed
petabyte() {
  awk -v rate="$1" -v what="$2" 'BEGIN { printf "computed: a petabyte %s, takes %.1f days\n", what, 1e15 / rate / 86400 }'
}

# large_board: the same of the files of `sample 1`
large_board() {
  local start round took='' size
  mkdir large && cd large
  "$program" sample 1 >said
  size=$(bytes sample-board sample-reply-1)
  for ((round = 0; round < rounds; round++)); do
    clock; start=$now
    [ "$("$program" verify sample-board sample-challenge-1 sample-reply-1)" = accepted ] || fail 'the sample is not accepted'
    clock
    if [ -z "$took" ] || [ $((now - start)) -lt "$took" ]; then took=$((now - start)); fi
  done
  cd ..
  echo "the files of \`sample 1\`, $size bytes of board and reply: $((took / 1000)) ms, $((size / took)) MB a second"
  petabyte $((size * 1000000 / took)) 'of such files, on one processor'
}

# keep STAGE: keeps the store as it is; back STAGE: puts it back
keep() { mkdir "stage-$1" && if [ -e house.sqlite ]; then cp house.sqlite* "stage-$1"; fi; }
back() { rm -f house.sqlite*; if [ -e "stage-$1/house.sqlite" ]; then cp "stage-$1"/* .; fi; }

# stages SEALS: in this folder, the stages of one more auction: before announce, the last submit, prove and answer. Its other
# files lie in files-SEALS
stages() {
  local seat id bid number=$((1000000 + $1)) files=files-$1
  mkdir "$files"
  id_of $number
  challenge_of $number "$files"
  keep "announce-$1"
  "$program" announce "$id" $width $lanes
  for ((seat = 1; seat <= $1; seat++)); do
    seal_of $number $seat "$files"
    if [ "$seat" = "$1" ]; then keep "submit-$1"; fi
    "$program" submit "$id" "$files/seal-$seat" "$files/secret-$seat"
  done
  keep "prove-$1"
  "$program" prove "$id" "$(printf '%064x' $number)" "$files/board"
  keep "answer-$1"
  back "announce-$1"
}

# words COMMAND SEALS: what is timed of that auction
words() {
  local id files=files-$2
  id_of $((1000000 + $2))
  case $1 in
    announce) echo "announce $id $width $lanes" ;;
    submit) echo "submit $id $files/seal-$2 $files/secret-$2" ;;
    prove) echo "prove $id $(printf '%064x' $((1000000 + $2))) $files/board" ;;
    answer) echo "answer $id $files/challenge $files/reply" ;;
  esac
}

# measure PLACE COMMAND SEALS: one run, from its stage; the best counts
measure() {
  local start text
  cd "$1"
  back "$2-$3"
  text=$(words "$2" "$3")
  clock; start=$now
  # shellcheck disable=SC2086 # the words of a command
  "$program" $text >said || fail "$text says: $(cat said)"
  clock
  cd - >/dev/null
  if [ $((now - start)) -lt "${best[$1 $2 $3]:-999999999}" ]; then best[$1 $2 $3]=$((now - start)); fi
}

# places: an auction alone, one among the folders of OTHERS auctions, and one in the store of OTHERS auctions
places() {
  local number
  mkdir -p alone/one beside/one together
  for ((number = 1; number <= others; number++)); do (cd beside && hold $number) || exit 1; done
  cd together
  for ((number = 1; number <= others; number++)); do share $number; done >said
  cd ..
  for number in 3 64; do
    for place in alone/one beside/one together; do (cd $place && stages $number) >said; done
  done
}

# share NUMBER: that auction once more, in the store of this folder
share() {
  local id seat from=../beside/$1
  id_of "$1"
  "$program" announce "$id" $width $lanes
  for seat in 1 2 3; do "$program" submit "$id" "$from/seal-$seat" "$from/secret-$seat"; done
  "$program" prove "$id" "$(printf '%064x' "$1")" board
  "$program" answer "$id" "$from/challenge" reply
}

# row NAME COMMAND SEALS: the best times of the three places, in milliseconds
row() {
  local place
  printf '%-24s' "$1"
  for place in alone/one beside/one together; do
    awk -v took="${best[$place $2 $3]}" 'BEGIN { printf " %22.1f", took / 1000 }'
  done
  echo
}

commands() {
  local round place timed
  local -A best
  places
  for ((round = 0; round < rounds; round++)); do
    for timed in 'announce 3' 'submit 3' 'prove 3' 'answer 3' 'submit 64'; do
      # shellcheck disable=SC2086 # a command and a number of seals
      for place in alone/one beside/one together; do measure $place $timed; done
    done
  done
  printf '\n%-24s %22s %22s %22s\n' 'milliseconds' alone "beside $others folders" "with $others in its store"
  row 'announce' announce 3
  row 'submit the 3rd of 3' submit 3
  row 'prove of 3 seals' prove 3
  row 'answer of 3 seals' answer 3
  row 'submit the 64th of 64' submit 64
  echo "the store with $others auctions more has $(bytes together/stage-announce-3/*) bytes"
}

echo "$(sed -n 's/^model name[^:]*: //p' /proc/cpuinfo | head -n 1), $(nproc) processors"
throughput
large_board
rm -rf auctions large
commands
