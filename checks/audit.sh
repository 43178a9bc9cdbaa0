#!/usr/bin/env bash
# checks/audit.sh PROGRAM: tries demo/audit.sh on an honest auction, and on others where one thing each is wrong: what it says
# is FAILED has to be just that; and that `checker/check.py audit`, with an announcement and Python alone, says the same of each. Then
# demo/take.sh, on a secret that is sent wrong at first. It wants python3, and is no part of the gate. The last line says how many
# cases passed and failed.
set -u
[ $# -eq 1 ] || { sed -n '2,5p' "$0"; exit 2; }
program=$(realpath "$1")
here=$(realpath "$(dirname "$0")")
audit=$here/../demo/audit.sh
checker=$here/../checker/check.py
folder=$(mktemp -d)
trap 'rm -rf "$folder"' EXIT
cd "$folder" || exit 1
passed=0
failed=0
id=000102030405060708090a0b0c0d0e0f
options=()
bits=0110100110
other=1001011001
lanes=${#bits}

failed_case() { failed=$((failed + 1)); echo "FAILED: $*"; }

# tried NAME FOLDER STATUS WORDS FAILURE..: the audit with the options and these words in that folder ends so, and just these
# lines FAILED, each told by a part of it; or with status 2 just these files can't be used, and then nothing FAILED
tried() {
  local name=$1 where=$2 status=$3 got failure lines each
  read -ra each <<<"$4"
  shift 4
  (cd "$where" && "$audit" "${options[@]}" "$program" "${each[@]}") >said 2>errors
  got=$?
  [ "$got" = "$status" ] || { failed_case "$name: status $got, not $status: $(cat said errors)"; return; }
  lines=$(grep -c '^FAILED \|^unread ' said)
  [ "$lines" = $# ] || { failed_case "$name: $lines lines, not $#: $(cat said errors)"; return; }
  for failure in "$@"; do
    grep -q "^\(FAILED\|unread\)  .*$failure" said || { failed_case "$name: no line of '$failure': $(cat said errors)"; return; }
  done
  if [ "$status" = 2 ] && grep -q '^ok \|^FAILED' said; then failed_case "$name: a verdict: $(cat said)"; return; fi
  if [ "$status" != 2 ] && [ -s errors ]; then failed_case "$name: $(cat errors)"; return; fi
  if [ "$status" != 2 ] && ! alone "$where" "${each[@]}"; then failed_case "$name, with Python alone: $(diff with alone)"; return; fi
  passed=$((passed + 1))
}

# announce ID WIDTH LANES SEATS [RESERVE [AUDITORS]]: the announcement of these words
announce() {
  local each seat
  IFS=, read -ra each <<<"$4"
  printf 'vickrey-announcement 1\nauction %s\nkind vickrey\nwidth %s\nlanes %s\nreserve %s\nunit EUR\ndecimals 2\nauditors %s\n' \
    "$1" "$2" "$3" "${5:-none}" "${6:-0}"
  printf '%s none\n' seals secrets board draw reply key
  printf 'place here\nseats %s\n' ${#each[@]}
  for seat in "${each[@]}"; do echo "seat $seat Somebody"; done
  echo end
}

# alone FOLDER DIGEST ID WIDTH LANES SEATS BITS [SECRET]: whether check.py says ok and FAILED of the same by an announcement. What
# it doesn't have is what the program says
alone() {
  local where=$1 digest=$2 id=$3 width=$4 lanes=$5 seats=$6 bits=$7 reserve='' parts='' more=()
  [ $# -lt 8 ] || more+=(--secret "$8")
  case ${options[0]:-} in
    --reserve) reserve=${options[1]} ;;
    --parts) parts=$(wc -l <"$where/${options[1]}") more+=(--parts "${options[1]}") ;;
  esac
  announce "$id" "$width" "$lanes" "$seats" "$reserve" "$parts" >announcement
  (cd "$where" && python3 "$checker" audit ../announcement "$digest" . --bits "$bits" "${more[@]}") >told 2>&1
  grep '^ok \|^FAILED' said | grep -v '  the program ' >with
  grep '^ok \|^FAILED' told >alone
  cmp -s with alone
}

# run STATUS WORD..: the program ends so
run() {
  local status=$1
  shift
  "$program" "$@" >said 2>&1
  [ $? = "$status" ] || { failed_case "vickrey $*: $(cat said)"; exit 1; }
}

# auction FOLDER SEED BITS SEAT..: a board of these seats' seals by an honest auctioneer, and the reply to these bits; with the
# reserve, where there is one
auction() {
  local where=$1 seed=$2 asked=$3 seat
  shift 3
  mkdir "$where" "$where.house" && cd "$where.house" || exit 1
  # shellcheck disable=SC2086 # the reserve is a word or none
  run 0 announce $id 4 "$lanes" ${reserve:-}
  for seat in "$@"; do
    run 0 submit $id "../seal-$seat" "../secret-$seat"
  done
  run 0 prove $id "$seed" "../$where/board"
  printf 'vickrey-challenge 1\nbits %s\nend\n' "$asked" >"../$where/challenge"
  run 0 answer $id "../$where/challenge" "../$where/reply"
  cd ..
  cp seal-7 seal-9 seal-300 "$where"
}

# copy NEW: a copy of the honest auction's public files
copy() { cp -r honest "$1"; }

digest() { sha256sum "$1/board" | cut -d ' ' -f 1; }

for bidder in '7 15' '9 9' '300 4'; do
  read -r seat bid <<<"$bidder"
  run 0 seal $id "$seat" "$bid" 4 "$lanes" "$(printf '%064d' "$seat")" "secret-$seat" "seal-$seat"
done
one=$(printf '%064d' 1)
two=$(printf '%064d' 2)
auction honest "$one" $bits 7 9 300
honest=$(digest honest)
words="$honest $id 4 $lanes 7,9,300 $bits"

# an honest auction, for each bidder and for anybody
tried 'an honest auction' honest 0 "$words"
for seat in 300 9 7; do
  tried "an honest auction, seat $seat" honest 0 "$words ../secret-$seat"
done
if grep -q '^13 ok, 0 FAILED$' said && ! sed "s/$id//; s/$honest//" said | grep -q 15; then
  passed=$((passed + 1))
else
  failed_case "the words of an honest audit, and no bid among them: $(cat said)"
fi

# a board that was made after the draw: an honest one, and one with another outcome, which both checkers accept
auction late "$two" $bits 7 9 300
tried 'a board made after the draw' late 1 "$words" "board's digest"
python3 "$here/foreseen.py" $bits false "$lanes" secret-7=15 secret-9=3 secret-300=4
cp seal-* false
tried 'another outcome, made after the draw' false 1 "$words" "board's digest"
tried 'the same, by a bidder who lost by it' false 1 "$words ../secret-9" "board's digest" 'my bid'
tried 'the same, by one who did not' false 1 "$words ../secret-300" "board's digest"

# a bid above the price: the draw was foreseen, and the digest is public in time
tried 'a bid above the price' false 1 "$(digest false) $id 4 $lanes 7,9,300 $bits ../secret-9" "my bid is above the price"
python3 "$here/foreseen.py" $bits robbed "$lanes" secret-7=3 secret-9=9 secret-300=4
cp seal-* robbed
tried 'the highest bid does not win' robbed 1 "$(digest robbed) $id 4 $lanes 7,9,300 $bits ../secret-7" "my bid is above the price"
python3 "$here/foreseen.py" $bits dear "$lanes" secret-7=3 secret-9=15 secret-300=14
cp seal-* dear
tried 'a price above the bid that won' dear 1 "$(digest dear) $id 4 $lanes 7,9,300 $bits ../secret-9" 'the price is above my bid'
sed 's/^bid 15$/bid 13/' secret-7 >modest
tried 'a secret with another bid' honest 1 "$words ../modest" 'my seal of seat 7'

# a board of one lane, whose digest is public in time
python3 "$here/foreseen.py" $bits short 1 secret-7=15 secret-9=9 secret-300=4
cp seal-* short
tried 'a board of one lane' short 1 "$(digest short) $id 4 $lanes 7,9,300 $bits" lanes 'seat 7 ' 'seat 9 ' 'seat 300 ' 'the challenge'
tried 'a board of one lane, with one bit published' short 1 "$(digest short) $id 4 $lanes 7,9,300 ${bits:0:1}" lanes 'seat 7 ' 'seat 9 ' 'seat 300 '

# a board with a seal less, more, of another, in another order; other announced numbers
auction less "$one" $bits 7 9
tried 'a seal less' less 1 "$(digest less) $id 4 $lanes 7,9,300 $bits" seats 'seat 300 '
tried 'a public seal that nobody told of' honest 1 "$honest $id 4 $lanes 7,9 $bits" seats 'seal-300 is a public seal'
auction turned "$one" $bits 9 7 300
tried 'seals in another order' turned 1 "$(digest turned) $id 4 $lanes 7,9,300 $bits" seats
mkdir kept && mv seal-9 secret-9 kept
run 0 seal $id 9 1 4 "$lanes" "$two" secret-9 seal-9
auction swapped "$one" $bits 7 9 300
cp seal-9 swapped-seal
cp kept/* .
cp seal-9 swapped
tried 'another seal at a seat' swapped 1 "$(digest swapped) $id 4 $lanes 7,9,300 $bits ../secret-9" 'seat 9 is missing' 'my seal of seat 9'
cp swapped-seal swapped/seal-9
tried 'the same, and the public folder has it too' swapped 1 "$(digest swapped) $id 4 $lanes 7,9,300 $bits ../secret-9" 'my seal of seat 9'
tried 'another id' honest 1 "$honest ${id/0f/1f} 4 $lanes 7,9,300 $bits" "board's id"
tried 'another width' honest 1 "$honest $id 5 $lanes 7,9,300 $bits" width
copy gone
rm gone/seal-9
tried 'a seal that is not at hand' gone 2 "$words" 'seal-9: No such file or directory'

# reserves: above the price without one, below it, and above all bids
reserve=12 auction at "$one" $bits 7 9 300
reserve=8 auction above "$one" $bits 7 9 300
reserve=10 auction unsold "$one" $bits 9 300
rm unsold/seal-7
tried 'a reserve that nobody told of' above 1 "$(digest above) $id 4 $lanes 7,9,300 $bits" 'it names a reserve'
for seat in 300 9 7; do
  options=(--reserve 12)
  tried "sold at the reserve, seat $seat" at 0 "$(digest at) $id 4 $lanes 7,9,300 $bits ../secret-$seat"
  options=(--reserve 8)
  tried "sold above the reserve, seat $seat" above 0 "$(digest above) $id 4 $lanes 7,9,300 $bits ../secret-$seat"
done
tried 'an announced reserve that the board has not' honest 1 "$words" "reserve isn't the announced one: none, not 8"
tried 'another reserve' at 1 "$(digest at) $id 4 $lanes 7,9,300 $bits" "reserve isn't the announced one: .12., not 8"
options=(--reserve 10)
for seat in 300 9; do
  tried "unsold, seat $seat" unsold 0 "$(digest unsold) $id 4 $lanes 9,300 $bits ../secret-$seat"
done
python3 "$here/foreseen.py" $bits kept-back "$lanes" reserve=10 secret-7=3 secret-9=9 secret-300=4
cp seal-* kept-back
tried 'not sold, though a bid is above the reserve' kept-back 1 "$(digest kept-back) $id 4 $lanes 7,9,300 $bits ../secret-7" \
  "my bid isn't below the reserve"
tried 'the same, by one who did not bid as much' kept-back 0 "$(digest kept-back) $id 4 $lanes 7,9,300 $bits ../secret-300"
options=(--reserve)
tried 'a word too few behind the option' honest 2 "$words"
options=(--reserve 08)
tried 'a reserve of another form' honest 2 "$words"
options=()

# a challenge by auditors
# drawn AUDITOR..: a coin of these auditors in the folder `coins`, their parts, and the challenge that the shares come to
drawn() {
  local auditor
  : >coins/parts
  : >coins/shows
  for auditor in "$@"; do
    run 0 coin-part $id "$auditor" "$lanes" "$(printf '%064d' "$auditor")" coins/share
    sed 's/ commit / /' said >>coins/parts
    sed -n "s/^show /show $auditor /p" coins/share >>coins/shows
  done
  { printf 'vickrey-coin 1\nauction %s\nbits %s\nauditors %s\n' $id "$lanes" $#; cat coins/parts coins/shows; echo end; } >coins/coin
  run 0 coin-join coins/coin coins/challenge
  sed -n 's/^bits //p' coins/challenge
}

mkdir coins
joint=$(drawn 1 2)
auction fewer "$one" "$joint" 7 9 300
cp coins/coin fewer
fewer=$joint
joint=$(drawn 1 2 3)
auction tossed "$one" "$joint" 7 9 300
cp coins/coin tossed
tossed="$honest $id 4 $lanes 7,9,300 $joint"
sed '1{p;s/ 1 / 2 /;h;d};2g' coins/parts >coins/other-parts
options=(--parts ../coins/parts)
tried 'a challenge by three auditors' tossed 0 "$tossed"
tried 'an auditor left out' fewer 1 "$honest $id 4 $lanes 7,9,300 $fewer" "the coin doesn't have the parts"
cp -r tossed moved
sed -i '/^show 2 /{s/0$/x/;s/1$/0/;s/x$/1/}' moved/coin
tried 'another share than was fixed' moved 1 "$tossed" "the program doesn't join .*refused coin part 2" "check.py doesn't join .*refused coin part 2"
copy claimed
cp coins/coin claimed
tried 'another challenge than the auditors drew' claimed 1 "$words" "the program doesn't join .*other bits" "check.py doesn't join .*other bits"
tried 'no coin' honest 2 "$words" 'coin: No such file or directory'
options=(--parts ../coins/other-parts)
tried 'another part than was public' tossed 1 "$tossed" "the coin doesn't have the parts"
options=(--parts coin)
tried 'parts of another form' tossed 2 "$tossed" 'coin: this is a coin'
options=(--parts)
tried 'no parts behind the option' tossed 2 "$tossed"
options=()

# another challenge, and a reply to another one
auction asked "$one" $other 7 9 300
tried 'another challenge' asked 1 "$words" 'the challenge'
copy crossed
cp asked/reply crossed
tried 'a reply to another challenge' crossed 2 "$words" "reply: this is a reply to another challenge, with the bits $other"

# a reply refused, files that are missing or damaged
copy refused
sed -i '/^h /{s/[1-8]$/9/;:a;n;ba}' refused/reply
cmp -s honest/reply refused/reply && sed -i '/^h /{s/[09]$/1/;:a;n;ba}' refused/reply
tried 'a reply refused' refused 1 "$words" "the program doesn't accept the reply: .*refused reply lane 1 wire 0" \
  "check.py doesn't accept the reply: .*refused reply lane 1 wire 0"
copy torn
sed -i '$d' torn/board
tried 'a board without its end' torn 1 "$words" "board's digest" 'the program .*malformed board' 'check.py .*malformed board'
mkdir bare
tried 'no file at all' bare 2 "$words" 'board: No such' 'challenge: No such' 'reply: No such' 'seal-7: No such' 'seal-9: No such' 'seal-300: No such'
mkdir odd odd/challenge
mkfifo odd/board odd/seal-7
tried 'folders and pipes for files' odd 2 "$id$id $id 4 $lanes 7 $bits" 'board: Not a regular file' 'challenge: Is a directory' 'reply: No such file' \
  'seal-7: Not a regular file'
copy noise
head -c 3000 /dev/urandom >noise/board
tried 'a board of noise' noise 2 "$words ../secret-9" "board: this is a file that is none of this program's"
tried 'a secret that is none' honest 2 "$words board" 'board: this is a board. It has to be a secret'
tried 'a secret that is not there' honest 2 "$words nowhere" 'nowhere: No such file'
sed "s/^seat 9$/seat 10/" secret-9 >stranger
tried 'a secret of another seat' honest 1 "$words ../stranger" 'my seal of seat 10: it has no seal at that seat'
for name in board challenge reply seal-7; do
  copy "crlf-$name"
  sed -i 's/$/\r/' "crlf-$name/$name"
  tried "$name with CR LF" "crlf-$name" 2 "$words" "$name: this is a .* that was changed on the way"
done
copy open
cp secret-7 open/handed-in
tried 'a secret in the public folder' open 0 "$words"
grep -q '^ALARM   handed-in is a secret, which must never be public' said || failed_case "no alarm of a secret: $(cat said)"

# a secret that is wrong at first: nothing is taken, and then all are in the announced order; never in another one
mkdir handed intake taken
cp seal-7 seal-9 seal-300 secret-7 secret-9 secret-300 handed
run 0 seal $id 9 2 4 "$lanes" "$two" handed/secret-9 other-seal
announce $id 4 "$lanes" 7,9,300 >terms
(cd intake && "$here/../demo/take.sh" ../terms ../handed "$program") >said 2>&1
if [ $? = 1 ] && grep -q '^seat 9 .*not taken: .*ask Somebody' said && [ -z "$(ls -A intake)" ]; then
  passed=$((passed + 1))
else
  failed_case "a wrong secret at first: $(cat said)"
fi
cp secret-9 handed
(cd intake && "$here/../demo/take.sh" ../terms ../handed "$program") >said 2>&1 || failed_case "all secrets are right: $(cat said)"
cd intake || exit 1
run 0 prove $id "$one" ../taken/board
printf 'vickrey-challenge 1\nbits %s\nend\n' $bits >../taken/challenge
run 0 answer $id ../taken/challenge ../taken/reply
cd ..
cp seal-7 seal-9 seal-300 taken
tried 'a secret that is wrong at first' taken 0 "$(digest taken) $id 4 $lanes 7,9,300 $bits ../secret-9"

# a checker that says nothing, and words of another form
honest_program=$program
program=$(command -v true)
tried 'a program that says nothing' honest 1 "$words" 'the program'
program=nowhere
tried 'no program' honest 2 "$words"
program=$honest_program
tried 'a word too few' honest 2 "${words% *}"
tried 'a digest of another form' honest 2 "x$words"
tried 'seats of another form' honest 2 "$honest $id 4 $lanes 7,,300 $bits"
PATH=$(dirname "$program"):$PATH
program=$(basename "$program")
tried 'a program on the path' honest 0 "$words"

echo "$passed passed, $failed failed"
[ "$failed" = 0 ]
