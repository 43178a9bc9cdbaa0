#!/usr/bin/env bash
# checks/announced.sh PROGRAM: a whole auction of twelve bidders with an announcement file, from the announcement to the audit, of
# whom two hand in wrong files first. Bidders use checker/check.py alone; the auctioneer takes all with demo/take.sh. What each
# step says is compared with what it has to say. It wants python3 with sqlite3, and is no part of the gate. The last line says how
# many of the steps passed and failed.
set -u
[ $# -eq 1 ] || { sed -n '2,5p' "$0"; exit 2; }
program=$(realpath "$1")
here=$(realpath "$(dirname "$0")")
take=$here/../demo/take.sh
folder=$(mktemp -d)
trap 'rm -rf "$folder"' EXIT
cd "$folder" || exit 1
umask 077
passed=0
failed=0

check() { python3 "$here/../checker/check.py" "$@"; }

# step NAME STATUS TEXT.. -- COMMAND..: the command ends with this status, and prints each of these texts in a line
step() {
  local name=$1 status=$2 texts=() got text
  shift 2
  while [ "$1" != -- ]; do texts+=("$1"); shift; done
  shift
  "$@" >said 2>&1
  got=$?
  [ "$got" = "$status" ] || { failed=$((failed + 1)); echo "FAILED: $name: status $got, not $status: $(cat said)"; return; }
  for text in "${texts[@]}"; do
    grep -qF -- "$text" said || { failed=$((failed + 1)); echo "FAILED: $name: no '$text': $(cat said)"; return; }
  done
  passed=$((passed + 1))
}

# bids SEAT BID FOLDER: a bidder seals into a folder of its own
bids() {
  mkdir -p "$3"
  (cd "$3" && printf '%s\n%s\n' "$2" "$2" | check bid "$folder/announcement" "$1")
}

# in_house COMMAND..: in the auctioneer's folder
in_house() { (cd house && "$@"); }

# vickrey WORD..: the program in the auctioneer's folder
vickrey() { (cd house && "$program" "$@"); }

untouched() { [ ! -e house/house.sqlite ] && [ -z "$(ls -A house)" ]; }

seats=()
for seat in $(seq 12); do seats+=(--seat "$seat Bidder $seat"); done
printf 'EUR\n2\n' >answers # the rest is given
step 'the announcement' 0 'Bids are in EUR with 2 decimals, from 0.00 to 10,485.75. Nothing is sold below 50.00.' \
  '3 auditors draw the challenge together: one bit for each of 40 lanes.' -- \
  check announce announcement --kind vickrey --highest 10000 --reserve 50.00 --lanes 40 --auditors 3 --seals '2096-12-01 12:00' \
  --secrets '2096-12-02 12:00' --board none --draw none --reply none --key none --place 'the notice board' "${seats[@]}" <answers
step 'it is read back' 0 '12 seats, whose seals are taken in this order:' -- check announcement announcement
step 'it is not written over' 8 'announce held announcement' -- check announce announcement

# Seat 9 bids most, and seat 4 next: 173.25 is the price
for seat in $(seq 12); do
  amount=$((60 + seat)).50
  [ "$seat" != 4 ] || amount=173.25
  [ "$seat" != 9 ] || amount=400
  step "seat $seat bids" 0 'by 2096-12-01 12:00 UTC' -- bids "$seat" "$amount" "bidder-$seat"
done
step 'a bid is not sealed twice' 8 'bid held secret-3' -- bids 3 70 bidder-3
mkdir public handed house
cp bidder-*/seal-* public
cp bidder-*/seal-* bidder-*/secret-* handed

# Seat 3 sends the secret of another bid, seat 8 a seal that was cut off
step 'seat 3 bids again elsewhere' 0 -- bids 3 71 elsewhere
cp elsewhere/secret-3 handed
head -n 20 handed/seal-8 >short && cp short handed/seal-8
rm handed/secret-11
step 'wrong files are not taken' 1 "seat 2 (Bidder 2): taken on trial" \
  "seat 3 (Bidder 3): not taken: the secret doesn't open the seal: ask Bidder 3 for the secret that was made with it" \
  "seat 8 (Bidder 8): not taken: the seal can't be read" 'seat 11 (Bidder 11): not taken: there is no file secret-11: ask Bidder 11' \
  "Nothing was taken: of 12 seats 3 can't be, 3, 8 and 11. Secrets are due by 2096-12-02 12:00 UTC." -- \
  in_house "$take" ../announcement ../handed "$program"
step 'nothing was taken' 0 -- untouched
cp bidder-3/secret-3 bidder-8/seal-8 bidder-11/secret-11 handed

# A run that was stopped after five seats, with what it left
id=$(sed -n 's/^auction //p' announcement)
step 'the house begins' 0 "announced $id" -- vickrey announce "$id" 20 40 5000
for seat in $(seq 5); do
  step "seat $seat before the crash" 0 "taken seat $seat position $seat" -- vickrey submit "$id" "../handed/seal-$seat" "../handed/secret-$seat"
done
mkdir house/.trial-stopped
step 'the rest is taken' 0 '5 of 12 seals were taken before.' 'taken seat 6 position 6' 'taken seat 12 position 12' \
  'All 12 seals are taken, in the order 1,2,3,4,5,6,7,8,9,10,11,12. The board is next' -- in_house "$take" ../announcement ../handed "$program"
step 'nothing of the trials stays' 1 -- test -e house/.trial-stopped
step 'again, it says where it stands' 0 '12 of 12 seals were taken before.' -- in_house "$take" ../announcement ../handed "$program"

# The board, the draw and the reply
random() { od -An -v -tx1 -N32 /dev/urandom | tr -d ' \n'; }
step 'the board' 0 'proved winner 9 price 17325' -- vickrey prove "$id" "$(random)" ../public/board
digest=$(sha256sum public/board | cut -d ' ' -f 1)
step 'the board in sentences' 0 'Bidder 9 (seat 9) wins and pays 173.25 EUR.' 'Its reserve is 50.00 EUR.' 'Seat 9 is Bidder 9.' "SHA-256 digest: $digest" \
  'The seal of seat 3 stands there, unchanged.' -- check report public/board announcement --seal bidder-3/seal-3
step 'a seal that is not on the board' 1 "The board doesn't have the seal in elsewhere/seal-3." -- check report public/board --seal elsewhere/seal-3
step 'a secret and what it opens' 0 'Your seal of seat 3 stands there: bidder-3/secret-3 opens it in each lane.' -- \
  check report public/board announcement --secret bidder-3/secret-3
step 'a secret that opens nothing' 1 "The board doesn't have my seal of seat 3: elsewhere/secret-3 doesn't open" -- \
  check report public/board --secret elsewhere/secret-3
step 'nothing is taken any more' 0 'The auction is proved.' -- in_house "$take" ../announcement ../handed "$program"
: >parts
for auditor in 1 2 3; do
  check coin-part "$id" $auditor 40 "$(random)" share-$auditor | sed 's/ commit / /' >>parts
done
{
  printf 'vickrey-coin 1\nauction %s\nbits 40\nauditors 3\n' "$id"
  cat parts
  for auditor in 1 2 3; do sed -n "s/^show /show $auditor /p" share-$auditor; done
  echo end
} >public/coin
step 'the challenge' 0 'joined auditors 3 bits 40' -- check coin-join public/coin public/challenge
step 'the reply' 0 answered -- vickrey answer "$id" ../public/challenge ../public/reply

# The audit: by anybody with Python alone, by bidders, and with both checkers
step 'the audit' 0 'Bidder 9 (seat 9) wins and pays 173.25 EUR. All 21 checks hold.' \
  'a wrong outcome passes at most once in 1,099,511,627,776 tries, if nobody foresaw the challenge.' -- check audit announcement "$digest" public --parts parts
for seat in 4 9 12; do
  step "the audit of seat $seat" 0 'Bidder 9 (seat 9) wins and pays 173.25 EUR. All 25 checks hold.' -- \
    check audit announcement "$digest" public --parts parts --secret "bidder-$seat/secret-$seat" --program "$program"
done
step 'an audit without parts is none' 2 'give their parts' -- check audit announcement "$digest" public
step 'the audit by the secret of another bid' 1 "FAILED  the board doesn't have my seal of seat 3" -- \
  check audit announcement "$digest" public --parts parts --secret elsewhere/secret-3
cp elsewhere/seal-3 public
step 'a seal that is not the public one' 1 'FAILED  the seal of seat 3 is missing from the board, or was changed' \
  "Don't rely on this outcome: 1 of 21 checks FAILED." -- check audit announcement "$digest" public --parts parts
cp bidder-3/seal-3 public
mv public/seal-8 seal-8
cp short public/seal-8
step 'a seal that was cut off is no verdict' 2 "unread  seal-8: line 21 isn't as it has to be there" 'Nothing was judged: 1 file' -- \
  check audit announcement "$digest" public --parts parts

# A house that took the seats by hand in another order: nothing is published, so it begins anew
mkdir turned && cd turned || exit 1
"$program" announce "$id" 20 40 5000 >/dev/null
"$program" submit "$id" ../handed/seal-2 ../handed/secret-2 >/dev/null
"$program" submit "$id" ../handed/seal-1 ../handed/secret-1 >/dev/null
cd ..
step 'another order is told' 8 'take other order' 'begin anew in an empty folder' -- \
  bash -c 'cd turned && "$@"' - "$take" ../announcement ../handed "$program"

# A bidder whose secret never comes is left out, in public, and looked for by nobody
mkdir without && rm handed/secret-5
step 'a seat that is left out' 0 'seat 5 (Bidder 5): left out' 'All 11 seals are taken, in the order 1,2,3,4,6,7,8,9,10,11,12.' -- \
  bash -c 'cd without && "$@"' - "$take" --left-out 5 ../announcement ../handed "$program"
echo "$passed passed, $failed failed"
[ "$failed" = 0 ]
