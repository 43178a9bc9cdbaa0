#!/usr/bin/env bash
# demo/auction.sh [PROGRAM]: a whole auction with a reserve in a new folder, every command shown
# before it runs. Three bidders seal and publish their seals, and then hand in their secrets; the
# auctioneer proves the outcome and publishes the board's digest, three auditors draw a challenge
# together, which is answered, and demo/audit.sh checks all. It takes a few seconds. Where no
# PROGRAM is named it takes the one that was built here; or the prebuilt one, on x86-64 Linux; or
# node, 18 or later. It says which. The second checker wants python3, and is left out where there is
# none. The status is the audit's.
set -u
if [ $# -gt 1 ] || [[ ${1-} == -* ]]; then
  sed -n '2,8s/^# //p' "$0"
  exit 2
fi
top=$(realpath "$(dirname "$0")/..")
audit=$top/demo/audit.sh

# choose [PROGRAM]: sets `program` to what runs, and `how` to what that is
choose() {
  program=${1-}
  if [ -n "$program" ]; then
    how='the one that was named'
    program=$(command -v -- "$program") || { echo "auction.sh: no program $1" >&2; exit 2; }
    program=$(realpath "$program")
  elif [ -x "$top/crates/vickrey/out/vickrey" ]; then
    how='the one that was built here'
    program=$top/crates/vickrey/out/vickrey
  elif "$top/dist/unpack.sh" "$folder/vickrey" 2>/dev/null; then
    how='the prebuilt one of dist/'
    program=$folder/vickrey
  elif node "$top/portable/vickrey.js" show 2>/dev/null | grep -q '^usage: '; then
    how="that of portable/, by node $(node --version)"
    program=$top/portable/vickrey.js
  else
    cat >&2 <<'END'
auction.sh: there is no program that runs here. Any of these is enough:
  x86-64 Linux with the C library 2.34 or newer, for the prebuilt program: dist/unpack.sh OUT says
    what it lacks
  node 18 or later under Linux, for portable/vickrey.js: node portable/vickrey.js says what it lacks
  the Rattle kit, to build it: README.md, "Build it"
page/vickrey.html seals, checks and audits in any browser.
END
    exit 2
  fi
}

folder=$(mktemp -d "${TMPDIR:-/tmp}/vickrey-auction.XXXXXX")
trap 'rmdir "$folder" 2>/dev/null' EXIT # where nothing ran, it is empty
choose "$@"
cd "$folder" || exit 1
umask 077
width=4
lanes=16
reserve=5

say() { printf '\n# %s\n' "$*"; }

# vickrey STATUS WORD..: shows a command, runs it, and stops the demonstration where it ends with
# another status. What it printed stands in the file `said` then
vickrey() {
  local status=$1 got
  shift
  echo "\$ vickrey $*"
  "$program" "$@" >said
  got=$?
  cat said
  [ "$got" = "$status" ] ||
    { echo "demo: status $got, not $status; the files are in $folder"; exit 1; }
}

# shown COMMAND: shows a line of the shell and runs it
shown() {
  echo "\$ $1"
  eval "$1"
}

seed() { od -An -v -tx1 -N32 /dev/urandom | tr -d ' \n'; }

# write_challenge FILE BITS
write_challenge() { printf 'vickrey-challenge 1\nbits %s\nend\n' "$2" >"$1"; }

echo "# The program is $how."
say "The auction has an id of 32 digits. A bid is below 2^$width = $((1 << width)), there are" \
  "$lanes lanes, and below $reserve nothing is sold."
id=$(seed | head -c 32)
vickrey 0 announce "$id" $width $lanes $reserve

say 'Three bidders seal 15, 9 and 4, each with a secret seed. Each keeps the secret, and' \
  'publishes the seal.'
for bidder in '7 15' '9 9' '300 4'; do
  read -r seat bid <<<"$bidder"
  vickrey 0 seal "$id" "$seat" "$bid" $width $lanes "$(seed)" "secret-$seat" "seal-$seat"
done
shown 'chmod a+r seal-7 seal-9 seal-300'

say 'Now all seals are public. Only now do the bidders hand in their secrets. The auctioneer' \
  'takes them by ascending seat.'
for seat in 7 9 300; do
  vickrey 0 submit "$id" "seal-$seat" "secret-$seat"
done

say 'The auctioneer takes no more seals, and makes the board. Seat 7 wins, and pays the second' \
  'highest bid, which is above the reserve.'
vickrey 0 prove "$id" "$(seed)" board
vickrey 0 report board

say 'The board becomes public with its digest. Everybody writes the digest down, before the draw.'
shown 'chmod a+r board'
shown 'sha256sum board'
digest=$(sha256sum board | cut -d ' ' -f 1)

say 'Only now is the challenge drawn, by three auditors. Each draws a share, which nobody else' \
  'sees yet, and publishes its part, a digest of it.'
for auditor in 1 2 3; do
  vickrey 0 coin-part "$id" $auditor $lanes "$(seed)" share-$auditor
  sed 's/ commit / /' said >>parts
done

say 'All three parts are public, and everybody writes them down. Only now does each auditor show' \
  'its share. Parts and shares are the coin.'
shown 'chmod a+r parts share-1 share-2 share-3'
{
  printf 'vickrey-coin 1\nauction %s\nbits %s\nauditors 3\n' "$id" $lanes
  cat parts
  for auditor in 1 2 3; do sed -n "s/^show /show $auditor /p" share-$auditor; done
  echo end
} >coin
shown 'cat coin'

say 'In each lane the challenge has 1 where an odd number of shares has 1. One auditor who drew' \
  'at random, and told nobody, is enough.'
vickrey 0 coin-join coin challenge
shown 'cat challenge'
bits=$(sed -n 's/^bits //p' challenge)

say 'An auditor who shows another share than it fixed by its part is found out: status 1.'
shown "sed '/^show 3 /{s/0\$/x/;s/1\$/0/;s/x\$/1/}' coin >other-coin"
vickrey 1 coin-join other-coin other-challenge

say 'The auctioneer answers it. This reply is all that is ever opened, and anybody can check it.'
vickrey 0 answer "$id" challenge reply
vickrey 0 verify board challenge reply

say 'Two replies would give the bids away, so another challenge is refused for ever: status 8.' \
  'The same one is not.'
write_challenge other-challenge "$(tr 01 10 <<<"$bits")"
vickrey 8 answer "$id" other-challenge other-reply
vickrey 0 answer "$id" challenge reply

say 'What two replies would reveal is seen on a sample, 20 bids of which both replies are made.'
vickrey 0 sample 1
replies='sample-challenge-1 sample-reply-1 sample-challenge-2 sample-reply-2'
shown "$program extract sample-board $replies >revealed"
shown "head -n 3 revealed | cut -d ' ' -f 1-6"

audited=0
checkers='The program, which alone was asked, accepts'
if command -v python3 >/dev/null; then
  say 'The whole audit, with a second checker and what no checker of a reply can see. Here seat 9' \
    'makes it, with its own secret.'
  begin=$(printf '%q ' "$audit" --reserve $reserve --parts parts "$program")
  shown "$begin$digest $id $width $lanes 7,9,300 $bits secret-9"
  audited=$?
  checkers='Both checkers accept'
else
  say 'There is no python3 here, which the second checker and the whole audit want.'
fi

say "Look at the files, in $folder:"
cat <<END
board               what the auctioneer publishes: commitments and posted numbers
coin, challenge     the auditors' parts and shares, and the challenge that these come to
reply               all that is ever opened
secret-7, seal-7    a bidder's secret, with its bid, and the seal that stands on the board
house.sqlite        what the auctioneer keeps; it has all bids
revealed            the bids of the sample, each with its two openings
END

if [ $audited -eq 0 ]; then
  winner=$(sed -n 's/^winner //p;/^seal /q' board)
  price=$(sed -n 's/^price //p;/^seal /q' board)
  say "Seat $winner won, and pays $price. $checkers the proof of it." \
    "Of the bids nothing else was shown:" \
    "the reply opened one half of each number, and the other halves stay closed for ever."
fi
exit $audited
