#!/usr/bin/env bash
# checks/house.sh PROGRAM: auctions with and without a reserve with the built program, in an empty folder and every command a
# process of its own, from `seal` to `verify`, and what is said of a store that is in use, damaged, of number 1 or of another
# number. It wants the tool sqlite3. It is no part of the gate. The last line says how many cases passed and failed.
set -u
[ $# -eq 1 ] || { sed -n '2,4p' "$0"; exit 2; }
program=$(realpath "$1")
folder=$(mktemp -d)
trap 'rm -rf "$folder"' EXIT
cd "$folder" || exit 1
passed=0
failed=0
id=000102030405060708090a0b0c0d0e0f
usage='usage: vickrey seal|announce|submit|prove|answer|show|verify|extract|confront|report|sample|ceremony|claim-verify|claim-extract|claim-sample|coin-part|coin-join|coin-board'

# case STATUS TEXT ERROR WORD..: the program with these words ends so, prints the text, and says the error; what it says for a person
# in lines behind that is looked at apart, where it tells of the store
case_of() {
  local status=$1 text=$2 error=$3
  shift 3
  "$program" "$@" >out 2>err
  local got=$?
  if [ "$got" = "$status" ] && [ "$(cat out)" = "$text" ] && [ "$(head -n 1 err)" = "$error" ]; then
    passed=$((passed + 1))
  else
    failed=$((failed + 1))
    echo "FAILED: $* : status $got, not $status; printed '$(cat out)', said '$(cat err)'"
  fi
}

# holds TEXT COMMAND..: a command prints the text
holds() {
  local text=$1
  shift
  local got
  got=$("$@" 2>&1)
  if [ "$got" = "$text" ]; then
    passed=$((passed + 1))
  else
    failed=$((failed + 1))
    echo "FAILED: $* : '$got', not '$text'"
  fi
}

# a store is kept only where a command asks for it
case_of 5 'missing board' '' report board
case_of 8 'house unknown' '' show $id
printf 'vickrey-script 1\nanswer %s challenge reply\nend\n' $id >script
printf 'vickrey-challenge 1\nbits 01\nend\n' >challenge
case_of 8 'house unknown' '' answer $id challenge reply
case_of 8 $'house unknown\nend' '' ceremony script
rm script challenge
holds '' find . -name 'house*'
umask 000

case_of 0 "announced $id" '' announce $id 8 4
holds '600' stat -c %a house.sqlite
holds '600' stat -c %a house.sqlite-wal
case_of 8 'house known' '' announce $id 8 4
for bidder in 1 2 3; do
  case_of 0 "sealed seat 10$bidder lanes 4" '' seal $id 10$bidder $((bidder * 30)) 8 4 "$(printf '%064d' $bidder)" secret-$bidder seal-$bidder
  case_of 0 "taken seat 10$bidder position $bidder" '' submit $id seal-$bidder secret-$bidder
done
case_of 8 'house seat taken 102' '' submit $id seal-2 secret-2
case_of 0 "auction $id width 8 lanes 4 seals 3 phase taking" '' show $id
seed=$(printf '%064d' 9)
case_of 0 'proved winner 103 price 60' '' prove $id "$seed" board
printf 'vickrey-challenge 1\nbits 0110\nend\n' >challenge
printf 'vickrey-challenge 1\nbits 1001\nend\n' >other

# nothing is written into the store, by whatever name, and what it keeps stays
case_of 6 '' 'outside fault' answer $id challenge house.sqlite-wal
case_of 8 'house other challenge kept 0110' '' answer $id other reply
ln -s house.sqlite link
mkdir there
for name in house.sqlite ./house.sqlite-wal there/../house.sqlite-journal "$folder/house.sqlite" link; do
  case_of 6 '' 'outside fault' prove $id "$seed" "$name"
  holds "$name: it may not be read or written here" sed -n 2p err
  case_of 6 '' 'outside fault' answer $id challenge "$name"
  case_of 6 '' 'outside fault' seal $id 7 1 8 4 "$seed" "$name" none
  printf 'vickrey-script 1\nanswer %s challenge %s\nend\n' $id "${name/#$folder/.}" >script
  case_of 6 '' 'outside fault' ceremony script
done
case_of 6 '' 'outside fault' seal $id 7 1 8 4 "$seed" none ./none
holds './none: it may not be read or written here' sed -n 2p err
holds '' find . -name 'house.sqlite-journal' -o -name reply
case_of 0 'answered' '' answer $id challenge reply
case_of 0 'accepted' '' verify board challenge reply
case_of 0 "auction $id width 8 lanes 4 seals 3 phase answered" '' show $id

# one answer alone
case_of 8 'house other challenge kept 0110' '' answer $id other reply-2
holds '' find . -name reply-2
case_of 0 'answered' '' answer $id challenge reply-2
holds '' cmp reply reply-2

# auctions with a reserve, over the same bids: unsold, and sold at it; the reserve is shown, and never another one kept
for reserved in 'ffffffffffffffffffffffffffffffff 91 unsold' 'eeeeeeeeeeeeeeeeeeeeeeeeeeeeeeee 75 winner 103 price 75'; do
  read -r other reserve sale <<<"$reserved"
  case_of 0 "announced $other" '' announce "$other" 8 4 "$reserve"
  case_of 8 'house known' '' announce "$other" 8 4
  case_of 8 'house known' '' announce "$other" 8 4 $((reserve + 1))
  for bidder in 1 2 3; do
    case_of 0 "sealed seat 10$bidder lanes 4" '' seal "$other" 10$bidder $((bidder * 30)) 8 4 "$(printf '%064d' $bidder)" secret seal
    case_of 0 "taken seat 10$bidder position $bidder" '' submit "$other" seal secret
  done
  case_of 0 "proved $sale" '' prove "$other" "$seed" "board-$reserve"
  case_of 0 'answered' '' answer "$other" challenge "reply-$reserve"
  case_of 0 'accepted' '' verify "board-$reserve" challenge "reply-$reserve"
  case_of 0 "auction $other width 8 lanes 4 seals 3 phase answered reserve $reserve" '' show "$other"
  holds "reserve $reserve" sed -n 6p "board-$reserve"
done
unfit="vickrey: word 4 behind the command's name has to be a reserve, a whole number below 2^WIDTH with no 0 in front; see \`man vickrey\`"
case_of 2 "$usage" "$unfit" announce dddddddddddddddddddddddddddddddd 8 4 256
case_of 2 "$usage" "$unfit" announce dddddddddddddddddddddddddddddddd 8 4 075
case_of 8 'house unknown' '' show dddddddddddddddddddddddddddddddd
holds '2|75
2|91
1|0' sqlite3 house.sqlite 'SELECT version, reserve FROM terms JOIN auction USING (id) ORDER BY version DESC, reserve'
holds "$id" sqlite3 house.sqlite 'SELECT lower(hex(id)) FROM terms WHERE version = 1'

# the tool reads what is kept
holds '3|answered|0110' sqlite3 house.sqlite "SELECT count(*), CASE phase WHEN 2 THEN 'answered' END, bits FROM auction JOIN seal USING (id) WHERE id = x'$id'"
holds 'ok' sqlite3 house.sqlite 'PRAGMA integrity_check'
holds "$(cat seal-2)" sqlite3 house.sqlite "SELECT seal FROM seal WHERE seat = 102 AND id = x'$id'"
holds "$(cat secret-3)" sqlite3 house.sqlite "SELECT secret FROM seal WHERE position = 3 AND id = x'$id'"
case_of 0 'answered' '' answer $id challenge reply-2
holds '' cmp reply reply-2

# a store that is in use: refused, and nothing is lost
sqlite3 house.sqlite 'BEGIN EXCLUSIVE' '.shell touch held; until [ -e released ]; do sleep 0.1; done' &
until [ -e held ] || ! kill -0 $! 2>/dev/null; do sleep 0.1; done
case_of 6 '' 'outside fault' show $id
touch released
wait
rm held released
case_of 0 "auction $id width 8 lanes 4 seals 3 phase answered" '' show $id

# a damaged row is a fault, and never another answer
cp house.sqlite sound.sqlite
while read -r damage; do
  cp sound.sqlite house.sqlite
  rm -f house.sqlite-wal house.sqlite-shm
  sqlite3 house.sqlite "PRAGMA journal_mode = delete" "$damage" >said
  case_of 6 '' 'outside fault' show $id
done <<'DAMAGES'
UPDATE auction SET width = 41
UPDATE auction SET width = 6
UPDATE auction SET lanes = 3
UPDATE auction SET phase = 3
UPDATE auction SET phase = 0
UPDATE auction SET seed = NULL
UPDATE auction SET seed = x'00'
UPDATE auction SET bits = '01'
UPDATE auction SET bits = '01x0'
UPDATE seal SET seat = 104 WHERE position = 1
UPDATE seal SET position = 4 WHERE position = 1
UPDATE seal SET seal = secret WHERE position = 1
UPDATE seal SET secret = replace(secret, 'bid 30', 'bid 31')
UPDATE seal SET secret = secret || 'x'
DELETE FROM seal WHERE position = 2
DELETE FROM seal
DELETE FROM auction
DROP TABLE seal
UPDATE terms SET version = 3
UPDATE terms SET version = 0
UPDATE terms SET reserve = 1
UPDATE terms SET reserve = 256, version = 2
UPDATE terms SET reserve = -1, version = 2
UPDATE terms SET reserve = 'a', version = 2
DELETE FROM terms
DROP TABLE terms
DAMAGES

# a store of number 1, as it was before auctions had a version and a reserve, becomes one of number 2 and goes on as before
cp sound.sqlite house.sqlite
rm -f house.sqlite-wal house.sqlite-shm
sqlite3 house.sqlite "PRAGMA journal_mode = delete" "DELETE FROM auction WHERE id <> x'$id'" "DELETE FROM seal WHERE id <> x'$id'" \
  'DROP TABLE terms' 'UPDATE about SET version = 1' VACUUM >said
case_of 0 "auction $id width 8 lanes 4 seals 3 phase answered" '' show $id
holds '2' sqlite3 house.sqlite 'SELECT * FROM about'
holds "$id|1|0" sqlite3 house.sqlite 'SELECT lower(hex(id)), version, reserve FROM terms'
case_of 8 'house other challenge kept 0110' '' answer $id other reply-3
case_of 0 'answered' '' answer $id challenge reply-3
holds '' cmp reply reply-3
case_of 0 'proved winner 103 price 60' '' prove $id "$seed" board-3
holds '' cmp board board-3

# a store is opened beside no file that lets others in, nor where it has a second name
rm -f house.sqlite*
cp sound.sqlite house.sqlite
chmod 600 house.sqlite
for side in wal journal shm; do
  rm -f house.sqlite-*
  : >house.sqlite-$side
  chmod 640 house.sqlite-$side
  case_of 6 '' 'outside fault' show $id
  holds "house.sqlite: a file beside it is not its owner's alone" sed -n 2p err
  chmod 600 house.sqlite-$side
  case_of 0 "auction $id width 8 lanes 4 seals 3 phase answered" '' show $id
done
ln house.sqlite second
case_of 6 '' 'outside fault' show $id
holds 'house.sqlite: it has a second name (a hard link)' sed -n 2p err
rm -f second house.sqlite-*
if [ "$(id -u)" = 0 ]; then
  : >house.sqlite-wal
  chmod 600 house.sqlite-wal
  chown 65534 house.sqlite-wal
  case_of 6 '' 'outside fault' show $id
  holds "house.sqlite: a file beside it is not its owner's alone" sed -n 2p err
  chmod 640 house.sqlite
  case_of 6 '' 'outside fault' show $id
  chmod 660 house.sqlite house.sqlite-wal
  case_of 0 "auction $id width 8 lanes 4 seals 3 phase answered" '' show $id
  chmod 600 house.sqlite
  rm -f house.sqlite-wal
  chown 65534 house.sqlite
  case_of 0 "auction $id width 8 lanes 4 seals 3 phase answered" '' show $id
  rm -f house.sqlite*
  : >house.sqlite
  chmod 600 house.sqlite
  chown 65534 house.sqlite
  case_of 6 '' 'outside fault' show $id
  holds "house.sqlite: empty, and another user's" sed -n 2p err
fi

# another number
while read -r change; do
  cp sound.sqlite house.sqlite
  rm -f house.sqlite-wal house.sqlite-shm
  sqlite3 house.sqlite "PRAGMA journal_mode = delete" "${change%:*}" >said
  case_of 6 '' 'other store' show $id
  holds "house.sqlite:${change##*:}" sed -n 2p err
done <<'CHANGES'
UPDATE about SET version = 0: version 0
UPDATE about SET version = 3: version 3
DELETE FROM about: 0 versions
INSERT INTO about VALUES (1): 2 versions
INSERT INTO about VALUES (2): 2 versions
CHANGES
rm -f house.sqlite*
head -c 4096 /dev/zero >house.sqlite
case_of 6 '' 'outside fault' show $id
holds '' cmp -n 4096 house.sqlite /dev/zero
rm -f house.sqlite*
mkdir house.sqlite
case_of 6 '' 'outside fault' show $id
case_of 0 'accepted' '' verify board challenge reply

echo "$passed passed, $failed failed"
[ "$failed" = 0 ]
