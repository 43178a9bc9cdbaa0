#!/usr/bin/env bash
# checks/program.sh PROGRAM: the built program over real files, in an empty folder: each status that it can end with, what
# it prints, what it says on standard error, the lines for a person among it, and what it leaves. It is no part of the gate. The
# last line says how many cases passed and failed.
set -u
[ $# -eq 1 ] || { sed -n '2,4p' "$0"; exit 2; }
program=$(realpath "$1")
data=$(realpath "$(dirname "$0")/../crates/vickrey/data")
folder=$(mktemp -d)
trap 'rm -rf "$folder"' EXIT
cd "$folder" || exit 1
cp "$data"/* .
passed=0
failed=0
id=000102030405060708090a0b0c0d0e0f
seed=$(printf '%064d' 7)

# case STATUS TEXT ERROR WORD..: the program with these words ends so, prints the text, and says the error
case_of() {
  local status=$1 text=$2 error=$3
  shift 3
  timeout 60 "$program" "$@" >out 2>err
  local got=$?
  if [ "$got" = "$status" ] && [ "$(cat out)" = "$text" ] && [ "$(cat err)" = "$error" ]; then
    passed=$((passed + 1))
  else
    failed=$((failed + 1))
    echo "FAILED: $* : status $got, not $status; printed '$(cat out)', said '$(cat err)'"
  fi
}

# holds TEXT COMMAND..: a command prints the text
holds() {
  local text=$1
  shift
  if [ "$("$@" 2>&1)" = "$text" ]; then
    passed=$((passed + 1))
  else
    failed=$((failed + 1))
    echo "FAILED: $* : '$("$@" 2>&1)', not '$text'"
  fi
}

usage='usage: vickrey seal|announce|submit|prove|answer|show|verify|extract|confront|report|sample|ceremony|claim-verify|claim-extract|claim-sample|coin-part|coin-join|coin-board'
page="see \`man vickrey\`"
umask 022

case_of 0 accepted '' verify board challenge-0 reply-0
sed 's/^price 0$/price 1/' board >dear
case_of 1 'refused dear price' '' verify dear challenge-0 reply-0
case_of 0 'lane 1 seat 7 bid 0 u 1111111111111111111111111111111111111111111111111111111111111111 3 v 2222222222222222222222222222222222222222222222222222222222222222 2305843009213693948
winner 7 price 0
seat 7 same
end' '' extract board challenge-0 reply-0 challenge-1 reply-1
case_of 7 'same challenge' '' extract board challenge-0 reply-0 challenge-0 reply-0
sed 's/^s 0 5/s 0 6/' reply-1 >other
case_of 1 'refused other lane 1 wire 2 digest 0' '' extract board challenge-0 reply-0 challenge-1 other
case_of 4 'malformed reply-0 line 6' '' extract board challenge-0 reply-0 challenge-1 reply-0
case_of 5 'missing nothing' '' extract board challenge-0 reply-0 challenge-1 nothing
{ printf '%s\n' 'vickrey-claim 1' "auction $id" 'kind uniform' 'lanes 1' 'inputs 1' 'numbers 3' 'n 1' 'n 0' 'n 1'; tail -n +8 board; } >claim
case_of 0 accepted '' claim-verify claim challenge-0 reply-0
sed '8s/0/1/' claim >public
case_of 1 'refused public public' '' claim-verify public board reply-0
case_of 0 'lane 1 seat 7 value 0 u 1111111111111111111111111111111111111111111111111111111111111111 3 v 2222222222222222222222222222222222222222222222222222222222222222 2305843009213693948
kind uniform
seat 7 same
end' '' claim-extract claim challenge-1 reply-1 challenge-0 reply-0
case_of 7 'same challenge' '' claim-extract claim challenge-1 reply-1 challenge-1 reply-1
case_of 1 'refused other lane 1 wire 2 digest 0' '' claim-extract claim challenge-0 reply-0 challenge-1 other
case_of 4 'malformed board line 1' '' claim-verify board challenge-0 reply-0
case_of 4 'malformed claim line 1' '' verify claim challenge-0 reply-0
case_of 5 'missing nothing' '' claim-verify claim nothing reply-0
case_of 0 'claim-sample uniform 1
inputs 10 lanes 8 wires 747 rows 56
verify 1 accepted
verify 2 accepted
extract lanes 8 same 10
end' '' claim-sample uniform 1
case_of 0 accepted '' claim-verify claim-board claim-challenge-2 claim-reply-2
case_of 2 "$usage" "vickrey: word 1 behind the command's name has to be a kind of claims, which is uniform or matching; $page" claim-sample vickrey 1
case_of 0 'claim-sample matching 2
inputs 32 lanes 8 wires 548 rows 88
verify 1 accepted
verify 2 accepted
extract lanes 8 same 32
end' '' claim-sample matching 2
case_of 0 accepted '' claim-verify claim-board claim-challenge-1 claim-reply-1
holds '594285 claim-board' wc -c claim-board
sed '8s/2/1/' claim-board >public
case_of 1 'refused public public' '' claim-verify public board reply-0

share=$(printf '1%.0s' $(seq 64))
case_of 0 'part 1 commit bc3a43ba7c3b92bbd5e2cc21fa9cf8b2e0d57b592157bae96b7f3e0645bd459c' '' coin-part $id 1 8 "$share" share
holds '600' stat -c %a share
{
  printf 'vickrey-coin 1\nauction %s\nbits 8\nauditors 1\n' $id
  sed 's/ commit / /' out
  sed -n 's/^show /show 1 /p' share
  echo end
} >coin
case_of 0 'joined auditors 1 bits 8' '' coin-join coin joint
holds 'bits 11011110' sed -n 2p joint
sed '/^show/s/0$/1/' coin >bent
case_of 1 'refused bent part 1' '' coin-join bent none
case_of 4 'malformed share line 1' '' coin-join share none
case_of 5 'missing nothing' '' coin-join nothing none
case_of 0 'derived bits 1' '' coin-board board derived
holds '' cmp derived challenge-0
case_of 1 'refused dear price' '' coin-board dear none
case_of 4 'malformed claim line 1' '' coin-board claim none
case_of 6 '' 'outside fault
./coin: it may not be read or written here' coin-join coin ./coin
case_of 2 "$usage" "vickrey: word 2 behind the command's name has to be an auditor's number, from 1 to 16 with no 0 in front; $page" \
  coin-part $id 17 8 "$share" none
case_of 2 "$usage" "vickrey: word 2 behind the command's name has to be the name of a file, of 1 to 255 bytes, and not the word before it; $page" \
  coin-join coin coin
case_of 2 "$usage" "vickrey 1.0: the first word names no command; $page" frobnicate
case_of 2 "$usage" "vickrey 1.0: the first word names no command; $page"
case_of 2 "$usage" "vickrey: words behind this command's name: 3 or 4 wanted, 2 given; $page" announce $id 4
case_of 2 "$usage" "vickrey: word 4 behind the command's name has to be a reserve, a whole number below 2^WIDTH with no 0 in front; $page" announce $id 4 2 16
case_of 2 "$usage" "vickrey: word 2 behind the command's name has to be a seat, a whole number from 1 to 65535 with no 0 in front; $page" \
  seal $id 0 15 4 2 "$seed" none none-either
case_of 2 "$usage" "vickrey: word 8 behind the command's name has to be the name of a file, of 1 to 255 bytes, and not the word before it; $page" \
  seal $id 7 15 4 2 "$seed" none none
case_of 2 "$usage" "vickrey 1.0: the first word names no command; $page" verify board challenge-0 "$(printf '\377')"
head -n 14 board >"cut"
case_of 4 'malformed cut line 15' '' verify cut challenge-0 reply-0
truncate -s 1073741825 huge
case_of 4 'too long huge' '' verify huge challenge-0 reply-0
case_of 5 'missing nothing' '' verify board nothing reply-0
case_of 5 'missing cut/below' '' verify board cut/below reply-0
mkdir inner
case_of 6 '' 'outside fault
inner: it is no file whose bytes can be read' verify inner challenge-0 reply-0
case_of 0 'sealed seat 7 lanes 2' '' seal $id 7 15 4 2 "$seed" secret seal
case_of 8 'seal bid too large' '' seal $id 7 16 4 2 "$seed" none none-either
holds '' ls -A inner
holds 'ls: cannot access '\''none'\'': No such file or directory' ls none
holds '8 secret' wc -l secret
holds '7 seal' wc -l seal
holds '600' stat -c %a secret
holds '600' stat -c %a seal
cp secret first
chmod 644 secret
case_of 0 'sealed seat 7 lanes 2' '' seal $id 7 15 4 2 "$seed" secret seal
holds '644' stat -c %a secret
holds '' cmp secret first
case_of 6 '' 'outside fault
inner: it is a folder' seal $id 7 15 4 2 "$seed" inner seal-2
holds '' ls -A inner
case_of 6 '' 'outside fault
/dev/full: the disk is full' seal $id 7 15 4 2 "$seed" secret-3 /dev/full
holds '' cmp secret-3 first

# what is no regular file is neither read nor written, and no other end of a pipe is waited for
mkfifo pipe
ln -s pipe link
for name in pipe link; do
  case_of 6 '' "outside fault
$name: it is no file that can be written" seal $id 7 15 4 2 "$seed" $name seal-3
  case_of 6 '' "outside fault
$name: it is no file whose bytes can be read" verify board challenge-0 $name
done
case_of 6 '' 'outside fault
/dev/zero: it is no file that can be written' seal $id 7 15 4 2 "$seed" /dev/zero seal-3
holds 'ls: cannot access '\''seal-3'\'': No such file or directory' ls seal-3
case_of 0 'sealed seat 7 lanes 2' '' seal $id 7 15 4 2 "$seed" /dev/null seal-3
holds '7 seal-3' wc -l seal-3

# a full output: what was to be written is written, nothing is claimed to be printed
"$program" seal $id 7 15 4 2 "$seed" secret-4 seal-4 >/dev/full 2>err
if [ $? = 6 ] && [ "$(cat err)" = 'outside fault' ]; then passed=$((passed + 1)); else failed=$((failed + 1)); echo 'FAILED: a full output'; fi
holds '' cmp secret-4 first

echo "$passed passed, $failed failed"
[ "$failed" = 0 ]
