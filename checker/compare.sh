#!/usr/bin/env bash
# checker/compare.sh PROGRAM: runs `verify` of the program and of checker/check.py on auctions that the program makes, with and
# without a reserve, on boards with a reserve that bench/make_board.py makes, and on damaged copies of their files, and compares
# status and text; in the same way `claim-verify` on claim files of each kind; and `seal`, `coin-part`, `coin-join` and
# `coin-board`, with what they write. Before all it runs the checker's own tests. The last line says how many of the runs agree.
set -u
[ $# -eq 1 ] || { sed -n '2,5p' "$0"; exit 2; }
program=$(realpath "$1")
checker=$(realpath "$(dirname "$0")/check.py")
maker=$(realpath "$(dirname "$0")/../bench/make_board.py")
python=$(python3 -c "import sys; print(sys.executable)") # the interpreter itself, which starts faster than what stands for it
top=$(mktemp -d)
trap 'rm -rf "$top"' EXIT
id=000102030405060708090a0b0c0d0e0f
runs=0
agreed=0

# Which command is run, and the name of its first file
command=verify
published=board

# agree OURS THEIRS: counts a run of each, and shows where they differ
agree() {
  runs=$((runs + 1))
  if [ "$1" = "$2" ]; then
    agreed=$((agreed + 1))
  else
    echo "DIFFERENT in $case: '$1' and '$2'"
  fi
}

# compare FILE CHALLENGE REPLY: one run of each
compare() {
  agree "$("$program" "$command" "$@" 2>/dev/null; echo "status $?")" \
    "$("$python" -IS "$checker" "$command" "$@" 2>/dev/null; echo "status $?")"
}

# made WORD..: one run of each, in a new folder beside the files that are here, and what each leaves there. With `lay`, lines
# of the shell, more stands there before
made() {
  agree "$(made_by "$program" "$@")" "$(made_by "$python" -IS "$checker" "$@")"
}

made_by() {
  rm -rf new
  mkdir new
  cd new || exit 1
  eval "${lay:-}"
  "$@" 2>/dev/null
  echo "status $?"
  find . -type f -printf '%m %p ' -exec sha256sum {} + | sort
}

# answered BITS WIDTH LANES BID..: an auction of these bids in a folder of its own, with the reserve where there is one, answered
# for these bits
answered() {
  local bits=$1 width=$2 lanes=$3 seat=0 seed
  shift 3
  mkdir "$bits" && cd "$bits" || exit 1
  printf 'vickrey-script 1\nannounce %s %s %s%s\n' $id "$width" "$lanes" "${reserve:+ $reserve}" >day
  for bid in "$@"; do
    seat=$((seat + 1))
    seed=$(printf '%064d' $seat)
    "$program" seal $id $seat "$bid" "$width" "$lanes" "$seed" secret-$seat seal-$seat >/dev/null || exit 1
    echo "submit $id seal-$seat secret-$seat" >>day
  done
  printf 'prove %s %064d ../board\nanswer %s ../challenge-%s ../reply-%s\nend\n' $id 99 $id "$bits" "$bits" >>day
  printf 'vickrey-challenge 1\nbits %s\nend\n' "$bits" >"../challenge-$bits"
  "$program" ceremony day >/dev/null || exit 1
  cd ..
}

# damages FILE EACH COMMAND..: the command on the file with each EACHth line damaged in every way, one after another
damages() {
  local file=$1 each=$2 line way
  shift 2
  cp "$file" whole
  for line in $(seq 1 "$each" $(($(wc -l <whole) + 1))); do
    for way in d p 's/^./z/' 's/[a-f]/\U&/' 's/$/ /' 's/ / 0/' 's/[0-8]\([^0-8]*\)$/9\1/' 's/[1-9]\([^1-9]*\)$/0\1/' \
        's/ [^ ]*$//' 's/\(.*\) \(.*\)/\2 \1/' 's/ [^ ]*\([^ ]\)/ \1/'; do
      case="$file, line $line, $way"
      sed "$line$way" whole >"$file"
      cmp -s "$file" whole || "$@"
    done
    case="$file, cut in line $line"
    { head -n $((line - 1)) whole; sed -n "${line}p" whole | head -c 20; } >"$file"
    "$@"
  done
  mv whole "$file"
}

# heads: the board of version 2 with each reserve, sale and price that is near to what stands there or to a limit
heads() {
  local width seat said near reserve sale price
  cp board whole
  width=$(sed -n 's/^width //p' whole)
  seat=$(sed -n 's/^seal //p' whole | head -n 1)
  mapfile -t said < <(sed -n 's/^reserve //p; s/^price //p' whole)
  mapfile -t near < <(printf '%s\n' 0 $(((1 << width) - 1)) $((1 << width)) "${said[@]}" $((said[0] + 1)) $((said[1] + 1)) | sort -nu)
  for reserve in "${near[@]}"; do
    for sale in unsold "winner $seat" 'winner 65535'; do
      for price in "${near[@]}"; do
        case="a head with reserve $reserve, $sale, price $price"
        { head -n 5 whole; printf 'reserve %s\n%s\nprice %s\n' "$reserve" "$sale" "$price"; tail -n +9 whole; } >board
        compare board "challenge-$bits" "reply-$bits"
      done
    done
  done
  mv whole board
}

# compared EACH: both replies to a board or a claim file, and damages to the files of each
compared() {
  local each=$1 run=(compare "$published" "challenge-$bits" "reply-$bits")
  case=honest
  compare "$published" "challenge-$bits" "reply-$bits"
  compare "$published" "challenge-$other" "reply-$other"
  case='the reply to the other challenge'
  compare "$published" "challenge-$bits" "reply-$other"
  damages "$published" "$each" "${run[@]}"
  damages "challenge-$bits" 1 "${run[@]}"
  damages "reply-$bits" "$each" "${run[@]}"
  damages "reply-$other" "$each" compare "$published" "challenge-$other" "reply-$other"
}

# derived EACH: the challenge that is derived from a board, and what is said of damaged ones
derived() {
  local lay=
  case='a derived challenge'
  made coin-board ../board challenge
  case='a derived challenge over a file that is longer'
  lay='seq 100 >challenge; chmod 640 challenge' made coin-board ../board challenge
  case='a challenge that would be written over the board'
  lay='cp ../board .' made coin-board board ./board
  damages board "$1" made coin-board ../board challenge
}

# auction EACH WIDTH LANES BID..: what both say of an auction by the program
auction() {
  local each=$1 width=$2 lanes=$3 bits other
  shift 3
  cd "$(mktemp -d -p "$top")" || exit 1
  bits=$(printf '%s' 0110100110010110 | head -c "$lanes")
  other=$(tr 01 10 <<<"$bits")
  answered "$other" "$width" "$lanes" "$@"
  answered "$bits" "$width" "$lanes" "$@"
  compared "$each"
  derived $((2 * each))
}

# reserved EACH SEALS WIDTH LANES NUMBER RESERVE: what both say of a board of version 2
reserved() {
  local each=$1 bits=1 other=2
  cd "$(mktemp -d -p "$top")" || exit 1
  "$python" -IS "$maker" "${@:2:4}" . "$6" || exit 1
  heads
  compared "$each"
  derived $((2 * each))
}

# publishes NUMBER..: what both say of the claim file `whole` with these numbers
publishes() {
  local said
  said=$(sed -n 's/^numbers //p' whole)
  case="numbers $*"
  { head -n 5 whole; printf 'numbers %s\n' $#; printf 'n %s\n' "$@"; tail -n +$((7 + said)) whole; } >claim
  compare claim "challenge-$bits" "reply-$bits"
}

# numbers: the claim file with each price, and each two winners or none, that are near to what stands there or to a limit
numbers() {
  local width inputs price one other near
  cp claim whole
  width=$(sed -n '7s/^n //p' whole)
  inputs=$(sed -n 's/^inputs //p' whole)
  price=$(sed -n '8s/^n //p' whole)
  mapfile -t near < <(printf '%s\n' 0 $((price + 1)) "$price" $(((1 << width) - 1)) $((1 << width)) | sort -nu)
  for price in "${near[@]}"; do
    for one in '' $(seq 0 $((inputs + 1))); do
      for other in '' $(seq 0 $((inputs + 1))); do
        publishes "$width" "$price" ${one:+"$one"} ${other:+"$other"}
      done
    done
  done
  mv whole claim
}

# women: the claim file of a matching with each width that is near to a limit, and each woman less, in the place of another,
# or as one more
women() {
  local width said place woman
  cp claim whole
  mapfile -t said < <(sed -n 's/^n //p' whole)
  for width in 0 1 "${said[0]}" $((said[0] + 1)) 16 17; do
    publishes "$width" "${said[@]:1}"
  done
  publishes "${said[@]:0:${#said[@]}-1}"
  for woman in $(seq 0 ${#said[@]}); do
    publishes "${said[@]}" "$woman"
    for place in $(seq 1 $((${#said[@]} - 1))); do
      publishes "${said[@]:0:place}" "$woman" "${said[@]:place+1}"
    done
  done
  mv whole claim
}

# claimed EACH SEALS WIDTH LANES NUMBER UNITS, or with `matching` behind a number of men: what both say of a claim file
claimed() {
  local each=$1 bits=1 other=2 command=claim-verify published=claim
  cd "$(mktemp -d -p "$top")" || exit 1
  if [ "$6" = matching ]; then
    "$python" -IS "$maker" "${@:2:4}" . matching || exit 1
    women
  else
    "$python" -IS "$maker" "${@:2:4}" . "units:$6" || exit 1
    numbers
  fi
  compared "$each"
}

# sealed: seals, and words that make none
sealed() {
  local seed lay='' words
  cd "$(mktemp -d -p "$top")" || exit 1
  seed=$(printf '%064d' 7)
  for words in '7 13 4 2' '1 0 1 1' '65535 1099511627775 40 64' '300 5 40 40' '7 16 4 2' '7 2 1 1' '0 1 4 2' '65536 1 4 2' \
      '7 18446744073709551615 4 2' '7 18446744073709551616 4 2' '7 01 4 2' '7 1 0 2' '7 1 41 2' '7 1 4 0' '7 1 4 65' '7 1 4'; do
    case="seal $words"
    # shellcheck disable=SC2086 # several words
    made seal $id $words "$seed" secret seal
  done
  case='an id and seeds of other forms'
  made seal ${id^^} 7 13 4 2 "$seed" secret seal
  made seal $id 7 13 4 2 "${seed%7}" secret seal
  made seal $id 7 13 4 2 "${seed}7" secret seal
  for words in 'one one' 'one ./one' 'one folder' 'folder one' 'none/one one' 'house.sqlite seal' 'secret house.sqlite-wal' \
      './house.sqlite seal' 'secret link' 'old seal' 'link other' 'pipe seal' 'secret pipe' '/dev/zero seal' \
      '/dev/null /dev/null' '/dev/null /dev/../dev/null' '/dev/null /dev/full'; do
    case="files $words"
    lay='mkdir folder; ln -s one link; mkfifo pipe; seq 1000 >old; chmod 604 old'
    # shellcheck disable=SC2086
    made seal $id 7 13 4 2 "$seed" $words
  done
}

# drawn AUDITORS BITS: the parts and shares of so many auditors, and their coin, which stands here then
drawn() {
  local auditor
  { printf 'vickrey-coin 1\nauction %s\nbits %s\nauditors %s\n' $id "$2" "$1"; } >coin
  : >shows
  for auditor in $(seq "$1"); do
    case="part $auditor of $1, $2 bits"
    made coin-part $id "$auditor" "$2" "$(printf '%064d' "$auditor$2")" share
    "$program" coin-part $id "$auditor" "$2" "$(printf '%064d' "$auditor$2")" share | sed 's/ commit / /' >>coin
    sed -n "s/^show /show $auditor /p" share >>shows
  done
  cat shows >>coin
  echo end >>coin
}

# joined: shares, and the challenge that they come to; of small coins damages in every way, and shares that are exchanged
joined() {
  local size lay='' words
  cd "$(mktemp -d -p "$top")" || exit 1
  for size in '1 1' '1 64' '3 40' '16 1' '16 64' '2 9'; do
    # shellcheck disable=SC2086 # two numbers
    drawn $size
    case="a coin of $size"
    made coin-join ../coin challenge
  done
  case='a challenge over a file'
  lay='seq 1000 >challenge; chmod 604 challenge' made coin-join ../coin challenge
  for words in 'coin' 'coin coin' 'coin ./coin' 'coin link' 'coin folder' 'coin house.sqlite' 'none challenge' 'folder challenge'; do
    case="files $words"
    lay='cp ../coin .; mkdir folder; ln -s coin link'
    # shellcheck disable=SC2086
    made coin-join $words
  done
  lay=
  for words in "$id 0 4" "$id 17 4" "$id 1 0" "$id 1 65" "$id 01 4" "${id%f} 1 4" "$id 16 64"; do
    case="words $words"
    # shellcheck disable=SC2086
    made coin-part $words "$(printf '%064d' 1)" share
  done
  damages coin 1 made coin-join ../coin challenge
  for words in 's/^auction 0/auction 1/' '7s/.$/x&/; s/x0$/1/; s/x1$/0/' '8s/.$/x&/; s/x0$/1/; s/x1$/0/' '5{h;d};6G' '7{h;d};8G' \
      's/ 2 / 1 /' '5{s/ 1 / 2 /;h;d};6{s/ 2 / 1 /;G}' '/^show/s/.$//; s/^bits 9/bits 8/' '/^show/s/$/0/; s/^bits 9/bits 10/' \
      's/^bits 9/bits 8/' 's/^auditors 2/auditors 1/' 's/^auditors 2/auditors 3/' '6d;8d;s/^auditors 2/auditors 1/'; do
    case="a coin changed by $words"
    sed "$words" coin >changed
    made coin-join ../changed challenge
  done
}

case='the tests of the second checker'
agree OK "$(cd "$(dirname "$checker")" && "$python" -m unittest discover -s tests -t .. 2>&1 | tail -n 1)"
sealed
joined
auction 1 1 1 0
auction 12 2 2 1 3 1
auction 60 5 3 9 9 30 31 2
reserve=2 auction 30 4 2 9 3
reserve=9 auction 30 4 2 9 3
reserve=10 auction 30 4 2 9 3
reserved 1 1 2 1 3 unsold
reserved 7 1 2 1 3 at
reserved 40 2 2 3 8 unsold
reserved 40 2 2 3 3 at
reserved 40 2 2 3 3 above
reserved 400 5 40 2 1 above
claimed 1 1 1 1 3 1
claimed 20 3 2 2 5 2
claimed 60 5 4 2 1 4
claimed 20 2 3 2 3 2
claimed 3 1 3 2 1 matching
claimed 20 2 2 2 3 matching
claimed 90 3 4 2 5 matching
claimed 900 5 16 2 1 matching
cd "$(mktemp -d -p "$top")" || exit 1
case=sample
if "$program" sample 1 >/dev/null; then
  compare sample-board sample-challenge-1 sample-reply-1
  compare sample-board sample-challenge-2 sample-reply-2
  compare sample-board sample-challenge-1 sample-reply-2
fi
case=claim-sample
command=claim-verify
for kind in uniform matching; do
  if "$program" claim-sample $kind 1 >/dev/null; then
    compare claim-board claim-challenge-1 claim-reply-1
    compare claim-board claim-challenge-2 claim-reply-2
    compare claim-board claim-challenge-1 claim-reply-2
  fi
done
echo "$agreed of $runs agree"
[ "$agreed" = "$runs" ]
