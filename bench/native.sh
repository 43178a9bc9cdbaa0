#!/usr/bin/env bash
# bench/native.sh OUT [CPU [HASHING]]: writes to OUT the proved program, compiled for one kind of processor, out of the gate.
#
# Where `rt run` compiles for every processor of x86-64-v2, this is for those of CPU: `x86-64-v3` where nothing is said,
# or another name that the kit's clang knows; `native` is the processor at hand. The functions of vk_digests, the crate
# that hashes, are for HASHING: `native` where the processor at hand has AVX-512, else CPU. It takes these steps:
#   1. `rt run` proves and builds the program. Where nothing changed since, it does nothing.
#   2. The kit builds it once more, with the same words, but with a `clang` that keeps what it is given, the program's
#      intermediate code, and is the kit's clang else. Linked, this has to be the program of step 1, byte for byte.
#   3. In this code the processor of each function, `target-cpu`, is changed, and nothing else. The kit's clang compiles
#      it with the words of step 2, and the kit's linker links it.
#   4. The new program and that of step 1 run the same commands here: same statuses, texts and files, and the replies to
#      the boards that they make are accepted. Only then is OUT written.
# So what is proved is the same. What is trusted more is clang for these processors, which `rt ci` didn't run
# (docs/SPEED.md). It takes minutes. A processor that lacks something ends the program by a signal.
set -eu
usage() { sed -n '2,16s/^# \{0,1\}//p' "$0"; exit 2; }
fail() { echo "native.sh: $*" >&2; exit 1; }
if [ $# -lt 1 ] || [ $# -gt 3 ] || [[ $1 == -* ]]; then usage; fi
out=$(realpath -m "$1")
crate=$(realpath "$(dirname "$0")/../crates/vickrey")
gate=$crate/out/vickrey
if [ -d "$out" ] || [ ! -d "$(dirname "$out")" ]; then fail "$1 is no place for a file"; fi
rt=$(command -v rt) || fail "the Rattle kit isn't there: no rt on PATH, which proves and compiles the program"
kit=$(realpath "$(dirname "$(realpath "$rt")")/..")
clang=$kit/toolchain/bin/clang
for tool in "$clang" "$kit/bin/rattle" "$kit/bin/rattle-link" "$kit/bin/rtlib.py"; do
  [ -e "$tool" ] || fail "no $tool, so $rt belongs to no whole Rattle kit"
done
before='"target-cpu"="x86-64-v2"'
folder=$(mktemp -d)
trap 'rm -rf "$folder"' EXIT

# features CPU: the sets of instructions that clang takes such a processor to have
features() {
  "$clang" --target=x86_64-linux-gnu "-march=$1" -dM -E -x c /dev/null 2>/dev/null |
    sed -n 's/^#define __\([A-Z][A-Z0-9_]*\)__ 1$/\1/p' | sort
}

# named CPU: its name for clang; of `native`, which name the processor at hand has
named() {
  "$clang" --target=x86_64-linux-gnu "-march=$1" -### -x c -c /dev/null 2>&1 |
    sed -n 's/.* "-target-cpu" "\([^"]*\)".*/\1/p'
}

# chosen CPU: its name, where the processor at hand has all that it has
chosen() {
  local name lacking
  name=$(named "$1")
  [ -n "$(features "$name")" ] || fail "the kit's clang knows no processor $1"
  lacking=$(comm -23 <(features "$name") <(features native) | tr '\n' ' ')
  [ -z "$lacking" ] || fail "this processor isn't of the kind $name, since it lacks ${lacking% }"
  echo "$name"
}

# prove: step 1
prove() {
  (cd "$crate" && rt run -- verify data/board data/challenge-0 data/reply-0) >"$folder/said" || fail "rt run failed"
  [ "$(cat "$folder/said")" = accepted ] || fail "the program of rt run says: $(cat "$folder/said")"
}

# toolchain: the kit's, but for a clang that keeps the last words that it was called with, and the intermediate code
toolchain() {
  mkdir -p "$folder/toolchain/bin"
  ln -s "$kit/toolchain/lib" "$folder/toolchain/lib"
  ln -s "$kit/toolchain/bin/"* "$folder/toolchain/bin"
  rm "$folder/toolchain/bin/clang"
  cat >"$folder/toolchain/bin/clang" <<CLANG
#!/usr/bin/env bash
for word in "\$@"; do
  if [[ \$word == *.bc || \$word == *.ll ]] && [ -f "\$word" ]; then
    cp "\$word" '$folder/module'
    printf '%s' "\$word" >'$folder/module-name'
    printf '%s\0' "\$@" >'$folder/words'
  fi
done
exec '$clang' "\$@"
CLANG
  chmod +x "$folder/toolchain/bin/clang"
}

# build: step 2, by the words that `rt run` has for this crate, which `rt` itself gives
build() {
  (cd "$crate" && python3 -B - "$kit" "$folder" >"$folder/built" 2>&1) <<'WORDS' || fail "$(tail -n 5 "$folder/built")"
import os
import sys

kit, folder = sys.argv[1:]
sys.path.insert(0, f"{kit}/bin")
import rtlib

crate = rtlib.Crate(os.getcwd(), rtlib.root_above(os.getcwd()), {})
crate.held = rtlib.lock([*crate.below(), crate])
words = [*crate.words([]), "--toolchain", f"{folder}/toolchain", "--backend", "llvm", *rtlib.KEPT]
sys.exit(crate.call(rtlib.RATTLE, "build", *words, "-o", f"{folder}/same.o"))
WORDS
  [ -s "$folder/module" ] || fail "the kit's rattle handed clang no intermediate code"
  link same
  cmp -s "$folder/same" "$gate" || fail "what this makes of the same words isn't $gate"
}

# link NAME: as `rt run` does
link() {
  "$kit/bin/rattle-link" --target x86_64-unknown-linux-gnu --toolchain "$kit/toolchain" -o "$folder/$1" "$folder/$1.o" \
    "$kit/c/libos_c.a" "$kit/c/liblibc_c.a" >"$folder/linked" 2>&1 || fail "$(tail -n 5 "$folder/linked")"
}

# change: the text of the intermediate code, and then the same with other processors. Functions of vk_digests get groups
# of attributes of their own, numbered 9000, 9001 and so on
change() {
  local text=$folder/module.ll
  "$clang" -x ir "$folder/module" -S -emit-llvm -Xclang -disable-llvm-passes -Xclang -emit-llvm-uselists -o "$text"
  sed -e '/^define .*@"vk_digests::/s/ #\([0-9]*\) {$/ #900\1 {/' \
    -e "/^attributes #.*$before/{h;s/$before/\"target-cpu\"=\"$cpu\"/;p;g" \
    -e "s/^attributes #/&900/;s/$before/\"target-cpu\"=\"$hashing\"/}" "$text" >"$folder/native.ll"
  hashed=$(grep -c '^define .* #900[0-9]* {$' "$folder/native.ll" || true)
  [ "$hashed" -gt 0 ] || fail 'no function of vk_digests is in the intermediate code'
  # What was changed is changed back: so it was nothing else
  sed -e '/^define .*@"vk_digests::/s/ #900\([0-9]*\) {$/ #\1 {/' -e '/^attributes #900/d' \
    -e "/^attributes #/s/\"target-cpu\"=\"$cpu\"/$before/" "$folder/native.ll" | cmp -s - "$text" || fail "more than processors was changed"
}

# compile: step 3, by the words of step 2 with other files
compile() {
  local words word index
  mapfile -d '' -t words <"$folder/words"
  word=$(cat "$folder/module-name")
  for index in "${!words[@]}"; do
    if [ "${words[index]}" = "$word" ]; then words[index]=$folder/native.ll; fi
    if [ "${words[index]}" = -o ]; then words[index + 1]=$folder/native.o; fi
  done
  "$clang" "${words[@]}" || fail "clang doesn't compile it for $cpu, and vk_digests for $hashing"
  link native
}

# commands PROGRAM: what step 4 runs, in the folder that it is in, which has the files of crates/vickrey/data
commands() {
  local id=000102030405060708090a0b0c0d0e0f seat
  try() { "$program" "$@" || echo "status $?"; }
  program=$1
  try
  try verify board challenge-0 reply-0
  try extract board challenge-0 reply-0 challenge-1 reply-1
  try sample 1
  try verify sample-board sample-challenge-2 sample-reply-2
  try extract sample-board sample-challenge-1 sample-reply-1 sample-challenge-2 sample-reply-2
  try verify sample-board sample-challenge-1 sample-reply-2
  sed 's/^price .*/price 16/' sample-board >dear
  head -c 9000000 sample-board >short
  sed '60000s/[0-9a-f]\{8\}/00000000/' sample-reply-1 >other
  for file in dear short missing; do try verify $file sample-challenge-1 sample-reply-1; done
  try verify sample-board sample-challenge-1 other
  try report sample-board
  try coin-board sample-board derived
  for kind in uniform matching; do
    try claim-sample $kind 1
    try claim-verify claim-board claim-challenge-1 claim-reply-1
    try claim-extract claim-board claim-challenge-1 claim-reply-1 claim-challenge-2 claim-reply-2
  done
  try coin-part $id 1 8 "$(printf '%064d' 1)" share
  try announce $id 40 16 5
  for seat in 3 7 9; do
    try seal $id $seat $((seat * 77777777777)) 40 16 "$(printf '%064d' $seat)" secret-$seat seal-$seat
    try submit $id seal-$seat secret-$seat
  done
  try prove $id "$(printf '%064d' 7)" own-board
  try coin-board own-board own-challenge
  try answer $id own-challenge own-reply
  try verify own-board own-challenge own-reply
  try confront sample-board sample-challenge-1 sample-reply-1 sample-challenge-2 sample-reply-2 secret-3
  try show $id
}

# compare: step 4. The store isn't compared: its log begins with random bytes
compare() {
  local name
  for name in gate native; do
    mkdir "$folder/$name-run"
    cp "$crate"/data/* "$folder/$name-run"
  done
  (cd "$folder/gate-run" && commands "$gate") >"$folder/gate-run/said" 2>&1
  (cd "$folder/native-run" && commands "$folder/native") >"$folder/native-run/said" 2>&1
  [ "$(sed -n '/^accepted$/p' "$folder/gate-run/said" | wc -l)" -ge 5 ] || fail "the program of rt run accepts too little"
  diff -rq -x 'house.sqlite*' "$folder/gate-run" "$folder/native-run" >"$folder/differs" || fail "$(cat "$folder/differs")"
}

cpu=$(chosen "${2:-x86-64-v3}")
if [ $# -lt 3 ] && features native | grep -qx AVX512VL; then
  hashing=$(chosen native)
else
  hashing=$(chosen "${3:-$cpu}")
fi
echo "native.sh: $(rt version), for $cpu, and vk_digests for $hashing"
prove
toolchain
build
change
compile
compare
install -m 755 "$folder/native" "$out.new"
mv "$out.new" "$out"
echo "native.sh: $out has the intermediate code of $gate, compiled for $cpu, and $hashed functions for $hashing"
echo "native.sh: $(wc -l <"$folder/native-run/said") lines and $(find "$folder/native-run" -type f | wc -l) files are the same as that program's"
