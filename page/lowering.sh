# page/lowering.sh: how proved code becomes a module of WebAssembly, for the scripts that make one:
# page/build.sh and portable/build.sh. They read this file, and define `fail` before. What it does
# stands in page/README.md, step by step. It needs the kit, python3, and Debian's package binaryen.
# shellcheck shell=bash

page=$(realpath "$(dirname "${BASH_SOURCE[0]}")")
rt=$(command -v rt) || fail 'there is no rt: install the kit'
command -v wasm-opt >/dev/null || fail 'there is no wasm-opt: install binaryen'
kit=$(dirname "$(dirname "$(realpath "$rt")")")
work=$(mktemp -d)
trap 'rm -rf "$work"' EXIT

# What all code is compiled for, and how. There are vectors where the source has them and in the
# loops that page/retarget.py marks, and no others, since wasm-opt can't lower all of their
# instructions. Divisions of 128 bits have no
# instruction and are written out. The kit's own clang is given the last two as well.
target=(--target=wasm64-unknown-unknown -mcpu=lime1 -msimd128 -O2 -fno-vectorize
  -fno-slp-vectorize)
lowering=(-mllvm -expand-div-rem-bits=64 -mllvm -disable-machine-licm
  -mllvm -sink-common-insts=false)

# What browsers take: all but memories of 64 bits, which are lowered to 32.
features=(--enable-bulk-memory --enable-sign-ext --enable-mutable-globals --enable-multivalue
  --enable-nontrapping-float-to-int --enable-simd)

# The memory of a module grows to 4 GB less 16 MB, so that a stack that ran over would meet no
# memory. The stack has 8 MB, as that of a program under Linux.
limits=(--max-memory=$(((4096 - 16) << 20)) -z stack-size=$((8 << 20)))

clang() { "$kit/toolchain/bin/clang" "$@"; }

# The kit's linker for WebAssembly is its one for Linux under another name.
wasm_ld() { (exec -a wasm-ld "$kit/toolchain/bin/ld.lld" "$@"); }

# toolchain [COMMAND]: a toolchain as the kit's, in $work/toolchain, whose clang keeps the intermediate
# code that it is given, as $work/module.bc, and then is the kit's, or this command
toolchain() {
  mkdir -p "$work/toolchain/bin"
  ln -s "$kit"/toolchain/bin/* "$work/toolchain/bin/"
  ln -s "$kit/toolchain/lib" "$work/toolchain/lib"
  rm "$work/toolchain/bin/clang"
  cat >"$work/toolchain/bin/clang" <<KEEPS
#!/bin/sh
for word; do
  case \$word in *.bc) cp "\$word" '$work/module.bc' ;; esac
done
exec ${1:-"'$kit/toolchain/bin/clang'"} "\$@"
KEEPS
  chmod +x "$work/toolchain/bin/clang"
}

# c_code NAME FILE: a file of C as $work/NAME.o, and the text of its code as $work/NAME.ll
c_code() {
  local words=("${target[@]}" -std=c17 -Wall -Wextra -Werror -ffreestanding -fno-builtin)
  clang "${words[@]}" -S -emit-llvm "$2" -o "$work/$1.ll"
  clang "${words[@]}" -c "$2" -o "$work/$1.o"
}

# text: the intermediate code $work/module.bc as the text $work/code.ll
text() { clang -x ir "$work/module.bc" -S -emit-llvm -Xclang -disable-llvm-passes -o "$work/code.ll"; }

# lower MODEL IN OUT: compiles the text of intermediate code, whose lines on the target are those of
# the text MODEL
lower() {
  python3 "$page/retarget.py" "$1" "$2" "$work/retargeted.ll"
  clang "${target[@]}" "${lowering[@]}" -ffunction-sections -x ir -c "$work/retargeted.ll" -o "$3"
}

# link OUT OBJECT.. -- CALL..: a module that exports these calls, and asks for nothing but what the
# objects name as imports
link() {
  local out=$1 objects=() exports=()
  shift
  while [ "$1" != -- ]; do
    objects+=("$1")
    shift
  done
  shift
  for call; do exports+=(--export="$call"); done
  wasm_ld -mwasm64 --no-entry --gc-sections --fatal-warnings --strip-all "${limits[@]}" \
    "${exports[@]}" -o "$work/wide.wasm" "${objects[@]}"
  wasm-opt --enable-memory64 "${features[@]}" -S "$work/wide.wasm" -o "$work/wide.wat" \
    2>"$work/messages" || { cat "$work/messages" >&2; fail "wasm-opt doesn't read the module"; }
  python3 "$page/plain.py" "$work/wide.wat" "$work/plain.wat"
  wasm-opt --enable-memory64 "${features[@]}" --memory64-lowering "$work/plain.wat" \
    -o "$work/lowered.wasm"
  wasm-opt "${features[@]}" -O2 --strip-producers --strip-target-features "$work/lowered.wasm" \
    -o "$out"
}
