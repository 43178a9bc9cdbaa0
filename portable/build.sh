#!/usr/bin/env bash
# portable/build.sh OUT: builds the module of the crate `vickrey`, as `rt run` proves it, into the
#   folder OUT: vickrey.wasm, its digest in vickrey.wasm.sha256, and vickrey.wasm.gz, which node reads.
# portable/build.sh --check: builds it anew, and says whether portable/vickrey.wasm.gz holds the same
#   module, byte for byte.
# portable/build.sh --code CODE OUT: the same as the first, of intermediate code that is there.
# portable/build.sh --calls OUT: only OUT/calls.wasm, which is portable/trials/calls.c, for its test.
#
# It needs the kit, python3, and Debian's package binaryen (its wasm-opt). The crates below
# are proved first where they aren't yet. What is trusted beside the proof is in README.md here.
set -eu
usage() { sed -n '2,8s/^# //p' "$0"; exit 2; }
fail() { echo "build.sh: $*" >&2; exit 1; }
here=$(realpath "$(dirname "$0")")
top=$(dirname "$here")
# shellcheck source=page/lowering.sh
. "$top/page/lowering.sh"

# code: the intermediate code of the crate `vickrey`, proved, as $work/module.bc. What is below it is
# proved by build.py, several crates at a time, where it isn't yet. The compiler is given the words
# that `rt run` has for this crate, by `rt` itself. It hands clang intermediate code only once the
# crate is proved, and no more of it is wanted: so that clang keeps it, and fails
code() {
  toolchain false
  cd "$top/crates/vickrey"
  mkdir -p out
  python3 -B - "$top" "$work" >"$work/said" 2>&1 <<'WORDS' || true
import os
import sys

top, work = sys.argv[1:]
sys.path.insert(0, top)
import build

fault = build.prove(build.crates_below(build.PROGRAM), build.most_jobs())
if fault:
    sys.exit(fault)
rtlib = build.kit().rtlib
crate = rtlib.Crate(os.getcwd(), rtlib.root_above(os.getcwd()), {})
crate.held = rtlib.lock([*crate.below(), crate])
words = [*crate.words([]), "--toolchain", f"{work}/toolchain", "--backend", "llvm", *rtlib.KEPT]
sys.exit(crate.call(rtlib.RATTLE, "build", *words, "-o", f"{work}/same.o"))
WORDS
  if [ ! -f "$work/module.bc" ] || ! grep -q '^logic=proved' "$work/said"; then
    tail -n 20 "$work/said" >&2
    fail "the crate vickrey isn't proved"
  fi
  cd "$work"
}

# module OUT: the module of $work/module.bc
module() {
  c_code runtime "$top/page/runtime.c"
  c_code system "$here/system.c"
  text
  python3 "$here/entry.py" "$work/code.ll" "$work/entered.ll"
  lower "$work/runtime.ll" "$work/entered.ll" "$work/code.o"
  link "$1" "$work/code.o" "$work/system.o" "$work/runtime.o" -- program_start
}

# pack OUT: the files beside the module OUT/vickrey.wasm. The digest is of the module, so that
# another version of the packer is no other module
pack() {
  (cd "$1" && sha256sum vickrey.wasm >vickrey.wasm.sha256)
  gzip -9nc "$1/vickrey.wasm" >"$1/vickrey.wasm.gz"
}

check() {
  code
  module "$work/vickrey.wasm"
  (cd "$work" && sha256sum vickrey.wasm >vickrey.wasm.sha256)
  gzip -dc "$here/vickrey.wasm.gz" >"$work/kept.wasm"
  if cmp "$work/vickrey.wasm" "$work/kept.wasm" &&
    cmp "$work/vickrey.wasm.sha256" "$here/vickrey.wasm.sha256"; then
    echo "the same: $(cat "$here/vickrey.wasm.sha256")"
  else
    fail "portable/vickrey.wasm.gz isn't what is built here, with $(wasm-opt --version)"
  fi
}

# made OUT: all files of the module of $work/module.bc
made() {
  module "$1/vickrey.wasm"
  pack "$1"
  cat "$1/vickrey.wasm.sha256"
}

# folder PATH: its whole path; it is made where there is none
folder() {
  mkdir -p "$1"
  realpath "$1"
}

case "${1-} $#" in
  '--check 1') check ;;
  '--code 3')
    out=$(folder "$3")
    cp "$2" "$work/module.bc"
    made "$out"
    ;;
  '--calls 2')
    out=$(folder "$2")
    c_code runtime "$top/page/runtime.c"
    c_code system "$here/system.c"
    c_code calls "$here/trials/calls.c"
    link "$out/calls.wasm" "$work/calls.o" "$work/system.o" "$work/runtime.o" -- program_start
    ;;
  -*) usage ;;
  *\ 1)
    out=$(folder "$1")
    code
    made "$out"
    ;;
  *) usage ;;
esac
