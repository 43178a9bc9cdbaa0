#!/usr/bin/env bash
# page/build.sh OUT: builds the page from the crate `page`, as the gate proves it, into the folder
#   OUT: vickrey.html, its digest in vickrey.html.sha256, and module.wasm, which the page holds too.
# page/build.sh --check: builds it anew, and says whether page/vickrey.html is the same, byte for
#   byte.
# page/build.sh --runtime OUT: only OUT/runtime.wasm, which is page/runtime.c alone, for its test.
#
# It needs the kit, python3, and Debian's package binaryen (its wasm-opt). The crates below are
# proved first where they aren't yet. What is trusted beside the proof is in page/README.md.
set -eu
usage() { sed -n '2,6s/^# //p' "$0"; exit 2; }
fail() { echo "build.sh: $*" >&2; exit 1; }
here=$(realpath "$(dirname "$0")")
top=$(dirname "$here")
# shellcheck source=page/lowering.sh
. "$here/lowering.sh"

# The calls of the module.
page_calls=(page_run page_alloc)
runtime_calls=(page_alloc rattle_alloc rattle_realloc rattle_dealloc memcmp __multi3)

# dependencies CRATE: the words that name the libraries of a crate to the compiler, those of the kit
# and those of the repository, and all below them
dependencies() {
  python3 - "$1" "$top" "$kit" <<'WORDS'
import os
import sys

crate, top, kit = sys.argv[1:]
with open(os.path.join(top, "crates.txt"), encoding="utf-8") as file:
    rows = [line.partition("#")[0].partition(":") for line in file]
uses = {head.split()[0]: tail.split() for head, _, tail in rows if head.split()}
place = lambda name: f"{top}/crates/{name}/out/rlib" if name in uses else f"{kit}/rlibs"
below, waiting = [], ["std", *uses[crate]]
while waiting:
    name = waiting.pop()
    if name not in below:
        below.append(name)
        waiting += uses.get(name, [])
for name in ["std", *uses[crate]]:
    print(f"--extern\n{name}={place(name)}/{name}.rlib")
for folder in sorted({place(name) for name in below}):
    print(f"-L\ndependency={folder}")
WORDS
}

# code: the intermediate code of the crate `page`, proved, as $work/module.bc
code() {
  local words
  # shellcheck disable=SC2119
  toolchain
  cd "$top/crates/page"
  "$top/build.py" --rt lib >"$work/said" 2>&1 || { tail -n 20 "$work/said" >&2; fail "the crate page isn't proved"; }
  mapfile -t words < <(dependencies page)
  "$kit/bin/rattle" build --crate-name page src/lib.rt "${words[@]}" --links page= \
    --antt-project "$kit/rattle/logic/antt-project.json" --logic-built "$kit/logic_built" \
    --crate-type staticlib --incremental out/incremental \
    --toolchain "$work/toolchain" --backend llvm -o "$work/page.a" >"$work/said" 2>&1 ||
    { tail -n 20 "$work/said" >&2; fail "the crate page isn't built"; }
  [ -f "$work/module.bc" ] || fail 'the compiler was given no intermediate code'
  cd "$work"
}

# module OUT: the module of the crate
module() {
  c_code runtime "$here/runtime.c"
  code
  text
  lower "$work/runtime.ll" "$work/code.ll" "$work/code.o"
  link "$1" "$work/code.o" "$work/runtime.o" -- "${page_calls[@]}"
}

# build OUT: all that there is of the page
build() {
  module "$1/module.wasm"
  python3 "$here/assemble.py" "$1/module.wasm" "$1/vickrey.html"
  (cd "$1" && sha256sum vickrey.html >vickrey.html.sha256)
}

check() {
  build "$work"
  if cmp "$work/vickrey.html" "$here/vickrey.html" &&
    cmp "$work/vickrey.html.sha256" "$here/vickrey.html.sha256"; then
    echo "the same: $(cat "$here/vickrey.html.sha256")"
  else
    fail "page/vickrey.html isn't what is built here, with $(wasm-opt --version)"
  fi
}

case "${1-} $#" in
  '--check 1') check ;;
  '--runtime 2')
    out=$(realpath "$2")
    c_code runtime "$here/runtime.c"
    link "$out/runtime.wasm" "$work/runtime.o" -- "${runtime_calls[@]}"
    ;;
  -*) usage ;;
  *\ 1)
    mkdir -p "$1"
    out=$(realpath "$1")
    build "$out"
    cat "$out/vickrey.html.sha256"
    ;;
  *) usage ;;
esac
