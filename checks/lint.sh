#!/usr/bin/env bash
# checks/lint.sh: looks through scripts and pages by linters of Debian: flake8 (python3-flake8) with
# the settings of .flake8, or pyflakes3 where that alone is there; node reads each file of
# JavaScript, and eslint does with the settings of .eslintrc.json, of the page with those of
# page/.eslintrc.json; shellcheck; mandoc; and whether CHANGELOG.md has the digests of the page, of
# the program on node and of the prebuilt one, and README.md that of the page. It is no part of the
# gate. The last line says how many of these parts passed and failed; one whose linter isn't there
# is named, and is neither.
set -u
cd "$(dirname "$0")/.." || exit 1
passed=0
failed=0

# part NAME COMMAND..: it passes where the command ends with 0
part() {
  local name=$1
  shift
  if ! command -v "$1" >/dev/null; then
    echo "not tried: $name: there is no $1"
  elif "$@"; then
    passed=$((passed + 1))
  else
    failed=$((failed + 1))
    echo "FAILED: $name"
  fi
}

files() { git ls-files -- "$@"; }

# each COMMAND..: the command on each file of standard input
each() { local status=0 file; while read -r file; do "$@" "$file" || status=1; done; return $status; }
javascript() { files '*.js' | each node --check; }
linted() { files '*.js' | xargs eslint -f unix; }
shell() { files '*.sh' | xargs shellcheck; }

# has FILE LINE: the line stands in the file
has() { grep -qxF -- "$2" "$1" || { echo "$1 has no line '$2'"; return 1; }; }

# Each digest stands in CHANGELOG.md, in a line of its own, and the page's in README.md too
digests() {
  local line status=0
  while read -r line; do
    has CHANGELOG.md "$line" || status=1
  done < <(cat page/*.sha256 portable/*.sha256 dist/*.sha256)
  has README.md "$(cat page/*.sha256)" || status=1
  return $status
}

mapfile -t python < <(files '*.py')
# Debian's flake8 is a module of Debian's Python
if /usr/bin/python3 -c 'import flake8' 2>/dev/null; then
  part Python /usr/bin/python3 -m flake8 "${python[@]}"
else
  part Python pyflakes3 "${python[@]}"
fi
if command -v node >/dev/null; then
  part JavaScript javascript
else
  echo 'not tried: JavaScript: there is no node'
fi
# Debian's eslint finds its parts by Debian's node; another one is told where they are
export NODE_PATH=/usr/share/nodejs:/usr/lib/nodejs
if eslint --version >/dev/null 2>&1; then
  part 'JavaScript by eslint' linted
else
  echo 'not tried: JavaScript by eslint: there is no eslint'
fi
if command -v shellcheck >/dev/null; then part Shell shell; else echo 'not tried: Shell: there is no shellcheck'; fi
part 'the manual page' mandoc -Tlint docs/vickrey.1
part 'the digests' digests
echo "$passed passed, $failed failed"
[ "$failed" = 0 ]
