#!/usr/bin/env bash
# dist/digests.sh: writes the digests of the page, of the program on node and of the prebuilt one to
# where they are named: in CHANGELOG.md the newest version's, and in README.md the page's. It is for
# whoever made one of them anew; checks/lint.sh says whether they stand there.
set -eu
[ $# -eq 0 ] || { sed -n '2,4s/^# //p' "$0"; exit 2; }
cd "$(dirname "$0")/.."

# name FILE LINE: the first line of the file with a digest of this name is LINE
name() {
  awk -v line="$2" -v name="${2##* }" '
    !done && NF == 2 && length($1) == 64 && $2 == name { $0 = line; done = 1 }
    { print }
    END { exit !done }' "$1" >"$1.new" || { rm "$1.new"; echo "$1 names no ${2##* }" >&2; exit 1; }
  cmp -s "$1" "$1.new" || cp "$1.new" "$1"
  rm "$1.new"
}

for file in page/*.sha256 portable/*.sha256 dist/*.sha256; do name CHANGELOG.md "$(cat "$file")"; done
name README.md "$(cat page/*.sha256)"
