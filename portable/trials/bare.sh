#!/usr/bin/env bash
# portable/trials/bare.sh FOLDER: whether README's first command runs where there is nothing: in two
# roots of Debian 12 with what every system has (debootstrap's minbase), of which one has node too.
# Each gets the files of the last commit. In the first the prebuilt program has to run, and
# install.sh; in the second, of which dist/ is taken away, node; and in the first without dist/ it is
# said what to do. Two more roots have what the second checker and the pages want besides, python3 and
# sqlite3, and one of them node: there the commands of all pages are run (checks/pages.sh), by the
# program that install.sh put. The roots are made in FOLDER, and kept there. It wants root and
# debootstrap.
set -eu
[ $# -eq 1 ] || { sed -n '2,9s/^# //p' "$0"; exit 2; }
top=$(realpath "$(dirname "$0")/../..")
mkdir -p "$1"
folder=$(realpath "$1")
mirror=${MIRROR:-http://deb.debian.org/debian}
failed=0

# root NAME PACKAGES: a root with the repository in /vickrey, made once
root() {
  if [ ! -e "$folder/$1/made" ]; then
    debootstrap --variant=minbase ${2:+"--include=$2"} bookworm "$folder/$1" "$mirror" >"$folder/$1.log" 2>&1
    touch "$folder/$1/made"
  fi
  rm -rf "$folder/$1/vickrey"
  mkdir "$folder/$1/vickrey"
  git -C "$top" archive HEAD | tar -x -C "$folder/$1/vickrey"
  chmod -R a+rX "$folder/$1/vickrey"
}

# within NAME COMMAND: a command of the shell in that root, as nobody, in /vickrey
within() {
  # shellcheck disable=SC2016
  unshare -m sh -c '
    mount -t proc proc "$1/proc" && mount -t tmpfs -o mode=1777 tmpfs "$1/tmp" &&
      exec chroot --userspec=65534:65534 "$1" env -i PATH=/usr/bin:/bin HOME=/tmp sh -c "cd /vickrey && $2"
  ' sh "$folder/$1" "$2"
}

# case_of NAME STATUS TEXT COMMAND: it ends so in that root, and a line of it has the text
case_of() {
  local got=0
  local begun=$SECONDS
  within "$1" "$4" >"$folder/said" 2>&1 || got=$?
  if [ $got -eq "$2" ] && grep -qF -- "$3" "$folder/said"; then
    echo "ok      $1: $4 ($((SECONDS - begun)) s)"
  else
    failed=$((failed + 1))
    echo "FAILED  $1: $4: status $got"
    tail -n 5 "$folder/said"
  fi
}

root plain ''
case_of plain 0 'Seat 7 won, and pays 9.' demo/auction.sh
case_of plain 0 'The program is the prebuilt one of dist/' 'demo/auction.sh | head -n 1'
case_of plain 0 accepted './install.sh --prebuilt /tmp/here >/tmp/said && cd crates/vickrey/data && /tmp/here/bin/vickrey verify board challenge-0 reply-0'
rm "$folder"/plain/vickrey/dist/*.gz
case_of plain 2 'there is no program that runs here' demo/auction.sh

root node nodejs
rm "$folder"/node/vickrey/dist/*.gz
case_of node 0 'Seat 7 won, and pays 9.' demo/auction.sh
case_of node 0 'The program is that of portable/, by node' 'demo/auction.sh | head -n 1'
case_of node 0 accepted 'node portable/vickrey.js verify crates/vickrey/data/board crates/vickrey/data/challenge-0 crates/vickrey/data/reply-0'
case_of node 0 accepted './install.sh --node /tmp/here >/tmp/said && cd crates/vickrey/data && /tmp/here/bin/vickrey verify board challenge-0 reply-0'

pages='&& checks/pages.sh /tmp/here/bin/vickrey'
root pages python3,sqlite3
case_of pages 0 ' passed, 0 failed' "./install.sh --prebuilt /tmp/here >/tmp/said $pages"
root pages-node nodejs,python3,sqlite3
rm "$folder"/pages-node/vickrey/dist/*.gz
case_of pages-node 0 ' passed, 0 failed' "./install.sh --node /tmp/here >/tmp/said $pages"
echo "$failed failed"
[ $failed -eq 0 ]
