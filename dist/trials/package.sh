#!/usr/bin/env bash
# dist/trials/package.sh FOLDER: whether the Debian package of dist/deb.sh installs, runs and goes
# again. In a new root of Debian 12 with what every system has, python3 beside it, it is installed; a
# whole auction is held with the commands that it puts; its pages are there; and once it is removed
# the root has the files that it had before. The root is made in FOLDER, and kept there. It wants
# root, debootstrap and dpkg-deb.
set -eu
[ $# -eq 1 ] || { sed -n '2,6s/^# //p' "$0"; exit 2; }
top=$(realpath "$(dirname "$0")/../..")
mkdir -p "$1"
folder=$(realpath "$1")
root=$folder/root
mirror=${MIRROR:-http://deb.debian.org/debian}
failed=0

if [ ! -e "$folder/made" ]; then
  debootstrap --variant=minbase --include=python3 bookworm "$root" "$mirror" >"$folder/log" 2>&1
  touch "$folder/made"
fi
rm -f "$folder"/*.deb
"$top/dist/deb.sh" "$folder" >/dev/null
package=$(basename "$folder"/*.deb)
cp "$folder/$package" "$root/$package"

# within USER COMMAND: a command of the shell in the root, in an empty folder
within() {
  # shellcheck disable=SC2016
  unshare -m sh -c '
    mount -t proc proc "$1/proc" && mount -t tmpfs -o mode=1777 tmpfs "$1/tmp" &&
      exec chroot --userspec="$2" "$1" env -i PATH=/usr/sbin:/usr/bin:/sbin:/bin HOME=/tmp sh -c "cd /tmp && $3"
  ' sh "$root" "$1" "$2"
}

# files: every file of the root but those in which dpkg and python keep what they did
files() { (cd "$root" && find . -path ./proc -prune -o -print | grep -vE '^./var/(lib|log|cache)/|__pycache__' | sort); }

# case_of NAME TEXT USER COMMAND: it ends with 0, and a line that it prints has the text
case_of() {
  local got=0
  within "$3" "$4" >"$folder/said" 2>&1 || got=$?
  if [ $got -eq 0 ] && grep -qF -- "$2" "$folder/said"; then
    echo "ok      $1"
  else
    failed=$((failed + 1))
    echo "FAILED  $1: status $got"
    tail -n 5 "$folder/said"
  fi
}

files >"$folder/before"
case_of 'it is installed' 'Setting up vickrey' 0:0 "dpkg -i /$package"
id=000102030405060708090a0b0c0d0e0f
one=$(printf '11%.0s' $(seq 32))
two=$(printf '22%.0s' $(seq 32))
nobody=65534:65534
case_of 'a board is proved' 'proved winner 9 price 4' $nobody "
  vickrey announce $id 4 2 && vickrey seal $id 7 4 4 2 $one secret-7 seal-7 && vickrey submit $id seal-7 secret-7 &&
  vickrey seal $id 9 13 4 2 $two secret-9 seal-9 && vickrey submit $id seal-9 secret-9 && vickrey prove $id $one board"
case_of 'the program verifies' accepted $nobody 'vickrey sample 1 >said && vickrey verify sample-board sample-challenge-1 sample-reply-1'
case_of 'the second checker verifies' accepted $nobody 'vickrey sample 1 >said && vickrey-check verify sample-board sample-challenge-2 sample-reply-2'
case_of 'the audit finds it right' ' ok, 0 FAILED' $nobody "
  vickrey announce $id 4 2 && vickrey seal $id 7 4 4 2 $one secret-7 seal-7 && vickrey submit $id seal-7 secret-7 &&
  vickrey prove $id $two board && vickrey coin-board board challenge && vickrey answer $id challenge reply &&
  vickrey-audit vickrey \$(sha256sum board | cut -c 1-64) $id 4 2 7 \$(sed -n 's/^bits //p' challenge)"
case_of 'the intake runs' 'usage: check.py take' $nobody 'vickrey-take 2>&1 || [ $? = 2 ]'
case_of 'the page is there' 'vickrey.html' $nobody 'ls -R /usr/share/vickrey'
case_of 'the manual page is there' 'vickrey.1' $nobody 'ls /usr/share/man/man1'
case_of 'it is removed' 'Removing vickrey' 0:0 'dpkg --purge vickrey'
files >"$folder/after"
if diff "$folder/before" "$folder/after"; then
  echo 'ok      nothing is left of it'
else
  failed=$((failed + 1))
  echo 'FAILED  something is left of it'
fi
echo "$failed failed"
[ $failed -eq 0 ]
