#!/usr/bin/env bash
# dist/deb.sh OUT [PROGRAM]: makes a Debian package of this tree in the folder OUT, of the prebuilt
# program of dist/, or of PROGRAM where one is named: what install.sh puts, at /usr. Its version is
# the program's number, the date of the last commit and that commit. It wants dpkg-deb and git.
set -eu
[ $# -eq 1 ] || [ $# -eq 2 ] || { sed -n '2,4s/^# //p' "$0"; exit 2; }
here=$(realpath "$(dirname "$0")/..")
out=$(realpath "$1")
work=$(mktemp -d)
trap 'rm -rf "$work"' EXIT
number=$(sed -n 's/^const VERSION: &str = "\(.*\)";$/\1/p' "$here/crates/vk_words/src/advice.rt")
version=$number+$(git -C "$here" log -1 --format=%cd.%h --date=format:%Y%m%d --abbrev=7)
SOURCE_DATE_EPOCH=$(git -C "$here" log -1 --format=%ct)
export SOURCE_DATE_EPOCH

root=$work/root
mkdir -m 755 "$root"
if [ $# -eq 2 ]; then
  DESTDIR=$root "$here/install.sh" /usr "$2" >/dev/null
else
  DESTDIR=$root "$here/install.sh" --prebuilt /usr >/dev/null
fi
# As Debian has them: packed without names and times
gzip -9n "$root/usr/share/man/man1/vickrey.1"
mv "$root/usr/share/zsh/site-functions" "$root/usr/share/zsh/vendor-completions"

mkdir -m 755 "$root/DEBIAN"
cat >"$root/DEBIAN/control" <<END
Package: vickrey
Version: $version
Architecture: amd64
Maintainer: whoever made this package
Installed-Size: $(du -sk "$root/usr" | cut -f 1)
Depends: libc6 (>= 2.34)
Recommends: python3 (>= 3.8)
Section: utils
Priority: optional
Description: sealed-bid second-price auction whose auctioneer proves the outcome
 The highest bid wins and pays the highest of the other bids. Bidders publish
 seals, the auctioneer a board and a reply to a challenge that nobody could
 foresee, and anybody can check that the outcome is right, while the reply
 opens no bid. With a second checker in Python, the audit, and a page for a
 browser.
END
(cd "$root" && find usr -type f | sort | xargs md5sum >DEBIAN/md5sums)
find "$root" -print0 | xargs -0 touch -h -d "@$SOURCE_DATE_EPOCH"
dpkg-deb --root-owner-group -Zxz --build "$root" "$out/vickrey_${version}_amd64.deb"
