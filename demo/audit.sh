#!/usr/bin/env bash
# demo/audit.sh [--reserve RESERVE] [--parts PARTS] PROGRAM DIGEST ID WIDTH LANES SEATS BITS
# [SECRET]: the whole audit of an auction, in the folder that has its `board`, `challenge` and
# `reply`, and each public seal as `seal-SEAT`. It says `ok` or `FAILED` line by line, then one
# sentence, and ends with status 0 only if all is ok. It wants python3, for the second checker.
# Where the auction has an announcement file, `checker/check.py audit` does the same with fewer
# words, and without the program.
#   RESERVE           as it was announced; without it none was, and a board that names one FAILED
#   PARTS             where auditors drew the challenge: a file of their parts, as they were public
#                     before the first share was shown, line by line as in the coin, which is the
#                     file `coin`
#   PROGRAM           the program, by its path or as a command
#   DIGEST            of the board: what `sha256sum board` said when the board became public, before
#                     the draw
#   ID, WIDTH, LANES  as they were announced
#   SEATS             the seats whose seals are public, in the announced order, with commas: 7,9,300
#   BITS              of the challenge, as the challenger published them
#   SECRET            the file of a bidder's own secret: can the outcome be right for its bid? The
#                     bid itself isn't printed
set -u
python3 "$(realpath "$(dirname "$0")/../checker/check.py")" audit-words "$@"
status=$?
[ $status != 2 ] || sed -n '2,19p' "$0" >&2
exit $status
