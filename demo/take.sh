#!/usr/bin/env bash
# demo/take.sh [--left-out SEATS] ANNOUNCEMENT FOLDER PROGRAM: how the auctioneer takes what bidders
# handed in. It stands in the folder of the auction, which has its `house.sqlite`, or will; FOLDER
# has `seal-SEAT` and `secret-SEAT` of each seat. All are tried first in a scratch folder, and each
# seat is told: taken, or why not, and what its bidder is to be asked for. Only when all are right
# does the house take them, by ascending seat. It can be run again at any time, after a crash too,
# and says where the auction stands.
#   SEATS         seats that were left out in public by the announced rules, with commas: their
#                 files aren't looked at
#   ANNOUNCEMENT  the announcement file
#   PROGRAM       the program, by its path or as a command
# It ends with 0 when all are taken, and with 1 when nothing was since some files aren't right. It
# wants python3.
set -u
python3 "$(realpath "$(dirname "$0")/../checker/check.py")" take "$@"
status=$?
[ $status != 2 ] || sed -n '2,13p' "$0" >&2
exit $status
