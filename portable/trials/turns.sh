#!/bin/sh
# portable/trials/turns.sh COUNTER PROGRAM WORD..: the built program and the one on node by turns, as
# the file COUNTER, which grows by a byte with each run, is of even or odd length. So what tries the
# program tries both on one folder.
counter=$1 program=$2
shift 2
printf . >>"$counter"
if [ $(($(wc -c <"$counter") % 2)) -eq 0 ]; then exec "$program" "$@"; fi
exec node "$(dirname "$0")/../vickrey.js" "$@"
