#!/bin/bash
# Times `pdp8 guess` on programs of 7, 14 and 28 pages that guess/make.py makes, as the least of seven calls for each, and checks that
# `check` accepts each certificate. A program of twice the size should take at most 2.2 times as long.
# PDP8 names a built program to be used in place of the one in this repository.
. "$(dirname "$0")/setup.bash"
[ -x "$program" ] || build pdp8
TIMEFORMAT=%U
for pages in 7 14 28; do
    python3 "$top/bench/guess/make.py" "$pages" "$work/$pages"
    cd "$work/$pages"
    "$program" assemble tape source.pal >assembled
    for _ in 1 2 3 4 5 6 7; do
        { time "$program" guess tape declaration certificate >guessed; } 2>&1
    done | sort -n | head -1 >least
    "$program" check tape declaration certificate | grep -q '^yes' || { echo "$pages pages: no"; exit 1; }
    echo "$pages pages: $(cat least) seconds, $(wc -c <certificate) bytes"
done
