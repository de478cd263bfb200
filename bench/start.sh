#!/bin/bash
# Times the whole program pdp8 on the small tape of its stored run, and `pdp8 check` on HELLO. The figure is the time by the clock for
# one call, from its start to its end: the mean of a hundred calls, and of five such means the least. PDP8 names a built program to be
# used in place of the one in this repository.
. "$(dirname "$0")/setup.bash"
[ -x "$program" ] || build pdp8
"$program" assemble "$work/hello.bin" "$top/examples/hello.pal"
run() { "$program" <"$top/crates/pdp8/stdin" >/dev/null; }
check() { "$program" check "$work/hello.bin" "$top/examples/hello.declaration" "$top/examples/hello.certificate" >/dev/null; }
TIMEFORMAT=%R
# The milliseconds that one of these calls takes.
least() {
    for _ in 1 2 3 4 5; do
        { time for _ in {1..100}; do "$1"; done; } 2>&1
    done | sort -n | head -1 | awk '{ printf "%.2f", $1 * 10 }'
}
echo "$(least run) milliseconds for pdp8 on a small tape, $(least check) for pdp8 check on HELLO"
