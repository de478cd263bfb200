#!/bin/bash
# Times the search for a run that violates a declaration: `pdp8 refute` on safe programs of examples/, so that the search makes all of
# its steps. Prints millions of steps per second of processor time: the median of the runs, and the best one.
# PDP8 names a built program to be used in place of the one in this repository. PLAIN names the source of a search in plain Rust, which
# is compiled by rustc and timed in turn with our program. Its arguments are the output of `pdp8 dump`, the declaration, a file for the
# events, millions of steps, and the seed.
# usage: bench/refute.sh [MILLIONS [RUNS]]
. "$(dirname "$0")/setup.bash"
millions=${1:-20}
runs=${2:-9}
[ -x "$program" ] || build pdp8
[ -z "${PLAIN:-}" ] || rustc -O -o "$work/plain" "$PLAIN" 2>"$work/told" || { cat "$work/told"; exit 1; }

# The processor time, in seconds, of a command.
TIMEFORMAT=%U
seconds() { { time "$@" >"$work/said" 2>&1 </dev/null || true; } 2>&1; }
# The median and the best of the times in a file, both as millions of steps per second.
rates() {
    sort -n "$1" | awk -v millions="$millions" '{ of[NR] = $1 } END { printf "%.1f at the median, %.1f at best", millions / of[int((NR + 1) / 2)], millions / of[1] }'
}
for name in hello move dispatch decimal; do
    "$program" assemble -o "$work/$name.bin" "$top/examples/$name.pal"
    "$program" dump "$work/$name.bin" >"$work/$name.dump"
    : >"$work/ours"
    : >"$work/theirs"
    for ((run = 0; run < runs; run++)); do
        seconds "$program" refute "$work/$name.bin" "$top/examples/$name.declaration" -o "$work/events" --steps "$((millions * 1000000))" >>"$work/ours"
        grep -q "^not broken" "$work/said" || { cat "$work/said"; exit 1; }
        [ -z "${PLAIN:-}" ] || seconds "$work/plain" "$work/$name.dump" "$top/examples/$name.declaration" "$work/events" "$millions" 1 >>"$work/theirs"
    done
    echo "$name: $(rates "$work/ours") million steps a second"
    [ -z "${PLAIN:-}" ] || echo "  the plain search: $(rates "$work/theirs")"
done
