#!/bin/bash
# Times writing and reading the fullest tape, 4096 words on 8228 frames, a thousand times each. Prints the microseconds for writing
# the tape once and for reading it once, each the least of seven runs.
. "$(dirname "$0")/setup.bash"
times=${1:-1000}
build speed
TIMEFORMAT=%U
for _ in 1 2 3 4 5 6 7; do
    { time "$top/crates/speed/out/speed" tapes "$times" >"$work/tapes"; } 2>&1
done | sort -n | head -1 >"$work/least"
cat "$work/tapes"
awk -v times="$times" '{ printf "%.1f microseconds to write the fullest tape and read it back\n", $1 / times * 1e6 }' "$work/least"
