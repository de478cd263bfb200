#!/bin/bash
# Times `pdp8 watch` and, for comparison, `pdp8 run` on the same tape and the same events: a million steps of a loop that calls a
# routine to increment a cell, so that every fourth step is a call or a return. The two are run in turn, each as often as requested.
# Prints the median and the least processor time of each.
# PDP8 names a built program to be used in place of the one in this repository.
# usage: bench/watch.sh [RUNS]
. "$(dirname "$0")/setup.bash"
runs=${1:-25}
[ -x "$program" ] || build pdp8

cat >"$work/loop.pal" <<'SOURCE'
*200
LOOP,   JMS COUNT
        NOP
        NOP
        JMP LOOP
COUNT,  0
        ISZ TOTAL
        NOP
        JMP I COUNT
TOTAL,  0
$
SOURCE
cat >"$work/loop.declaration" <<'DECLARATION'
start 0200
main 0200-0203
sub 0204 body 0205-0207 returns 0
var 0210
DECLARATION
echo 'step 1000000' >"$work/loop.events"
"$program" assemble "$work/loop.bin" "$work/loop.pal"

# The processor time, in seconds, of a command that writes to a file.
TIMEFORMAT=%U
seconds() { { time "${@:2}" >"$1" 2>&1 </dev/null; } 2>&1; }

for ((run = 0; run < runs; run++)); do
    echo "run $(seconds "$work/ran" "$program" run "$work/loop.bin" --events "$work/loop.events")"
    echo "watch $(seconds "$work/watched" "$program" watch "$work/loop.bin" "$work/loop.declaration" "$work/loop.events")"
done >"$work/times"
cat "$work/ran" "$work/watched"
# The median and the least of the times of a command, in seconds.
middle() { grep "^$1 " "$work/times" | cut -d' ' -f2 | sort -n | awk '{ of[NR] = $1 } END { print of[int((NR + 1) / 2)], of[1] }'; }
read -r ran ran_least < <(middle run)
read -r watched watched_least < <(middle watch)
printf 'run    %.3f s for a million events at the median, %.3f at least\n' "$ran" "$ran_least"
printf 'watch  %.3f s, %.3f at least\n' "$watched" "$watched_least"
awk -v ran="$ran" -v watched="$watched" 'BEGIN { printf "watching takes %.1f times as long\n", watched / ran }'
