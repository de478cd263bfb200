#!/bin/bash
# Times one loop of ISZ and JMP in turn on the processor alone, on a world that is driven by events, and on SIMH's pdp8 (Debian's
# package simh). Prints for each the least processor time of seven runs and the millions of instructions per second. Other work on the
# machine slows a run down and never speeds it up.
#
# If OLD names a program pdp8 that was built from an older commit, the script also times `pdp8 run` (a million instructions, CALLS
# times, 40 by default) and `pdp8 teletype` (the whole loop) of that program, without any option that stops or traces. It does so in
# turn with the same commands of the program that PDP8 names, or of the program in this repository if PDP8 is not set. To get an older
# program, build its commit in a tree of its own and keep the result:
#     git worktree add /tmp/old COMMIT && make -C /tmp/old run && cp /tmp/old/crates/pdp8/out/pdp8 /tmp/pdp8.old
#     OLD=/tmp/pdp8.old bench/run.sh
# README.md says how long `make run` takes. Both programs have to be built with proofs: a program that was built without proofs
# contains run-time checks, and is slower.
#
# usage: bench/run.sh [ROUNDS]; a round has 33,558,529 instructions. SIMH names a simulator other than /usr/bin/pdp8.
. "$(dirname "$0")/setup.bash"
rounds=${1:-6}
calls=${CALLS:-40}
old=${OLD:-}
simh=${SIMH:-/usr/bin/pdp8}
build speed
[ -z "$old" ] || [ -x "$program" ] || build pdp8

if ! echo quit | "$simh" 2>&1 | grep -q 'PDP-8 simulator'; then
    echo "bench/run.sh: SIMH's pdp8 is not installed, so its column is left out"
    simh=
fi
count=$(printf '%o' $(((4096 - rounds) & 4095)))
# The same loop, deposited cell by cell.
{
    printf 'deposit %s\n' '200 7300' '201 2210' '202 5201' '203 2211' '204 5201' '205 2212' '206 5201' '207 7402'
    printf 'deposit 212 %s\nrun 200\nexamine PC\nexamine AC\nexamine 212\nquit\n' "$count"
} >"$work/loop.ini"
# The same loop on a tape.
printf '*200;7300;2210;5201;2211;5201;2212;5201;7402;0;0;%s\n$\n' "$count" >"$work/loop.pal"
[ -z "$old" ] || "$program" assemble -o "$work/loop.bin" "$work/loop.pal"

# The processor time, in seconds, of a command that writes to a file.
TIMEFORMAT=%U
seconds() { { time "${@:2}" >"$1" 2>&1 </dev/null; } 2>&1; }
# Runs a million instructions of the loop, the given number of times.
runs() { for _ in $(seq "$calls"); do "$1" run "$work/loop.bin" --steps 1000000; done; }
# Prints the times of a program's runs and of its session, each after a name.
of_program() {
    echo "$1run $(seconds "$work/$1run" runs "$2")"
    echo "$1teletype $(seconds "$work/$1teletype" "$2" teletype "$work/loop.bin")"
}

for _ in 1 2 3 4 5 6 7; do
    echo "cpu $(seconds "$work/cpu" "$speed" cpu "$rounds")"
    echo "world $(seconds "$work/world" "$speed" world "$rounds")"
    [ -z "$simh" ] || echo "simh $(seconds "$work/simh" "$simh" "$work/loop.ini")"
    if [ -n "$old" ]; then
        of_program '' "$program"
        of_program old- "$old"
    fi
done >"$work/times"
cat "$work/cpu" "$work/world"
[ -z "$simh" ] || grep -E '^(HALT|PC|AC|212)' "$work/simh" | paste -sd' '
# Programs that end differently are not compared.
if [ -n "$old" ]; then
    sort -u "$work/run" "$work/old-run" "$work/teletype" "$work/old-teletype"
    cmp "$work/run" "$work/old-run"
    cmp "$work/teletype" "$work/old-teletype"
fi
awk -v steps=$((rounds * 33558529 + 1)) -v calls="$calls" '
    !($1 in least) || $2 < least[$1] { least[$1] = $2 }
    END { for (name in least) {
        done = name ~ /run$/ ? calls * 1e6 : steps
        printf "%-12s %.3f s %6.1f million instructions a second\n", name, least[name], done / least[name] / 1e6
    } }
' "$work/times" | sort
