#!/bin/bash
# Times the computation of one outcome of a word, together with the test whether the outcome entails a fact. This is done with two
# tracked cells and two equations, with 64 cells and 32 equations, and then with the same in plain Rust (rustc -O). Prints for each the
# least processor time of seven runs, because other work on the machine slows a run down and never speeds it up.
# usage: bench/facts.sh [THOUSANDS]
. "$(dirname "$0")/setup.bash"
thousands=${1:-1000}
build speed
program=$top/crates/speed/out/speed
few=$((thousands / 20 + 1))
rustc -O -o "$work/plain" "$top/bench/facts/plain.rs"

# A certificate with this many pairs of cells, each with an equation. At 0200 the accumulator is 0, and each cell holds one of five
# words; the first cell is 0010. The fact at 0201 is what TAD of 0010 makes of the fact at 0200, with one more equation if there are
# fewer than 32.
certificate() {
    echo "PDP8-CERTIFICATE 1"
    for at in 0200 0201; do
        [ "$at" = 0200 ] && ac=0000 || ac=0225-0231
        echo "fact $at ac $ac link 0 offsets -"
        for ((pair = 0; pair < $1; pair++)); do
            printf 'cell %04o 0225-0231\ncell %04o 7773-7777\n' $((8 + 2 * pair)) $((9 + 2 * pair))
        done
        [ "$at" = 0201 ] && [ "$1" -lt 32 ] && echo "equal AC 0010 0000"
        for ((pair = 0; pair < $1; pair++)); do
            printf 'equal %04o %04o 0232\n' $((8 + 2 * pair)) $((9 + 2 * pair))
        done
    done
    echo end
}

# The processor time, in seconds, of a command that reads one file and writes to another one.
TIMEFORMAT=%U
seconds() { { time "${@:3}" >"$1" 2>&1 <"$2"; } 2>&1; }

certificate 1 >"$work/two"
certificate 32 >"$work/many"
for _ in 1 2 3 4 5 6 7; do
    echo "facts $thousands $(seconds "$work/facts" "$work/two" "$program" facts "$thousands")"
    echo "facts64 $few $(seconds "$work/facts64" "$work/many" "$program" facts "$few")"
    echo "plain $thousands $(seconds "$work/said" /dev/null "$work/plain" 1 "$thousands")"
    echo "plain64 $few $(seconds "$work/said" /dev/null "$work/plain" 32 "$few")"
done >"$work/times"
cat "$work/facts" "$work/facts64"
awk '
    { each = $3 / $2 * 1000 }
    !($1 in least) || each < least[$1] { least[$1] = each }
    END { for (name in least) printf "%-8s %7.3f microseconds for an outcome and its entailment\n", name, least[name] }
' "$work/times" | sort
