#!/bin/bash
# Times reading and judging certificates in one process: `speed read` and `speed judge` are run with many rounds and with a single
# round, and the difference is the time of the other rounds. Each figure is the least processor time of nine runs. Then `pdp8 check` is
# timed on the same certificates from start to end, as the least of eleven calls.
# usage: bench/judge.sh [FOLDER..]
# A folder has the files t, d and c: a tape, a declaration and a certificate that the program accepts. Without folders,
# certificate/make.py makes two.
# PDP8 and SPEED name built programs to be used in place of those in this repository. PLAIN names the source of a checker in plain Rust,
# which is built by rustc -O and timed in turn with ours. Its arguments are `bench-check TAPE DECLARATION CERTIFICATE ROUNDS`, and the
# first line that it prints is `parse SECONDS judge SECONDS seconds per round`, with the means of its rounds. As for our program, the
# least of nine figures is printed.
. "$(dirname "$0")/setup.bash"
[ -x "$program" ] || build pdp8
[ -x "$speed" ] || build speed
if [ -n "${PLAIN:-}" ]; then
    rustc --edition 2024 -O -o "$work/plain" "$PLAIN" 2>"$work/built" || { cat "$work/built"; exit 1; }
fi
folders=("$@")
if [ "${#folders[@]}" = 0 ]; then
    for size in 110000 1040000; do
        python3 "$top/bench/certificate/make.py" "$size" "$work/$size"
        (cd "$work/$size" && mv tape t && mv declaration d && mv certificate c)
        folders+=("$work/$size")
    done
fi
TIMEFORMAT='%U %S'
# The processor time, in seconds, of a command that reads a file.
seconds() { { time "${@:2}" <"$1" >"$work/answer" 2>&1; } 2>&1 | awk '{ print $1 + $2 }'; }
# The least of the given numbers, one on each line.
least() { sort -g | head -1; }
rounds=200
# The time of a round, computed from the time of many rounds and that of a single round.
a_round() {
    echo "$(least <"$work/$1many") $(least <"$work/$1one") $rounds" | awk '{ printf "%.5f", ($1 - $2) / $3 }'
}
for folder in "${folders[@]}"; do
    cat "$folder/t" "$folder/d" "$folder/c" >"$work/whole"
    words=("$(wc -c <"$folder/t")" "$(wc -c <"$folder/d")")
    for _ in 1 2 3 4 5 6 7 8 9; do
        seconds "$folder/c" "$speed" read 1 >>"$work/read-one"
        seconds "$folder/c" "$speed" read $((rounds + 1)) >>"$work/read-many"
        seconds "$work/whole" "$speed" judge 1 "${words[@]}" >>"$work/one"
        seconds "$work/whole" "$speed" judge $((rounds + 1)) "${words[@]}" >>"$work/many"
        [ -z "${PLAIN:-}" ] || "$work/plain" bench-check "$folder/t" "$folder/d" "$folder/c" $rounds | sed -n 1p >>"$work/plain-many"
    done
    grep -q "accepted $((rounds + 1))" "$work/answer" || { cat "$work/answer"; exit 1; }
    for _ in 1 2 3 4 5 6 7 8 9 10 11; do
        seconds /dev/null "$program" check "$folder/t" "$folder/d" "$folder/c" >>"$work/check"
    done
    echo "$(wc -c <"$folder/c") bytes: $(a_round read-) seconds to read, $(a_round "") to judge, $(least <"$work/check") from start to end"
    if [ -n "${PLAIN:-}" ]; then
        echo "plain Rust: $(cut -d ' ' -f 2 "$work/plain-many" | least) seconds to read, $(cut -d ' ' -f 4 "$work/plain-many" | least) to judge"
    fi
    rm "$work"/*one "$work"/*many "$work/check"
done
