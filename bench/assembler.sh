#!/bin/bash
# Times the assembler and Debian's palbart in turn, each as often as requested, on one source of the largest size: 65,536 bytes with
# 1,024 symbols of its own, each of which is used many times. Prints for each program the processor time of one run, the time of a
# run on a source of one word, which is the time that the program takes to start, and the difference, which is the time for the
# source itself. For our program, it also prints how much memory it used at most for either source.
# usage: bench/assembler.sh [RUNS]; PALBART names a palbart other than /usr/bin/palbart.
. "$(dirname "$0")/setup.bash"
runs=${1:-50}
palbart=${PALBART:-/usr/bin/palbart}
[ -x "$program" ] || build pdp8

python3 - "$work/large.pal" <<'PYTHON'
import sys
names = ['S%c%c%c%c' % tuple(chr(65 + i // 8 ** k % 8) for k in range(4)) for i in range(1024)]
text = '*200\n' + ''.join('%s=%o\n' % (name, i % 128) for i, name in enumerate(names))
operations = ['TAD', 'DCA', 'ISZ', 'JMP', 'TAD I', 'JMS']
count = 0
while True:
    line = '\t%s %s\t/LINE %d\n' % (operations[count % 6], names[count * 7 % 1024], count)
    if len(text) + len(line) + 2 > 65536:
        break
    text += line
    count += 1
text += '/' * (65536 - len(text) - 3) + '\n$\n'
open(sys.argv[1], 'w').write(text)
print(len(text), 'bytes,', len(names), 'symbols,', count, 'words')
PYTHON

# The processor time, in seconds, of the given number of runs of a command.
TIMEFORMAT='%U %S'
seconds() { { time for ((run = 0; run < runs; run++)); do "$@" >"$work/said" 2>&1 </dev/null; done; } 2>&1; }

printf '*200\nHLT\n$\n' >"$work/small.pal"
"$program" assemble "$work/ours.bin" "$work/large.pal"
for _ in 1 2 3 4 5 6 7; do
    for size in large small; do
        echo "pdp8 $size $(seconds "$program" assemble "$work/ours.bin" "$work/$size.pal")"
        [ ! -x "$palbart" ] || echo "palbart $size $(cd "$work" && seconds "$palbart" "$size.pal")"
    done
done >"$work/times"
awk -v runs="$runs" '
    { key = $1 " " $2; total = 1000 * ($3 + $4) / runs; names[$1] }
    !(key in least) || total < least[key] { least[key] = total }
    END {
        for (name in names) {
            cost[name] = least[name " large"] - least[name " small"]
            printf "%-8s %.3f ms a run, %.3f ms of it its start, %.3f ms for the source\n", name, least[name " large"], least[name " small"], cost[name]
        }
        if ("palbart" in names)
            printf "palbart takes %.1f times as long for the source, %.1f times with the start\n", cost["palbart"] / cost["pdp8"], least["palbart large"] / least["pdp8 large"]
    }' "$work/times"
if command -v valgrind >/dev/null; then
    # Each run executes the same number of host instructions.
    instructions() { (cd "$work" && valgrind --tool=callgrind --callgrind-out-file=/dev/null "$@" 2>&1 >/dev/null | awk '/Collected/ { print $NF }'); }
    echo "pdp8 $(instructions "$program" assemble "$work/ours.bin" large.pal) host instructions"
    [ ! -x "$palbart" ] || echo "palbart $(instructions "$palbart" large.pal) host instructions"
fi
if command -v /usr/bin/time >/dev/null; then
    for size in large small; do
        /usr/bin/time -f "$size: %M KiB at most" "$program" assemble "$work/ours.bin" "$work/$size.pal"
    done
fi
