#!/bin/bash
# Times a million rounds of a program that copies a tape from the reader to the punch and, in turn, the same rounds without reader and
# punch. Prints for each the least processor time of nine runs, and the ratio of the first time to the second.
# usage: bench/tape_readers.sh, after the program pdp8 has been built
. "$(dirname "$0")/setup.bash"
"$program" assemble "$work/copier.bin" "$top/examples/copier.pal"
head -c 1000000 /dev/zero | tr '\0' '\125' >"$work/frames"
# The run without a tape has the same program, changed so that it behaves as if the reader's flag were always set: it punches in the
# same loop.
sed 's/^NEXT,   RSF/NEXT,   NOP/; s/^        JMP .-1         \/Wait for it/        NOP/' "$top/examples/copier.pal" >"$work/plain.pal"
"$program" assemble "$work/plain.bin" "$work/plain.pal"

# The processor time, in seconds, of a command.
TIMEFORMAT='%U %S'
seconds() { { time "$@" >"$work/out" 2>&1 </dev/null; } 2>&1 | awk '{ print $1 + $2 }'; }

for _ in 1 2 3 4 5 6 7 8 9; do
    echo "reader $(seconds "$program" run "$work/copier.bin" --steps 1000000 --reader "$work/frames" --punch "$work/punched")"
    echo "plain $(seconds "$program" run "$work/plain.bin" --steps 1000000)"
done >"$work/times"
awk '
    !($1 in least) || $2 < least[$1] { least[$1] = $2 }
    END { printf "reader %.3f s, plain %.3f s: %.2f times as long\n", least["reader"], least["plain"], least["reader"] / least["plain"] }
' "$work/times"
