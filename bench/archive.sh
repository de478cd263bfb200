#!/bin/bash
# Measures how long it takes to verify and check an archive of a thousand tapes, which print HELLO with different first letters.
# xargs runs as many commands side by side as there are processors. First each tape is verified with its declaration; then each is
# verified from the tape alone, and what was found is saved; then each is checked with the certificate that was saved. For each of
# the three, the script prints the least time by the clock of three runs, and checks that each tape gets a yes.
# PDP8 names a built program to be used in place of the one in this repository.
. "$(dirname "$0")/setup.bash"
[ -x "$program" ] || build pdp8
cd "$work"
for number in $(seq -w 0 999); do
    # The first two letters differ from tape to tape, and have channel 8 set.
    sed "s/ 310;305;314;314;317/ $(printf '%o;%o' $((192 + 10#$number % 64)) $((192 + 10#$number / 64)));305;314;317/" \
        "$top/examples/hello.pal" >source.pal
    "$program" assemble "$number.bin" source.pal
    cp "$top/examples/hello.declaration" "$number.declaration"
done
# Prints the name of each tape for which this command does not say yes.
each() {
    ls ./*.bin | sed 's/\.bin$//' | xargs -P "$(nproc)" -I NAME sh -c "$program $* >NAME.said 2>&1 || echo NAME"
}
declared() { each verify NAME.bin NAME.declaration --save NAME; }
alone() { each verify NAME.bin --save NAME.found; }
checked() { each check NAME.bin NAME.declaration NAME.certificate; }
TIMEFORMAT=%R
# The least time of three runs, none of which may print the name of a tape.
least() {
    for _ in 1 2 3; do
        { time "$1" >named; } 2>&1
        if [ -s named ]; then echo "$(wc -l <named) tapes got no yes" >&2; exit 1; fi
    done | sort -n | head -1
}
best=$(least declared)
echo "$best seconds to verify a thousand tapes with their declarations, $(nproc) at a time"
best=$(least alone)
echo "$best seconds to verify them from their tapes alone"
best=$(least checked)
echo "$best seconds to check them"
