#!/bin/bash
# Times `pdp8 check` on certificates of some 100 KB and 1 MB that certificate/make.py makes: complete certificates, and certificates
# without their end, for which the text is read and nothing is judged. Each figure is the least of eleven calls, and includes the
# time that the program takes to start. How much memory a call takes at most is printed, too.
# PDP8 names a built program to be used in place of the one in this repository. PLAIN names the source of the same checker in plain
# Rust, with the arguments `bench-check TAPE DECLARATION CERTIFICATE ROUNDS`: it is built by `rustc -O`, and reads the same texts in
# turn with our program. Then the time to start the program is subtracted from our time, and the two rates are compared.
. "$(dirname "$0")/setup.bash"
[ -x "$program" ] || build pdp8
TIMEFORMAT=%R
# The least time of eleven calls with this certificate; the answer must begin with this text.
least() {
    "$program" check tape declaration "$1" >answer 2>&1 || true
    grep -q "^$2" answer || { cat answer; exit 1; }
    for _ in 1 2 3 4 5 6 7 8 9 10 11; do
        { time "$program" check tape declaration "$1" >/dev/null 2>&1 || true; } 2>&1
    done | sort -n | head -1
}
# The memory, in KB, that a call with this certificate takes at most.
memory() {
    python3 -c '
import resource, subprocess, sys
subprocess.run(sys.argv[1:], stdout=subprocess.DEVNULL, stderr=subprocess.DEVNULL)
print(resource.getrusage(resource.RUSAGE_CHILDREN).ru_maxrss)' "$program" check tape declaration "$1"
}
# The seconds that plain Rust takes to read a certificate: the least of thirty rounds.
plainly() {
    "$work/plain" bench-check tape declaration certificate 30 | sed -n 's/^parse \([0-9.]*\) .* least round.*/\1/p'
}
[ -z "${PLAIN:-}" ] || rustc -O --edition 2021 "$PLAIN" -o "$work/plain" 2>"$work/built" || { cat "$work/built"; exit 1; }
for size in 110000 1040000; do
    python3 "$top/bench/certificate/make.py" "$size" "$work/$size"
    cd "$work/$size"
    bytes=$(wc -c <certificate)
    echo "$bytes bytes: $(least cut 'pdp8: certificate: BadLine') seconds to read, $(least certificate yes) to read and judge, $(memory certificate) KB"
    [ -n "${PLAIN:-}" ] || continue
    echo >nothing
    start=$(least nothing 'pdp8: certificate: Version')
    whole=$(least cut 'pdp8: certificate: BadLine')
    plain=$(plainly)
    echo "    reading without the start: $(python3 -c "print(f'{$whole - $start:.4f} seconds, plain Rust $plain, {$plain / max($whole - $start, 0.0005):.2f} of its rate')")"
done
