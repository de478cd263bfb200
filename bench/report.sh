#!/bin/bash
# Measures how long `pdp8 report` takes to write pages of HTML: for the certificates of examples/, for two certificates of some 100
# KB and 1 MB that certificate/make.py makes, and for the folders that are given, each with a tape t, a declaration d and a
# certificate c. Prints the least processor time of eleven calls in milliseconds, the same for `check` as a comparison, and the
# number of bytes of the page. A page should take at most 50 ms.
# PDP8 names a built program to be used in place of the one in this repository.
# usage: bench/report.sh [FOLDER..]
. "$(dirname "$0")/setup.bash"
[ -x "$program" ] || build pdp8
TIMEFORMAT='%U %S'
# The least of eleven calls, in milliseconds of processor time.
least() {
    for _ in 1 2 3 4 5 6 7 8 9 10 11; do
        { time "$@" >"$work/said" 2>&1 </dev/null || true; } 2>&1
    done | awk '{ print 1000 * ($1 + $2) }' | sort -n | head -1
}
# What is reported on: a name, the tape, the declaration and the certificate.
load() {
    "$program" report "$2" "$3" "$4" -o "$work/page.html" >"$work/said" 2>&1 || { grep -q '^<h1>' "$work/page.html" || { cat "$work/said"; exit 1; }; }
    echo "$1: $(least "$program" report "$2" "$3" "$4" -o "$work/page.html") ms, check $(least "$program" check "$2" "$3" "$4") ms, $(wc -c <"$work/page.html") bytes"
}
for source in "$top"/examples/*.certificate; do
    name=$(basename "$source" .certificate)
    [ -f "$top/examples/$name.pal" ] || continue
    profile=8i
    grep -q 'profile 8e' "$top/examples/$name.declaration" && profile=8e
    "$program" assemble --profile "$profile" -o "$work/$name.bin" "$top/examples/$name.pal"
    load "$name" "$work/$name.bin" "$top/examples/$name.declaration" "$source"
done
for size in 110000 1040000; do
    python3 "$top/bench/certificate/make.py" "$size" "$work/$size"
    load "$size bytes" "$work/$size/tape" "$work/$size/declaration" "$work/$size/certificate"
done
for folder in "$@"; do
    load "$(basename "$folder")" "$folder/t" "$folder/d" "$folder/c"
done
