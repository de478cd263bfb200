#!/bin/sh
# Times in one run the main operations of `wordset`, their plain bodies, and a program in plain Rust that stores sets in the same way
# (rustc -O). Prints a table with the nanoseconds for one call, each the least of five runs of its program.
# `speed.rattle` is the program in Rattle; it does not have the name of a source file, so that no gate reads it. This script proves and
# builds it in a separate folder, with copies of the crates.
set -e
top=$(cd "$(dirname "$0")/.." && pwd)
work=${1:-$(mktemp -d)}
mkdir -p "$work/crates/wordset_speed/src"
for crate in word12 instruct wordset; do
    cp -r "$top/crates/$crate" "$work/crates/"
done
# Only the plain bodies of the crate `library_tests`.
mkdir -p "$work/crates/library_tests/src" "$work/crates/library_tests/specs" "$work/crates/library_tests/proofs"
cp "$top/crates/library_tests/src/plain.rt" "$work/crates/library_tests/src/"
printf '#![tactic(auto)]\n\npub mod plain;\n' >"$work/crates/library_tests/src/lib.rt"
: >"$work/crates/library_tests/specs/Lib.antt"
cp -r "$top/crates/library_tests/proofs/plain" "$top/crates/library_tests/proofs/PlainLemmas.antt" "$work/crates/library_tests/proofs/"
echo 'pub mod PlainLemmas' >"$work/crates/library_tests/proofs/Lib.antt"
cp "$top/bench/wordset/speed.rattle" "$work/crates/wordset_speed/src/main.rt"
grep -E '^(word12|instruct|wordset):' "$top/crates.txt" >"$work/crates.txt"
echo 'library_tests: word12 wordset' >>"$work/crates.txt"
echo 'wordset_speed: word12 wordset library_tests anyhow' >>"$work/crates.txt"
rustc -O -o "$work/lanes" "$top/bench/wordset/lanes.rs"
# Building the program also runs it once; what this run prints is discarded.
(cd "$work/crates/wordset_speed" && rt run >"$work/built" 2>&1) || { cat "$work/built"; exit 1; }
# The table has the least of five runs, because other work on the machine slows a run down and never speeds it up.
: >"$work/times"
for run in 1 2 3 4 5; do
    "$work/crates/wordset_speed/out/wordset_speed" >>"$work/times"
    "$work/lanes" >>"$work/times"
done
python3 "$top/bench/wordset/table.py" "$work/times"
