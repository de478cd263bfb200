# The beginning of the scripts of this folder. It sets top, the folder of the repository; work, a folder that is removed in the end; and
# the programs that are timed, program and speed: those that PDP8 and SPEED name, or those of this repository.
set -euo pipefail
top=$(cd "$(dirname "$0")/.." && pwd)
work=$(mktemp -d)
trap 'rm -r "$work"' EXIT
program=${PDP8:-$top/crates/pdp8/out/pdp8}
speed=${SPEED:-$top/crates/speed/out/speed}

# Builds the program of a crate. This also runs it once; what this run prints is discarded.
build() {
    input=$top/crates/$1/stdin
    [ -f "$input" ] || input=/dev/null
    (cd "$top/crates/$1" && rt run <"$input" >"$work/built" 2>&1) || { cat "$work/built"; exit 1; }
}
