"""Tries the wrong edits in crates/NAME/more-edits/, which the gate leaves out: the prover must refuse each of them.

usage: tests/more_edits.py [CRATE..]   the edits of these crates, or all of them; make edits CRATES="CRATE.." does the same

The exit status is that of rt must-fail, which tries the edits in a scratch folder, on copies of crates/, crates.txt and HANDLES as they
are at the start; in these copies the edits are in must-fail/. So the files may change while the script runs. rt begins with the work
that a check has kept for a crate, and does not try an edit again as long as the crate and those below it stay as they are. If you
change a contract, run this script for the crate, since the gate does not say which of these edits the prover would now accept."""
import os
import shutil
import signal
import subprocess
import sys
import tempfile

from edits import GATE, MORE, edits_in, unfit

# Seconds of processor time that an edit takes, at least and at most, and those that a line takes of a crate that is proved first.
LEAST_FOR_EDIT, MOST_FOR_EDIT, MOST_FOR_LINE = 10, 40, 0.25


def uses_of(root):
    """The crates of crates.txt in its order, each with those that it names."""
    with open(f"{root}/crates.txt", encoding="utf-8") as file:
        lines = [line.partition("#")[0].partition(":") for line in file]
    words = {name.split()[0]: named.split() for name, _, named in lines if name.strip()}
    return {crate: [it for it in named if it in words] for crate, named in words.items()}


def with_those_below(uses, crates):
    """These crates and all crates that they use."""
    found, left = set(), [*crates]
    while left:
        crate = left.pop()
        if crate not in found:
            found.add(crate)
            left += uses[crate]
    return found


def lines_of(root, crate):
    """How many lines of code a crate has."""
    count = 0
    for at, _, names in os.walk(f"{root}/crates/{crate}/src"):
        for name in names:
            with open(f"{at}/{name}", encoding="utf-8") as file:
                count += sum(1 for _ in file)
    return count


def forecast(root, uses, crates, scratch):
    """What is tried, where, and how long it may take."""
    count = sum(len(edits_in(root, crate, MORE)) for crate in crates)
    lines = sum(lines_of(root, crate) for crate in with_those_below(uses, crates))
    least, most = count * LEAST_FOR_EDIT / 60, (count * MOST_FOR_EDIT + lines * MOST_FOR_LINE) / 60
    named = ", ".join(crates) if len(crates) < 6 else f"{len(crates)} crates"
    return f"""{count} edits of {named}, tried in {scratch}, which is removed at the end.
Minutes of processor time: {least:.0f} if a check has kept its work on these crates and on those below, and up to {most:.0f}
if they are proved first, those below one after another; {len(os.sched_getaffinity(0))} processors share the edits.
The results are printed when all edits have been tried."""


def make_scratch(root, scratch, crates):
    """Copies what rt reads, with the further edits of some crates in place of those of the gate."""
    folder = f"{root}/crates"
    shutil.copytree(
        folder,
        f"{scratch}/crates",
        symlinks=True,
        ignore=lambda at, _: ["out"] if os.path.dirname(at) == folder else [],
    )
    for name in ("crates.txt", "HANDLES"):
        shutil.copy(f"{root}/{name}", scratch)
    for crate in crates:
        shutil.rmtree(f"{scratch}/crates/{crate}/{GATE}", ignore_errors=True)
        os.rename(f"{scratch}/crates/{crate}/{MORE}", f"{scratch}/crates/{crate}/{GATE}")


def run_rt(scratch, crates):
    """Has rt try the edits, and returns its status."""
    with subprocess.Popen(["rt", "must-fail", *crates], cwd=scratch) as rt:
        try:
            return rt.wait()
        except KeyboardInterrupt:
            # (its own checks end with it)
            rt.terminate()
            rt.wait()
            raise


def main(words):
    root = os.path.dirname(os.path.dirname(os.path.abspath(__file__)))
    uses = uses_of(root)
    unknown = [it for it in words if it not in uses]
    if unknown:
        print(f"tests/more_edits.py: crates.txt has no crate {unknown[0]}", file=sys.stderr)
        return 2
    crates = [it for it in uses if edits_in(root, it, MORE) and (it in words or not words)]
    if not crates:
        print(f"there are no edits in {MORE}/ of {', '.join(words) or 'any crate'}")
        return 0
    faults = [*unfit(root, crates, MORE)]
    for it in faults:
        print(it)
    if faults:
        return 1
    with tempfile.TemporaryDirectory(prefix="more-edits-") as scratch:
        print(forecast(root, uses, crates, scratch), flush=True)
        make_scratch(root, scratch, crates)
        return run_rt(scratch, crates)


if __name__ == "__main__":
    signal.signal(signal.SIGTERM, signal.default_int_handler)
    try:
        sys.exit(main(sys.argv[1:]))
    except KeyboardInterrupt:
        sys.exit(130)
