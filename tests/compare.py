#!/usr/bin/env python3
"""Compares the program of this repository with others: SIMH, palbart, and the assembler, machine, watcher and checker in reference/.

The gate does not run these comparisons. SIMH and palbart are the packages simh and palbart of Debian. If something that a
comparison needs is not installed, the comparison is left out, and the script says so.

usage: tests/compare.py [NAME..] [--program PDP8] [--count N] [--seed N]

Without names, all comparisons are made. The exit status is 1 if anything differs.
"""
import argparse
import os
import re
import resource
import shutil
import subprocess
import sys
import tempfile
from pathlib import Path

TOP = Path(__file__).resolve().parent.parent
SPEED = TOP / 'crates' / 'speed' / 'out' / 'speed'
# The crates over which tests/facts/cases.rattle is built.
FACTS = 'word12 instruct wordset processor streams bin_tape peripherals declaration policy domain transfer facts testing'.split()


# The stack of a program that is built with checks, in bytes: each of its frames is larger than in a proved program.
CHECKED_STACK = 128 << 20


class Missing(Exception):
    """A program that a comparison needs is not installed."""


def palbart():
    """The path of palbart."""
    path = os.environ.get('PALBART', '/usr/bin/palbart')
    if not os.access(path, os.X_OK):
        raise Missing('the package palbart is not installed')
    return path


def simh():
    """The path of SIMH's pdp8, which has the same name as this program: the two are distinguished by what they print about themselves."""
    path = os.environ.get('SIMH', '/usr/bin/pdp8')
    if not os.access(path, os.X_OK):
        raise Missing('the package simh is not installed')
    said = subprocess.run([path], input='quit\n', stdout=subprocess.PIPE, stderr=subprocess.STDOUT, text=True, check=False)
    if 'PDP-8 simulator' not in said.stdout:
        raise Missing(f'{path} is not the PDP-8 of SIMH')
    return path


def call(*words, **how):
    """Runs a command; whether it succeeds."""
    return subprocess.run([str(word) for word in words], cwd=TOP, check=False, **how).returncode == 0


def worker(script, *words):
    """Runs a script of tests/; whether it finds no difference."""
    return call(sys.executable, TOP / 'tests' / script, *words)


def allow_checked_stack():
    """Raises the limit on the stack of a process that runs a program built with checks."""
    most = resource.getrlimit(resource.RLIMIT_STACK)[1]
    resource.setrlimit(resource.RLIMIT_STACK, (CHECKED_STACK if most == resource.RLIM_INFINITY else min(CHECKED_STACK, most), most))


def write_fullest_tape(file):
    """Writes the tape of the fullest image, as the proved writer writes it."""
    if not SPEED.exists():
        subprocess.run(['rt', 'run'], cwd=TOP / 'crates' / 'speed', stdin=subprocess.DEVNULL, stdout=subprocess.DEVNULL, check=True)
    with open(file, 'wb') as tape:
        subprocess.run([SPEED, 'tape'], stdout=tape, check=True)


def compare_assembler(asked, folder):
    return worker('assembler.py', asked.program, folder, asked.count or 2000, asked.seed)


def compare_watcher(asked, folder):
    return worker('watcher.py', asked.program, folder, asked.count or 2000, asked.seed)


def compare_facts(asked, folder):
    """The program that reads the cases is not a crate of this repository. It is built in a folder of its own, with copies of the
    crates, and is run without proofs, with checks of indexes and overflows."""
    count = asked.count or 10000
    home = folder / 'crates' / 'facts_cases'
    (home / 'src').mkdir(parents=True)
    cases = folder / 'cases'
    cases.mkdir()
    for crate in FACTS:
        for part in ('src', 'specs'):
            if (TOP / 'crates' / crate / part).exists():
                shutil.copytree(TOP / 'crates' / crate / part, folder / 'crates' / crate / part)
    lines = [line for line in (TOP / 'crates.txt').read_text().splitlines() if re.match(rf'({"|".join(FACTS)}):', line)]
    (folder / 'crates.txt').write_text('\n'.join([*lines, f'facts_cases: {" ".join(FACTS)} anyhow', '']))
    shutil.copy(TOP / 'tests' / 'facts' / 'cases.rattle', home / 'src' / 'main.rt')
    if not worker('facts.py', 'make', cases, count, asked.seed):
        return False
    with open(folder / 'printed', 'wb') as printed:
        ran = subprocess.run(['rt', 'try', '--seconds', '600', '--cases', cases], cwd=home, stdout=printed, stderr=subprocess.PIPE, check=False,
                             preexec_fn=allow_checked_stack)
    if ran.returncode:
        sys.stderr.buffer.write(ran.stderr)
        return False
    return worker('facts.py', 'compare', folder / 'printed', count, asked.seed)


def compare_verdicts(asked, folder):
    count = asked.count or 3000
    return all([worker('verdicts.py', asked.program, programs, folder, count, asked.seed) for programs in ('examples', 'tests/version3')])


def compare_reasons(asked, folder):
    return worker('reasons.py', asked.program, '--guess', '--count', str(asked.count or 5000), '--seed', str(asked.seed))


def compare_watched(asked, folder):
    return all([worker('watched.py', asked.program, TOP / programs, asked.count or 1000, 1000, asked.seed)
                for programs in ('tests/style-of-1970', 'tests/style-of-1970-b', 'tests/version3')])


def compare_second_reader(asked, folder):
    tape = folder / 'fullest.bin'
    write_fullest_tape(tape)
    found = subprocess.run([sys.executable, TOP / 'tests' / 'second_reader.py', tape], stdout=subprocess.PIPE, text=True, check=True).stdout
    dumped = subprocess.run([asked.program, 'dump', tape], stdout=subprocess.PIPE, text=True, check=True).stdout
    words = [' '.join(line.split(' ')[:2]) for line in dumped.splitlines()]
    if found.splitlines() != words:
        print('the second reader and dump differ')
        return False
    print(f'the same {len(words)} words')
    return True


def compare_palbart(asked, folder):
    return worker('palbart.py', palbart(), asked.program, 'examples', folder, asked.count or 300, asked.seed)


def compare_written_sources(asked, folder):
    palbart()
    return call(sys.executable, TOP / 'tests' / 'written_sources.py', env={**os.environ, 'PDP8': str(asked.program)})


def compare_simh(asked, folder):
    other = simh()
    write_fullest_tape(folder / 'fullest.bin')
    return worker('simh.py', other, asked.program, folder)


def compare_tape_readers(asked, folder):
    return worker('tape_readers.py', simh(), asked.program, folder)


def compare_examples(asked, folder):
    try:
        machine = simh()
    except Missing as missing:
        print(f'the part of SIMH is left out, since {missing}', flush=True)
        machine = ''
    return worker('examples.py', palbart(), machine, 'examples', folder, asked.program)


# Each comparison and what it compares.
COMPARISONS = {
    'assembler': (compare_assembler, 'generated sources with the assembler in reference/'),
    'watcher': (compare_watcher, 'generated programs and events with the watcher in reference/'),
    'facts': (compare_facts, 'generated facts of all versions and their outcomes with those in reference/'),
    'watched': (compare_watched, 'random runs of the programs that get a yes, of those in the style of 1970 and those for version 3'),
    'verdicts': (compare_verdicts, 'verdicts on changed programs and certificates of all versions with the checkers in reference/'),
    'reasons': (compare_reasons, 'verdicts on forged certificates of all versions, and the reasons, with what reference/ says'),
    'second-reader': (compare_second_reader, 'the fullest tape with a reader in Python'),
    'palbart': (compare_palbart, 'images with palbart'),
    'written-sources': (compare_written_sources, 'sources of generated tapes, read back, with palbart'),
    'simh': (compare_simh, 'runs with SIMH'),
    'tape-readers': (compare_tape_readers, 'runs with a tape in the reader with SIMH'),
    'examples': (compare_examples, 'examples/ with SIMH, palbart and reference/'),
}


def arguments():
    """What the command line requests."""
    parser = argparse.ArgumentParser(description=__doc__, formatter_class=argparse.RawDescriptionHelpFormatter)
    parser.add_argument('names', nargs='*', metavar='NAME', choices=[[], *COMPARISONS], help=', '.join(COMPARISONS))
    built = TOP / 'crates' / 'pdp8' / 'out' / 'pdp8'
    parser.add_argument('--program', type=lambda name: Path(name).resolve(), default=built, help='the built program')
    parser.add_argument('--count', type=int, help='how many cases are generated')
    parser.add_argument('--seed', type=int, default=8, help='the seed of what is generated')
    asked = parser.parse_args()
    if not os.access(asked.program, os.X_OK):
        parser.error(f'{asked.program} is not built: make run')
    return asked


def differs(name, asked):
    """Makes a comparison; whether it finds a difference."""
    compare, what = COMPARISONS[name]
    print(f'{name}: {what}', flush=True)
    with tempfile.TemporaryDirectory() as folder:
        try:
            return not compare(asked, Path(folder))
        except Missing as missing:
            print(f'{name}: left out, since {missing}', flush=True)
            return False


def main():
    asked = arguments()
    failed = [name for name in asked.names or COMPARISONS if differs(name, asked)]
    print(f'comparisons that differ: {", ".join(failed) or "none"}')
    sys.exit(1 if failed else 0)


if __name__ == '__main__':
    main()
