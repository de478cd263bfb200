#!/usr/bin/env python3
"""Times the first look, the first run and the gate in a fresh clone, with nothing kept from earlier runs.

The toolchain keeps what it has proved in a folder next to its own, with each entry under a checksum of everything on which the entry
depends. This folder is first moved away, and in the end its entries are put back next to the new ones, whatever happens. Nothing else
should run on the machine at the same time. The times are by the clock; the minutes of processor time are those of all processes that
ran.

usage: tests/time.py try|run|test [PROCESSORS]    PROCESSORS says how many processors are used; without it, all are
"""
import os
import resource
import shutil
import subprocess
import sys
import tempfile
import time

TOP = os.path.join(os.path.dirname(os.path.abspath(__file__)), '..')
EXPECTED = {'try': 'a minute', 'run': '60 to 90 minutes', 'test': '60 to 90 minutes, and over two hours with two processors'}


def kept_folder():
    """The folder in which the toolchain keeps what it proved."""
    page = subprocess.run(['rt', 'doc'], capture_output=True, text=True, check=True).stdout.strip()
    return os.path.join(os.path.dirname(os.path.dirname(page)), 'rattle-kept')


def put_back(aside, kept):
    """Moves the entries of a folder that was moved away back, next to those that the run kept."""
    for name in os.listdir(aside):
        old, new = os.path.join(aside, name), os.path.join(kept, name)
        if os.path.isdir(old) and os.path.isdir(new) and name == 'edits':
            put_back(old, new)
        elif not os.path.exists(new):
            os.makedirs(kept, exist_ok=True)
            os.rename(old, new)
    shutil.rmtree(aside, ignore_errors=True)


def timed(target, processors):
    """Makes a target in a fresh clone, and says how long it took and how it ended."""
    with tempfile.TemporaryDirectory() as room:
        subprocess.run(['git', 'clone', '-q', TOP, f'{room}/clone'], check=True)
        begin = time.monotonic()
        done = subprocess.run(['taskset', '-c', f'0-{processors - 1}', 'make', target], cwd=f'{room}/clone', check=False)
        minutes = (time.monotonic() - begin) / 60
    used = resource.getrusage(resource.RUSAGE_CHILDREN)
    worked = (used.ru_utime + used.ru_stime) / 60
    print(f'make {target}: {minutes:.1f} min by the clock, {worked:.1f} processor min, {processors} processors, status {done.returncode}')
    return done.returncode


def main():
    if len(sys.argv) < 2 or sys.argv[1] not in EXPECTED:
        sys.exit(__doc__)
    processors = int(sys.argv[2]) if len(sys.argv) > 2 else os.cpu_count()
    print(f'make {sys.argv[1]} with nothing kept: expect {EXPECTED[sys.argv[1]]}. Load now: {os.getloadavg()[0]:.1f}', flush=True)
    kept = kept_folder()
    aside = f'{kept}-aside-{os.getpid()}'
    if os.path.isdir(kept):
        os.rename(kept, aside)
    try:
        status = timed(sys.argv[1], processors)
    finally:
        if os.path.isdir(aside):
            put_back(aside, kept)
    sys.exit(status)


if __name__ == '__main__':
    main()
