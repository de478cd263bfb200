#!/usr/bin/env python3
"""Proves the program and all crates below it from nothing, builds it as crates/pdp8/out/pdp8, and runs it on the stored tape.

The proofs are those of the gate: the script runs rt ci on copies of these crates alone, without tests and without edits that must
fail. RT_JOBS=N proves N crates side by side; without it, as many are proved as there are processors and memory for. If this toolchain
has already built the program from exactly these files, the program is only run.

usage: tests/prove.py            proves, builds and runs the program
       tests/prove.py --lanes    prints how many crates can be proved side by side
"""
import hashlib
import os
import shutil
import subprocess
import sys
import tempfile

TOP = os.path.join(os.path.dirname(os.path.abspath(__file__)), '..')
PROGRAM = 'pdp8'
LANE = 3e9  # the memory that a check of a large crate takes, with some to spare
REST = 1e9  # the memory that is left for everything else
LEFT_OUT = shutil.ignore_patterns('out', 'must-fail', 'more-edits')


def lanes():
    """How many crates can be proved side by side: two from 7 GB of free memory on, four from 13 GB. rt ci would reserve more."""
    with open('/proc/meminfo', encoding='utf-8') as file:
        free = next(int(line.split()[1]) * 1024 for line in file if line.startswith('MemAvailable:'))
    return max(1, min(len(os.sched_getaffinity(0)), int((free - REST) / LANE)))


def uses():
    """The crates of the repository, each with the names in its line of crates.txt."""
    with open(os.path.join(TOP, 'crates.txt'), encoding='utf-8') as file:
        lines = [line.partition('#')[0].partition(':') for line in file]
    return {name.strip(): words.split() for name, colon, words in lines if colon}


def needed(found, name):
    """A crate and all crates of the repository that it uses."""
    return {name}.union(*(needed(found, it) for it in found[name] if it in found))


def copied(room):
    """Copies what the program needs into a folder."""
    found = uses()
    names = needed(found, PROGRAM)
    shutil.copy(os.path.join(TOP, 'HANDLES'), room)
    for name in names:
        shutil.copytree(os.path.join(TOP, 'crates', name), os.path.join(room, 'crates', name), ignore=LEFT_OUT)
    with open(os.path.join(room, 'crates.txt'), 'w', encoding='utf-8') as file:
        file.writelines(f'{name}: {" ".join(found[name])}\n' for name in found if name in names)
    subprocess.run(['git', 'init', '-q', room], check=True)


def sum_of(folder):
    """A checksum of all files of a folder and of the name of the toolchain."""
    total = hashlib.sha256(subprocess.run(['rt', 'version'], capture_output=True, check=True).stdout)
    for at, folders, names in os.walk(folder):
        folders[:] = sorted(it for it in folders if it not in ('.git', 'out'))
        for name in sorted(names):
            path = os.path.join(at, name)
            with open(path, 'rb') as file:
                total.update(repr((os.path.relpath(path, folder), file.read())).encode())
    return total.hexdigest()


def proved(room, out):
    """Proves the copy, and puts the program that is built into the folder out; returns the status."""
    jobs = os.environ.get('RT_JOBS') or str(lanes())
    status = subprocess.run(['rt', 'ci'], cwd=room, env={**os.environ, 'RT_JOBS': jobs}, check=False).returncode
    built = os.path.join(room, 'crates', PROGRAM, 'out', PROGRAM)
    if status or not os.path.isfile(built):
        return status or 1
    os.makedirs(out, exist_ok=True)
    shutil.copy2(built, out)
    return 0


def is_built(program, note, sources):
    """Whether the note next to the program says that it was built from these sources."""
    if not os.path.isfile(program) or not os.path.isfile(note):
        return False
    with open(note, encoding='utf-8') as file:
        return file.read() == note_of(program, sources)


def note_of(program, sources):
    """The note that is written next to a program that was built from these sources."""
    with open(program, 'rb') as file:
        return f'{sources} {hashlib.sha256(file.read()).hexdigest()}\n'


def main():
    if sys.argv[1:] == ['--lanes']:
        print(lanes())
        return
    out = os.path.join(TOP, 'crates', PROGRAM, 'out')
    program, note = os.path.join(out, PROGRAM), os.path.join(out, f'{PROGRAM}.sum')
    with tempfile.TemporaryDirectory() as room:
        copied(room)
        sources = sum_of(room)
        if not is_built(program, note, sources):
            status = proved(room, out)
            if status:
                sys.exit(status)
            with open(note, 'w', encoding='utf-8') as file:
                file.write(note_of(program, sources))
    with open(os.path.join(TOP, 'crates', PROGRAM, 'stdin'), 'rb') as tape:
        sys.exit(subprocess.run([program], stdin=tape, check=False).returncode)


if __name__ == '__main__':
    main()
