#!/usr/bin/env python3
"""Runs the commands of pdp8, and refuses the requests for memory of each command in turn, one in each run, until a run ends without a refusal.

A library replaces malloc and realloc (by cc and LD_PRELOAD), and refuses the request of a given number once. If a request was refused,
the status must be 4, and standard error must have the line `pdp8: memory: NoMemory`. There may be nothing else on standard error except
what a session reports there and, under `--why`, the two lines that say what to do. There may be nothing in OUT or on standard output
except the punched bytes and a prefix of a trace or of what was typed. If no request was refused, the run must end as it does without the
library. A run may also end in this way although a request was refused, since the start of the system requests memory, too; these cases
are counted.

usage: tests/refused.py PDP8    PDP8 is the built program, as crates/pdp8/out/pdp8
"""
import os
import subprocess
import sys
import tempfile

DATA = os.path.join(os.path.dirname(os.path.abspath(__file__)), '..', 'examples')
SHIM = r'''
#define _GNU_SOURCE
#include <dlfcn.h>
#include <fcntl.h>
#include <stdlib.h>
#include <unistd.h>
static long left = -1;
static void *(*next_malloc)(size_t), *(*next_realloc)(void *, size_t);
__attribute__((constructor)) static void start(void) {
    next_malloc = (void *(*)(size_t))dlsym(RTLD_NEXT, "malloc");
    next_realloc = (void *(*)(void *, size_t))dlsym(RTLD_NEXT, "realloc");
    const char *at = getenv("REFUSED_AT");
    left = at ? atol(at) : -1;
}
/* Whether this request is the one that is refused, which is told by a file. */
static int refused(void) {
    if (left < 0 || left-- > 0) return 0;
    const char *told = getenv("REFUSED_TOLD");
    if (told) close(open(told, O_CREAT, 0600));
    return 1;
}
void *malloc(size_t size) { return next_malloc ? (refused() ? 0 : next_malloc(size)) : 0; }
void *realloc(void *old, size_t size) { return refused() ? 0 : next_realloc(old, size); }
'''
ADVICE = b'memory was refused\nwhat to do: give the program more memory\n'
COMMANDS = ['assemble OUT hello.pal', 'list hello.pal', 'list faults.pal --why', 'source TAPE OUT', 'source TAPE OUT --declaration hello.declaration',
            'dump TAPE', 'run TAPE', 'run TAPE --trace --steps 20', 'run TAPE --events hello.events',
            'run TAPE --teletype --punch OUT', 'watch TAPE hello.declaration hello.events', 'watch TAPE halts.declaration hello.events --why',
            'refute TAPE halts.declaration OUT --steps 2000', 'refute TAPE hello.declaration OUT --steps 100', 'check TAPE hello.declaration hello.certificate',
            'check TAPE rim.declaration hello.certificate --why', 'declare TAPE OUT', 'guess TAPE hello.declaration OUT',
            'guess TAPE halts.declaration OUT --why', 'verify TAPE hello.declaration --steps 2000',
            'verify TAPE halts.declaration --steps 2000 --why', 'verify TAPE unset.declaration --steps 100 --why', 'verify TAPE --steps 2000',
            'report TAPE hello.declaration hello.certificate OUT', 'report TAPE hello.declaration hello.certificate OUT --text',
            'declare TAPE OUT --from halts.declaration', 'verify --source hello.pal hello.declaration --steps 2000',
            'verify --source hello.pal halts.declaration --steps 2000 --why', 'verify --source hello.pal unset.declaration --steps 100 --why',
            'verify --source hello.pal --steps 2000 --why', 'watch --source hello.pal halts.declaration hello.events --why',
            'watch --source hello.pal halts.declaration --steps 20 --why', 'check --source hello.pal hello.declaration hello.certificate',
            'check --source hello.pal rim.declaration hello.certificate --why', 'guess --source hello.pal halts.declaration -o OUT --why',
            'refute --source hello.pal halts.declaration -o OUT --steps 2000 --why', 'declare --source hello.pal -o OUT',
            'declare --source hello.pal -o OUT --from halts.declaration', 'report --source hello.pal hello.declaration hello.certificate -o OUT',
            'place -o OUT hello.pal --declaration hello.declaration', 'explain', 'explain NoMemory', 'migrate hello.certificate OUT', '--help', '--version', 'run', 'run TAPE --steps 0']


def run(pdp8, words, folder, extra):
    """Status, standard output, standard error and OUT of a run."""
    out = os.path.join(folder, 'OUT')
    if os.path.exists(out):
        os.remove(out)
    done = subprocess.run([pdp8, *words.split()], cwd=folder, env={**os.environ, **extra}, stdin=subprocess.DEVNULL,
                          stdout=subprocess.PIPE, stderr=subprocess.PIPE, timeout=60)
    written = b''
    if os.path.exists(out):
        with open(out, 'rb') as file:
            written = file.read()
    return done.returncode, done.stdout, done.stderr, written


def is_told(answer, words, whole):
    """Whether an answer is one that a run may give when memory was refused."""
    status, printed, told, written = answer
    before, line, behind = told.rpartition(b'pdp8: memory: NoMemory\n')
    if status != 4 or not line or written and '--punch' not in words:
        return False
    if behind and ('--why' not in words or behind != ADVICE):
        return False
    fronts = printed == b'' or '--t' in words and whole[1].startswith(printed)
    return fronts and (not before or '--teletype' in words)


def in_turn(pdp8, words, folder, shim):
    """How many requests a command makes, how many refusals changed nothing, and the first answer that is not allowed."""
    told = os.path.join(folder, 'told')
    whole = run(pdp8, words, folder, {})
    spared = 0
    for count in range(100_000):
        if os.path.exists(told):
            os.remove(told)
        answer = run(pdp8, words, folder, {'LD_PRELOAD': shim, 'REFUSED_AT': str(count), 'REFUSED_TOLD': told})
        if answer == whole:
            if not os.path.exists(told):
                return count, spared, None
            spared += 1
        elif not is_told(answer, words, whole):
            return count, spared, answer
    return count, spared, 'no end'


def main():
    if len(sys.argv) != 2:
        sys.exit(__doc__)
    pdp8 = os.path.abspath(sys.argv[1])
    wrong = 0
    with tempfile.TemporaryDirectory() as folder:
        source, shim = os.path.join(folder, 'shim.c'), os.path.join(folder, 'shim.so')
        with open(source, 'w', encoding='utf-8') as file:
            file.write(SHIM)
        subprocess.run(['cc', '-shared', '-fPIC', '-O1', '-o', shim, source, '-ldl'], check=True)
        for name in ('hello.pal', 'hello.declaration', 'hello.certificate', 'hello.events', 'rim.declaration'):
            with open(os.path.join(DATA, name), 'rb') as file, open(os.path.join(folder, name), 'wb') as copy:
                copy.write(file.read())
        with open(os.path.join(folder, 'halts.declaration'), 'w', encoding='utf-8') as file:
            file.write('start 0200\nmain 0200-0213\nsub 0214 body 0215-0221 returns 0\nvar 0010 0224\n')
        with open(os.path.join(folder, 'faults.pal'), 'w', encoding='utf-8') as file:
            file.write('TAD 8\nJMP Q\nX,1;X,2\n?\n')
        with open(os.path.join(folder, 'unset.declaration'), 'w', encoding='utf-8') as file:
            file.write('start 0200\nmain 0200-0213\nsub 0214 body 0215-0221 returns 0\nvar 0010\npause 0212\n')
        subprocess.run([pdp8, 'assemble', 'TAPE', 'hello.pal'], cwd=folder, check=True)
        for words in COMMANDS:
            count, spared, answer = in_turn(pdp8, words, folder, shim)
            print(f'pdp8 {words}: {count} requests, {spared} refusals changed nothing' + (f', WRONG {answer}' if answer else ''))
            wrong += answer is not None
    sys.exit(1 if wrong else 0)


if __name__ == '__main__':
    main()
