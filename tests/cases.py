#!/usr/bin/env python3
"""Runs the sessions and tables in pages, those of tests/cases/ as well as README.md and docs/, with a built pdp8.

A page is Markdown. Of its code blocks, those of the following kinds are used, in their order, in a folder that the page has for itself:

```NAME file          the text below is written to the file NAME
```NAME tape          NAME is a tape of the words below: "0200: 7402 7000*3", an origin and words, in octal; COUNT in decimal
```NAME bytes         NAME has the bytes below, in octal: "200*16 102 000"
```console            a line after "$ " is a command of bash, which continues on the next line after a backslash; below it are
                      the lines that it prints on standard output and standard error, and its status, if it is not 0: "[1]"
```table              "$ COMMAND", and then one row per line, "GIVEN | GIVEN => PRINTED [STATUS]": the command is run for each row
                      with {1}, {2}, .. replaced by what is given, without blanks at its ends. \\n, \\t, \\r, \\\\ and three
                      octal digits after \\ are bytes in what is printed, and in what is given if it goes into a file;
                      - means that nothing is given, and -- a dash; if nothing is printed, nothing follows =>

A file, a tape or bytes with the word "rows" at the end of its fence is written again for each row of the tables below it, up to the next
heading, with {1}, {2}, .. replaced. The files that a row writes are removed after it. The folder of a page contains the files of those
programs of examples/ that the page names, and the tape NAME.bin of each of their sources NAME.pal. If the page names them, it also
contains the folder tests/cases/programs as programs/, and the folders version3/, style-of-1970/ and style-of-1970-b/ of tests/, with their
twins (twins.py). Statuses are compared in tests/cases/; other pages may leave them out. The cases of the pages in tests/cases/wrong/ are wrong on purpose: if the
runner does not report each of them as wrong, that counts as a failure.

usage: tests/cases.py PDP8 [PAGE..]    PDP8 is the built program; without pages, it runs all of tests/cases/, README.md and docs/
"""
import concurrent.futures
import os
import re
import shutil
import subprocess
import sys
import tempfile
from dataclasses import dataclass, field

from twins import write_twins

TOP = os.path.join(os.path.dirname(os.path.abspath(__file__)), '..')
EXAMPLES = os.path.join(TOP, 'examples')
FENCE = re.compile(r'^```(?:(\S+) (file|tape|bytes)( rows)?|(console|table)|\S*)\s*$')
STATUS = re.compile(r'^(?:(.*)\s)?\[(\d+)\]$', re.S)
SECONDS = 60


@dataclass
class Block:
    """A block of code: what its fence says, the number of its first line, and its lines."""
    name: str
    kind: str
    for_rows: bool
    first: int
    lines: list = field(default_factory=list)


@dataclass
class Page:
    """A page while it is run: its name, its folder, the folder of the program, and what was counted."""
    path: str
    folder: str
    program: str
    count: int = 0
    wrong: list = field(default_factory=list)

    def compare(self, line, command, wanted, said):
        self.count += 1
        if (wanted == said) == self.is_wrong_on_purpose():
            self.wrong.append(f'{self.path}:{line}: $ {command}\n  wanted {wanted}\n  said   {said}')

    def has_statuses(self):
        return 'cases' in self.path.split(os.sep)

    def is_wrong_on_purpose(self):
        return 'wrong' in self.path.split(os.sep)


def blocks_of(text):
    """The blocks of a page that are read."""
    found, block, is_open = [], None, False
    for number, line in enumerate(text.splitlines(), 1):
        fence = FENCE.match(line)
        if is_open and line.rstrip() == '```':
            is_open, block = False, None
        elif is_open and block:
            block.lines.append(line)
        elif not is_open and line.startswith('#'):
            found.append(Block(None, 'heading', False, number))
        elif fence and not is_open:
            is_open = True
            name, kind, rows, word = fence.groups()
            if kind or word:
                block = Block(name, kind or word, bool(rows), number + 1)
                found.append(block)
    return found


def unescaped(text):
    """The bytes of a text with its escapes replaced."""
    signs = {'n': b'\n', 't': b'\t', 'r': b'\r', '\\': b'\\'}
    parts = re.split(r'\\([ntr\\]|[0-3][0-7]{2})', text)
    return b''.join(part.encode('latin-1') if at % 2 == 0 else signs.get(part) or bytes([int(part, 8)])
                    for at, part in enumerate(parts))


def numbers(text):
    """The octal numbers of a text, each repeated as often as the text says."""
    found = []
    for word in text.split():
        number, _, times = word.partition('*')
        found += [int(number, 8)] * int(times or 1)
    return found


def tape_of(text):
    """The tape of words: a leader, each origin with its data, the checksum and a trailer."""
    frames = []
    for line in text.splitlines():
        origin, _, words = line.partition(':')
        if words:
            start = int(origin, 8)
            frames += [0o100 | start >> 6, start & 0o77]
            for word in numbers(words):
                frames += [word >> 6, word & 0o77]
    total = sum(frames) % 4096
    return bytes([0o200] * 16 + frames + [total >> 6, total & 0o77] + [0o200] * 16)


def filled(text, given):
    """A text with {1}, {2}, .. replaced by what a row gives, or by nothing if it does not give it."""
    return re.sub(r'\{(\d)\}', lambda it: given[int(it[1]) - 1] if int(it[1]) <= len(given) else '', text)


def write(block, folder, given=None):
    """Writes the file of a block."""
    lines = [filled(line, given) if given is not None else line for line in block.lines]
    if block.kind == 'file':
        text = ''.join(line + '\n' for line in lines)
        content = text.encode('utf-8') if given is None else unescaped(text)
    elif block.kind == 'tape':
        content = tape_of('\n'.join(lines).replace('\\n', '\n'))
    else:
        content = bytes(numbers(' '.join(lines)))
    with open(os.path.join(folder, block.name), 'wb') as file:
        file.write(content)


def run(command, page):
    """What a command prints, and its status, or that it took too long."""
    path = page.program + os.pathsep + os.environ['PATH']
    try:
        done = subprocess.run(['bash', '-c', command], cwd=page.folder, env={**os.environ, 'PATH': path}, stdin=subprocess.DEVNULL,
                              stdout=subprocess.PIPE, stderr=subprocess.STDOUT, timeout=SECONDS, check=False)
    except subprocess.TimeoutExpired:
        return f'it took longer than {SECONDS} s\n'.encode(), 1
    return done.stdout, done.returncode


def sessions(block):
    """The commands of a session with the numbers of their lines, and the lines that each of them prints."""
    found = []
    for number, line in enumerate(block.lines, block.first):
        if line.startswith('$ '):
            found.append((number, line[2:], []))
        elif found and not found[-1][2] and found[-1][1].endswith('\\'):
            found[-1] = (found[-1][0], found[-1][1][:-1] + line.strip(), [])
        elif found:
            found[-1][2].append(line)
    return found


def run_session(block, page):
    for line, command, wanted in sessions(block):
        said, status = run(command, page)
        said = said.decode('utf-8', 'replace').splitlines()
        is_told = bool(wanted) and re.match(r'^\[\d+\]$', wanted[-1])
        if is_told or page.has_statuses() and status:
            said = [*said, f'[{status}]']
        page.compare(line, command, wanted, said)


def run_table(block, templates, page):
    command = block.lines[0].removeprefix('$ ')
    before = set(os.listdir(page.folder))
    for number, row in enumerate(block.lines[1:], block.first + 1):
        if not row.strip():
            continue
        given, _, wanted = row.partition('=>')
        given = [{'-': '', '--': '-'}.get(cell.strip(), cell.strip()) for cell in given.split(' | ')]
        for template in templates:
            write(template, page.folder, given)
        said, status = run(filled(command, given), page)
        told = STATUS.match(wanted.strip())
        wanted, code = (told[1] or '', int(told[2])) if told else (wanted.strip(), 0)
        page.compare(number, row.strip(), (unescaped(wanted.strip()), code), (said.removesuffix(b'\n'), status))
        for name in set(os.listdir(page.folder)) - before:
            os.remove(os.path.join(page.folder, name))


def fill(page, text):
    """Copies the files of the programs of examples/ that the page names, with the tapes of their sources."""
    words = set(re.findall(r'([a-z]+)(?:-broken)?(?=\.[a-z]| \| | => )', text))
    for name, parts in (('programs', ('cases', 'programs')), ('version3', ('version3',)), ('style-of-1970', ('style-of-1970',)),
                        ('style-of-1970-b', ('style-of-1970-b',))):
        if name + '/' in text:
            write_twins(shutil.copytree(os.path.join(TOP, 'tests', *parts), os.path.join(page.folder, name)))
    for name in sorted(os.listdir(EXAMPLES)):
        root, ending = os.path.splitext(name)
        if root.removesuffix('-broken') in words:
            shutil.copy(os.path.join(EXAMPLES, name), page.folder)
            if ending == '.pal':
                run(f'pdp8 assemble {root}.bin {name} || pdp8 assemble {root}.bin {name} --profile 8e', page)


def run_page(path, program):
    """A page that was run."""
    with open(path, encoding='utf-8') as file, tempfile.TemporaryDirectory() as folder:
        text = file.read()
        page, templates = Page(os.path.relpath(path, TOP), folder, program), []
        fill(page, text)
        for block in blocks_of(text):
            if block.kind == 'console':
                run_session(block, page)
            elif block.kind == 'table':
                run_table(block, templates, page)
            elif block.kind == 'heading':
                templates = []
            elif block.for_rows:
                templates = [it for it in templates if it.name != block.name] + [block]
            else:
                write(block, folder)
        return page


def pages():
    """All pages with cases."""
    found = [os.path.join(TOP, 'README.md')]
    for folder in ('docs', os.path.join('tests', 'cases'), os.path.join('tests', 'cases', 'wrong')):
        folder = os.path.join(TOP, folder)
        found += [os.path.join(folder, name) for name in sorted(os.listdir(folder)) if name.endswith('.md')]
    return found


def main():
    if len(sys.argv) < 2:
        sys.exit(__doc__)
    if not os.access(sys.argv[1], os.X_OK):
        sys.exit(f'{sys.argv[1]} is no program that can be run: make run builds it')
    with tempfile.TemporaryDirectory() as program, concurrent.futures.ThreadPoolExecutor(os.cpu_count()) as pool:
        os.symlink(os.path.abspath(sys.argv[1]), os.path.join(program, 'pdp8'))
        done = list(pool.map(lambda path: run_page(path, program), sys.argv[2:] or pages()))
    for page in done:
        print('\n'.join([*page.wrong, f'{page.path}: {page.count} cases, {len(page.wrong)} wrong']))
    wrong = sum(len(page.wrong) for page in done)
    print(f'cases: {sum(page.count for page in done) - wrong} passed, {wrong} failed')
    sys.exit(1 if wrong else 0)


if __name__ == '__main__':
    main()
