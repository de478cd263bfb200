#!/usr/bin/env python3
"""Checks the pages: each link leads to a file or a heading that exists, each file or page that a page names exists, README.md is not too
long, and no line of a page has more than 600 characters.

usage: tests/links.py [--quotes]    names each page that is wrong, and says why; exit status 1 if anything is wrong. With --quotes it also
                                    checks that the examples of docs/PROOF_FORMS.md are in the files from which they are quoted.
"""
import os
import re
import subprocess
import sys

TOP = os.path.join(os.path.dirname(os.path.abspath(__file__)), '..')
# How many bytes README.md may have; no other page has a limit.
MOST = {'README.md': 10_000}
FORMS = 'docs/PROOF_FORMS.md'
EXAMPLE = re.compile(r'From\s+((?:`crates/[^`]+`(?:\s+and\s+)?)+):\n\n((?:  ```\w+\n.*?\n  ```\n*)+)', re.S)
NAMED = re.compile(r'\b(?:docs|tests|bench|crates|examples|share)/[\w./-]*\w\.(?:md|py|sh|txt|rt|antt|pal)\b')


def pages():
    """The pages that git tracks, and new ones."""
    told = subprocess.run(['git', 'ls-files', '--cached', '--others', '--exclude-standard', '*.md'], cwd=TOP, capture_output=True, text=True, check=True)
    return [path for path in told.stdout.split() if os.path.isfile(os.path.join(TOP, path))]


def text_of(path):
    with open(os.path.join(TOP, path), encoding='utf-8') as file:
        return file.read()


def without_blocks(text):
    return re.sub(r'```.*?```', '', text, flags=re.S)


def anchor_of(heading):
    """The anchor of a heading: its words in lower case, without marks, with a dash for each space."""
    words = re.sub(r'\[([^]]*)\]\([^)]*\)', r'\1', heading).strip().lower()
    return re.sub(r'[^\w -]', '', words).replace(' ', '-')


def anchors_of(path):
    return {anchor_of(it) for it in re.findall(r'^#+ (.*)$', without_blocks(text_of(path)), re.M)}


def faults(path):
    """What is wrong with a page."""
    text = text_of(path)
    prose = without_blocks(text)
    for target, anchor in re.findall(r'\]\(([^)#\s]*)#?([^)\s]*)', prose):
        led = os.path.normpath(os.path.join(os.path.dirname(path), target)) if target else path
        if '://' not in target and not os.path.exists(os.path.join(TOP, led)):
            yield f'links to {target}, which is not there'
        elif anchor and led.endswith('.md') and '://' not in target and anchor not in anchors_of(led):
            yield f'links to {target}#{anchor}, a heading that is not there'
    for name in set(NAMED.findall(prose)):
        if not os.path.exists(os.path.join(TOP, name)):
            yield f'names {name}, which is not there'
    yield from (f'line {number} has {len(line)} characters' for number, line in enumerate(text.splitlines(), 1) if len(line) > 600)
    if path in MOST and len(text.encode()) > MOST[path]:
        yield f'has {len(text.encode())} bytes, at most {MOST[path]}'


def has_lines(path, wanted):
    """Whether a file has these lines one after another, apart from white space at their ends."""
    lines = [line.strip() for line in text_of(path).splitlines()]
    return any(lines[at:at + len(wanted)] == wanted for at in range(len(lines)))


def changed_quotes():
    """The examples that differ from the files from which they are quoted; a line `..` is in place of lines that are left out."""
    for paths, blocks in EXAMPLE.findall(text_of(FORMS)):
        paths, blocks = re.findall(r'`([^`]+)`', paths), re.findall(r'```\w+\n(.*?)\n  ```', blocks, re.S)
        for path, block in zip(paths, blocks):
            for part in re.split(r'^ *\.\.\n', block + '\n', flags=re.M):
                wanted = [line.strip() for line in part.splitlines()]
                if not os.path.isfile(os.path.join(TOP, path)) or not has_lines(path, wanted):
                    yield f'{FORMS}: {path} has no lines {wanted[0]!r} ..'


def main():
    wrong = [f'{path}: {fault}' for path in pages() for fault in faults(path)]
    if '--quotes' in sys.argv[1:]:
        wrong += changed_quotes()
    print('\n'.join([*wrong, f'links: {len(pages())} pages, {len(wrong)} faults']))
    sys.exit(1 if wrong else 0)


if __name__ == '__main__':
    main()
