#!/usr/bin/env python3
"""Checks that the help of the built program, docs/COMMANDS.md, the man page and the completions for bash agree with one another.

usage: tests/agreement.py PDP8   PDP8 is the built program; names each difference, and exits with status 1 if there is one

Each of these four is read as statements (KIND, SUBJECT, ANSWER), such as ('operands', 'run', 'TAPE') or ('default', '--start', '0200').
The kinds are: command, operands, option (which options a command has), value, short and default (of an option, whichever command
has it) and status. The help of the program decides. Each of the others makes statements of some kinds, and these must be exactly the statements
of these kinds that the help makes. What the completions propose is found out with bash. That each command has the option --help, and that pdp8
without a command has --help and --version, is not compared; the short forms of these options are.
"""
import os
import re
import subprocess
import sys

TOP = os.path.join(os.path.dirname(os.path.abspath(__file__)), '..')
PAGE, MANUAL, COMPLETIONS = 'docs/COMMANDS.md', 'share/pdp8.1', 'share/pdp8.bash'
OPTION = re.compile(r'(?:(-\w), )?(--[\w-]+)(?:[ =](\w+))?')
GIVEN_BY_CLAP = ('--help', '--version')


def read(path):
    with open(os.path.join(TOP, path), encoding='utf-8') as file:
        return file.read()


# What all places share.

def said_by_use(line):
    """What a line of use says: `pdp8 run TAPE [--start A]`. OUT comes after -o, or alone."""
    line = line.replace('[-o]', '[-o, --output OUT]')
    command, *operands = re.sub(r'\[.*?\]\S*', '', line).removeprefix('pdp8').split()
    return {('operands', command, ' '.join(operands)), ('command', command, '')} | {
        it for short, option, value in OPTION.findall(line) for it in (('option', command, option), ('value', option, value))}


def said_by_uses(lines):
    """What lines of use say, and that the options of clap, which they leave out, take no value."""
    return set().union(*map(said_by_use, lines), {('value', option, '') for option in GIVEN_BY_CLAP})


def said_of_option(tag, text):
    """What is said about an option: its tag `-h, --help` or `--start A`, and the text that explains it, `.. 0200 by default`."""
    short, option, value = OPTION.match(tag).groups()
    default = re.search(r'(\w+) by default', text)
    return {('value', option, value or ''), ('short', option, short or ''), ('default', option, default[1] if default else '')}


def without_clap(said):
    """The statements without those that say which command has the options that clap gives to each."""
    return {it for it in said if not (it[0] == 'option' and it[2] in GIVEN_BY_CLAP)}


# The help of the program.

def help_of(program, *command):
    text = subprocess.run([program, *command, '--help'], stdout=subprocess.PIPE, check=True, text=True).stdout
    return text.replace('>...', '..').replace('<', '').replace('>', '')


def rows_of(text, heading):
    """The rows below a heading of a help text, as tags and texts."""
    rows = text.partition(f'\n{heading}:\n')[2].partition('\n\n')[0].splitlines()
    return [(re.split(r'  +', row.strip(), maxsplit=1) + [''])[:2] for row in rows]


def said_by_options(text, command):
    found = set()
    for tag, meaning in rows_of(text, 'Options'):
        found |= said_of_option(tag, meaning) | {('option', command, OPTION.match(tag)[2])}
    return found


def said_by_command(program, command):
    text = help_of(program, command)
    return said_by_use(re.search(r'^Usage: (.*)$', text, re.M)[1]) | said_by_options(text, command)


def said_by_program(program):
    text = help_of(program)
    found = said_by_options(text, '') | {('status', number, '') for number, _ in rows_of(text, 'Exit status')}
    for command, _ in rows_of(text, 'Commands'):
        found |= {('command', command, ''), ('operands', command, '')} if command == 'help' else said_by_command(program, command)
    return without_clap(found)


# The page.

def table_of(page, heading):
    """The rows of the table whose first heading is this, as lists of cells."""
    rows = page.partition(f'\n| {heading} |')[2].partition('\n\n')[0].splitlines()[2:]
    return [[cell.strip() for cell in row.strip('|').split(' |')] for row in rows]


def said_by_page_use(page):
    block = re.search(r'^```\n(pdp8 .*?)^```$', page, re.M | re.S)[1]
    return said_by_uses(re.sub(r'\n +', ' ', block).splitlines())


def said_by_page_options(page):
    found = set()
    for tag, commands, _, default in table_of(page, 'Option'):
        tag, default = tag.replace('`', ''), re.fullmatch(r'`(\w+)`', default)
        found |= said_of_option(tag, f'{default[1]} by default' if default else '')
        found |= {('option', command, OPTION.match(tag)[2]) for command in re.findall(r'`(\w+)`', commands)}
    return found


def said_by_headings(page):
    words = ' '.join(re.findall(r'^## ([a-z].*)$', page, re.M)).replace('with an operator', '').split()
    return {('command', word, '') for word in words if word != 'and'} | {('command', 'help', '')}


# The man page.

def plain(manual):
    """A man page without its fonts: each line with what it says."""
    text = re.sub(r'\\f[BIR]', '', manual).replace('\\-', '-')
    return re.sub(r'^\.[BI]R? ', '', text, flags=re.M)


def section_of(manual, heading):
    return manual.partition(f'.SH {heading}\n')[2].partition('\n.SH')[0]


def said_by_manual_use(manual):
    return said_by_uses(use.replace('\n', ' ').strip() for use in section_of(manual, 'SYNOPSIS').split('.br\n'))


def tags_of(manual, heading):
    """The tags of a section's paragraphs, each with its text."""
    return [it.strip().partition('\n')[::2] for it in section_of(manual, heading).split('.TP\n')[1:]]


def said_by_manual_options(manual):
    return set().union(*(said_of_option(tag, text) for tag, text in tags_of(manual, 'OPTIONS')))


def said_by_tags(manual, heading, kind):
    return {(kind, tag, '') for tag, _ in tags_of(manual, heading)}


# The completions.

def completed(*words):
    """What bash proposes after these words, the last of which is unfinished."""
    script = '. "$0"; COMP_WORDS=("$@"); COMP_CWORD=$(($# - 1)); _pdp8; printf "%s\\n" "${COMPREPLY[@]}"'
    run = ['bash', '-c', script, os.path.join(TOP, COMPLETIONS), 'pdp8', *words]
    return subprocess.run(run, stdout=subprocess.PIPE, check=True, text=True).stdout.split()


def said_by_completions():
    commands = [it for it in completed('') if not it.startswith('-')]
    found = {('command', command, '') for command in commands}
    return found | {('option', command, option) for command in commands for option in completed(command, '--')
                    if command != 'help' and option not in GIVEN_BY_CLAP}


# The comparison.

def places():
    """Each place with the kinds of statements that it makes, and its statements."""
    page, manual = read(PAGE), plain(read(MANUAL))
    return [
        (f'{PAGE}, the lines of use', 'command operands option value', said_by_page_use(page)),
        (f'{PAGE}, the table of options', 'option value short default', said_by_page_options(page)),
        (f'{PAGE}, the headings', 'command', said_by_headings(page)),
        (f'{PAGE}, the table of statuses', 'status', {('status', row[0], '') for row in table_of(page, 'Status')}),
        (f'{MANUAL}, SYNOPSIS', 'command operands option value', said_by_manual_use(manual)),
        (f'{MANUAL}, COMMANDS', 'command', said_by_tags(manual, 'COMMANDS', 'command')),
        (f'{MANUAL}, OPTIONS', 'value short default', said_by_manual_options(manual)),
        (f'{MANUAL}, EXIT STATUS', 'status', said_by_tags(manual, 'EXIT STATUS', 'status')),
        (COMPLETIONS, 'command option', said_by_completions()),
    ]


def differences(decided, kinds, said):
    """The statements of some kinds that a place lacks, and those that it makes in addition."""
    decided, said = ({it for it in them if it[0] in kinds.split()} for them in (decided, said))
    for where, them in (('in the help alone', decided - said), ('not in the help', said - decided)):
        yield from (f'{where}: {kind} {subject}' + (f': {answer}' if answer else '') for kind, subject, answer in sorted(them))


def main():
    if len(sys.argv) != 2:
        sys.exit(__doc__)
    decided = said_by_program(sys.argv[1])
    found = [f'{place}: {it}' for place, kinds, said in places() for it in differences(decided, kinds, said)]
    print('\n'.join([*found, f'agreement: {len(decided)} statements of the help, {len(found)} differences']))
    sys.exit(1 if found else 0)


if __name__ == '__main__':
    main()
