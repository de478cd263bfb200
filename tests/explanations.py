#!/usr/bin/env python3
"""Makes the texts of `pdp8 explain` from the pages, and checks that they are up to date.

usage: tests/explanations.py            names each file that is out of date; exit status 1 if there is one
       tests/explanations.py --write    makes the files

The files are conditions.rt, rules.rt, program_faults.rt and other_faults.rt in crates/command_line/src/explanations, in the layout that
`rt fmt` leaves. There are two files of faults because the prover checks a table of all of them only up to a certain length.

The text about a condition is below its heading in docs/NO.md: what the condition requires is the line `V5 requires: ..` of a session there,
and what to do is the text outside blocks. A rule has a row in the table of rules of docs/NO.md, which also has an example; what the
rule requires is in the list of rules of docs/DECLARATIONS.md. What a fault means is in the table of faults of docs/COMMANDS.md, and what
to do is in the table of docs/NO.md. A link is replaced by its text, followed by the page to which it leads unless that is the same page.
Lines are wrapped to the width of a terminal, except for the meaning of a fault, which is one line."""
import os
import re
import sys
import textwrap

ROOT = os.path.dirname(os.path.dirname(os.path.abspath(__file__)))
FOLDER = "crates/command_line/src/explanations"
# The maximum length of a line of an explanation, including what comes before the text, and of a line of the source.
WIDTH, SOURCE_WIDTH = 79, 100

FILE = """\
//! {head} `tests/explanations.py` makes this file from the pages.

use crate::explanations::{{Explanation, Subject}};

/// What is said about each of them, in the order of the pages.
static {constant}: [Explanation; {count}] = [
{entries}\
];

/// What is said about the {subject}.
pub(crate) fn {name}() -> &'static [Explanation] {{
    &{constant}
}}
"""

ENTRY = """\
    Explanation {{
        code: {code},
        subject: {subject},
        meaning: {meaning},
        advice: {advice},
    }},
"""


def read(path):
    with open(f"{ROOT}/{path}", encoding="utf-8") as file:
        return file.read()


def plain(text):
    """A text without the marks of links, in one line."""
    text = re.sub(r"\[([^]]*)\]\((\w+\.md)[^)]*\)", r"\1 (docs/\2)", text)
    return " ".join(re.sub(r"\[([^]]*)\]\(#[^)]*\)", r"\1", text).split())


def in_lines(before, text):
    """A text in lines that fit a terminal, if something comes before it."""
    lines = textwrap.wrap(before + plain(text), WIDTH, break_long_words=False, break_on_hyphens=False)
    return "\n".join(lines).removeprefix(before)


def between(page, begin, end):
    """What a page has between these texts, the first of which must be there."""
    _, found, rest = page.partition(begin)
    if not found:
        raise ValueError(f"no page has {begin.strip()!r}")
    return rest.partition(end)[0]


def rows_of(page, heading):
    """The rows of the table whose first heading is this, as lists of cells."""
    rows = between(page, f"\n| {heading} |", "\n\n").splitlines()[2:]
    return [[cell.strip() for cell in row.strip("|").split(" |")] for row in rows]


def section_of(page, heading):
    """What is below a heading of a page, up to the next heading of the same level."""
    return between(page, f"\n## {heading}\n", "\n## ")


def conditions(page):
    """Code, subject, what is required and what to do, for each condition."""
    for code, name, text in re.findall(r"^### (V\d+): (.*)\n((?:(?!### ).*\n)*)", section_of(page, "The sixteen conditions") + "\n", re.M):
        required = re.search(rf"^{code} requires: (.*)$", text, re.M)[1]
        yield code, f"Asked({quoted(plain(name))})", in_lines("required: ", required), re.sub(r"```.*?```", "", text, flags=re.S)


def rules(page, declarations):
    """The same for each rule."""
    listed = re.findall(r"^(\d)\. (.*(?:\n   .*)*)", section_of(declarations, "The eight rules"), re.M)
    for name, example, change in rows_of(page, "Rule"):
        number, _, name = name.partition(": ")
        required = in_lines("required: ", dict(listed)[number])
        wrong = f"\n{in_lines('', f'example of a violation: {example}')}" if example != "-" else ""
        yield f"rule{number}", f"Asked({quoted(plain(name))})", required + wrong, change


def changes(page):
    """What to do about each fault, by its kind and name. A row about only some tapes or sources says in its advice which they are."""
    found = {}
    for names, change in [row for row in rows_of(page, "Fault") if len(row) == 2]:
        kind = re.match(r"`(\w+): ", names)[1]
        for name in re.findall(r"`(?:\w+: )?(\w+)[^`]*`", names.partition(" for ")[0]):
            found.setdefault((kind, name), []).append(change)
    return found


def in_sentences(texts):
    """Texts as sentences of one text, the last of which has no full stop. The first one is left in lower case."""
    return ". ".join(texts[:1] + [text[0].upper() + text[1:] for text in texts[1:]])


def faults(page, commands):
    """The same for each fault, with what it means in place of what is required."""
    found = changes(page)
    for line, meaning in rows_of(commands, "Line, after `pdp8: `"):
        line = line.strip("`")
        kind, name = re.match(r"(\w+): (\w+)", line).groups()
        yield name, f"Fault({quoted(line)})", plain(meaning), in_sentences(found[kind, name])


def is_of_program(entry):
    """Whether a fault is one of a tape or of a source."""
    return re.match(r'Fault\("(tape|source): ', entry[1]) is not None


def quoted(text):
    """A text as the source spells it."""
    return '"' + text.replace("\\", "\\\\").replace('"', '\\"').replace("\n", "\\n") + '"'


def subject_in_source(subject):
    """A subject as the source spells it: on lines of its own if a single line is too long."""
    line = f"Subject::{subject}"
    if len(f"        subject: {line},") <= SOURCE_WIDTH:
        return line
    kind, _, text = line.partition("(")
    return f"{kind}(\n            {text[:-1]},\n        )"


def file_of(name, head, said):
    """The text of the file of a table: its name, what its first line says, and what is said."""
    entries = [
        ENTRY.format(code=quoted(code), subject=subject_in_source(subject), meaning=quoted(meaning), advice=quoted(in_lines("what to do: ", advice)))
        for code, subject, meaning, advice in said
    ]
    return FILE.format(head=head, constant=name.upper(), count=len(entries), entries="".join(entries), name=name, subject=name.replace("_", " "))


def files():
    """Each file, by its path, with the text that the pages make."""
    page = read("docs/NO.md")
    of_program, others = [], []
    for entry in faults(page, read("docs/COMMANDS.md")):
        (of_program if is_of_program(entry) else others).append(entry)
    tables = [
        ("conditions", "The conditions on a certificate.", conditions(page)),
        ("rules", "The rules for the steps of a run.", rules(page, read("docs/DECLARATIONS.md"))),
        ("program_faults", "The faults of tapes and sources.", of_program),
        ("other_faults", "The faults of other files, of searches, of devices and of memory.", others),
    ]
    return {f"{FOLDER}/{name}.rt": file_of(name, head, said) for name, head, said in tables}


def is_current(path, text):
    return os.path.isfile(f"{ROOT}/{path}") and read(path) == text


def main(words):
    if words not in ([], ["--write"]):
        print(__doc__, file=sys.stderr)
        return 2
    made = files()
    if words:
        for path, text in made.items():
            with open(f"{ROOT}/{path}", "w", encoding="utf-8") as file:
                file.write(text)
    stale = [path for path, text in made.items() if not is_current(path, text)]
    print("".join(f"{path} is out of date: tests/explanations.py --write makes it again\n" for path in stale), end="")
    print(f"explanations: {len(made)} files, {len(stale)} out of date")
    return 1 if stale else 0


if __name__ == "__main__":
    sys.exit(main(sys.argv[1:]))
