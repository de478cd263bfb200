"""Checks that the random cases of version3_facts.py find wrong rules: each of the edits of reference/facts3.py below
makes a rule wrong, and at least one case must show this.

usage: version3_wrong.py COUNT SEED [FIRST [LAST]], which prints for each edit the first case that shows it, among COUNT
"""
import collections
import importlib.util
import sys
import types
from pathlib import Path

HERE = Path(__file__).parent
REFERENCE = HERE.parent / "reference"
sys.path.insert(0, str(REFERENCE))

# What is wrong, a text in facts3.py, and the text that replaces it.
WRONG = [
    ("a coefficient moves a sum without its sign", "members = sets.added(members, sets.times(c, by))",
     "members = sets.added(members, sets.times(1 if c == MINUS else c, by))"),
    ("a coefficient without its sign in what a fact says", "found = sets.times(c, members)", "found = sets.times(1 if c == MINUS else c, members)"),
    ("all signs of a sum change, but not its set", "meet(relations, found[0], sets.times(found[1], members))", "meet(relations, found[0], members)"),
    ("[x+K] moves the wrong way", "(term[1] - (sets.only(by) or 0)) % 4096", "(term[1] + (sets.only(by) or 0)) % 4096"),
    ("[x+K] moves by the least word of several", "members = members if sets.only(by) is not None else sets.ALL\n            term = cell, (term[1] - (sets.only(by) or 0)) % 4096",
     "term = cell, (term[1] - next(sets.words(by), 0)) % 4096"),
    ("TAD: the coefficient goes up", "terms | {added: c - 1}", "terms | {added: c + 1}"),
    ("TAD: signs stay where a term is put in for another", "term: c * factor for", "term: factor for"),
    ("TAD: the set of AC is not added", "sets.added(fact.set_of(AC), sets.times(c, s))", "sets.times(c, s)"),
    ("TAD: the word is not added to the sums of AC", "sets.added(s, members) if AC in terms else s", "s"),
    ("TAD: [x+0] where the cell has changed", "pointer is not None and not cells & place.changing", "pointer is not None"),
    ("TAD: carries the other way round", "(low if link in fact.link else 0) | (high if 1 - link", "(high if link in fact.link else 0) | (low if 1 - link"),
    ("a difference compares numbers", "sets.added(found, known(fact, rest, place))", "sets.totals(found, known(fact, rest, place))[0]"),
    ("narrowing adds the rest", "confine(found, fact, first, sets.subtracted(s, known", "confine(found, fact, first, sets.added(s, known"),
    ("narrowing by a chain: AC less x the wrong way", "sets.of((ac - word) % 4096 for", "sets.of((word - ac) % 4096 for"),
    ("a cell that is not on the tape begins with 0", "cells & ~self.on_tape | sets.of", "sets.of"),
    ("CMA without the 1", "sets.complement(s)", "sets.negated(s)"),
    ("CMA: the other signs stay", "{term: -c for term, c in form[1:]}", "dict(form[1:])"),
    ("IAC moves no sum", "sets.shift(s, 1) if AC in terms and word & 1 else s", "s"),
    ("a rotation keeps AC's sums", "word & 0o216", "word & 0o200"),
    ("a chain moves the wrong way", "(k - (x == cell)) % 4096", "(k + (x == cell)) % 4096"),
    ("a chain begins with a link of 0", "(sets.only(s), fact.link, ())", "(sets.only(s), frozenset((0,)), ())"),
    ("DCA keeps the sums of the old word", "elif by != sets.ALL:\n            put(relations, *moved(form, s, y, by))", "else:\n            meet(relations, form, s)"),
    ("DCA through a pointer keeps sums", "after = after.without(*sets.words(cells))", "pass"),
    ("OSR sets no bits", "sets.or_any(ac, 0o7777) if word & 4 else ac", "ac"),
    ("what a fact says of a sum forgets the rest", "sets.added(found, known(fact, rest, place)) if rest", "found if rest"),
    ("a chain is entailed by another", "        if not allowed <= results(chain, word):", "        if not allowed & results(chain, word):"),
    ("a word of a name is covered where a fact says nothing of it", "return members if met is None or", "return members if met is not None or"),
    ("after a call the sums of the caller are kept, if one cell was not written",
     "if not any(name == AC or written >> name & 1 for name in names(form)):", "if not all(name == AC or written >> name & 1 for name in names(form)):"),
]


def edited(old, new):
    """The module version3_facts.py with facts3.py after an edit."""
    text = (REFERENCE / "facts3.py").read_text()
    if text.count(old) != 1:
        sys.exit(f"{text.count(old)} times in facts3.py: {old}")
    sys.modules["facts3"] = types.ModuleType("facts3")
    exec(compile(text.replace(old, new), "facts3.py", "exec"), sys.modules["facts3"].__dict__)
    spec = importlib.util.spec_from_file_location("version3_facts", HERE / "version3_facts.py")
    by_chance = importlib.util.module_from_spec(spec)
    spec.loader.exec_module(by_chance)
    return by_chance


def shown(by_chance, count, seed):
    """The first case that shows something wrong, and what."""
    for number in range(count):
        said = by_chance.case(by_chance.Chance(seed * 1000003 + number), collections.Counter())
        if said:
            return number, said[0]
    return None


def main(count, seed, first="0", last=str(len(WRONG))):
    found = []
    for what, old, new in WRONG[int(first):int(last)]:
        found.append(shown(edited(old, new), int(count), int(seed)))
        print(f"{what}: {'not found' if found[-1] is None else 'case {} {}'.format(*found[-1])}", flush=True)
    return int(None in found)


if __name__ == "__main__":
    sys.exit(main(*sys.argv[1:]))
