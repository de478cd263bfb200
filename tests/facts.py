"""Compares what crates/facts and the Python in reference/ compute for random words, facts and addresses: the first condition
that a word violates, the outcomes of the word, the facts that these outcomes and a return entail or among which they land,
and what holds of every start. Half of the cases have facts of versions 1 and 2 of certificates, with equations, and half have
facts of version 3.

usage: facts.py make FOLDER COUNT SEED        writes files of cases to FOLDER
       facts.py compare PRINTED COUNT SEED    compares what the program of tests/facts/cases.rattle printed about these
                                              cases in the file PRINTED, where the cases of each file follow a line with its name
"""
import sys
from pathlib import Path

import equation_facts
import sum_facts
from facts_text import WAYS, read

IN_FILE = 250


def files(count, seed):
    """The names of files and their cases: the first half has equations, the second half has sums."""
    for number, first in enumerate(range(0, count, IN_FILE)):
        most = min(IN_FILE, count - first)
        if 2 * first < count:
            chance = equation_facts.Chance(f"{seed} {number}")
            yield f"{number:03}", [equation_facts.Case(chance) for _ in range(most)]
        else:
            yield f"{number:03}", [sum_facts.Case(f"{seed} {first + case}") for case in range(most)]


def kinds_of(lines):
    """What the lines of a case have, for counting."""
    ways = [line.split() for line in lines if line.startswith(WAYS)]
    kinds = {way[0] for way in ways} | {"landed" for way in ways if way[2] == "true"}
    kinds |= {line for line in lines if line.startswith(("breaks", "void"))}
    return kinds | {kind for kind in ("returned true", "started true") for line in lines[1:2] if kind in line}


def parts(printed):
    """What was printed about each file of cases."""
    found = {}
    for part in ("\n" + printed).split("\n== ")[1:]:
        name, _, lines = part.partition("\n")
        found[name] = ("\n" + lines).split("\ncase\n")[1:]
    return found


def main(task, path, count, seed):
    """Makes cases, or compares them."""
    differing, kinds = 0, {}
    answers = parts(Path(path).read_text()) if task == "compare" else {}
    for name, cases in files(int(count), seed):
        if task == "make":
            (Path(path) / name).write_text(f"{len(cases):o}\n" + "".join(case.spelled() for case in cases))
            continue
        printed = answers.get(name, [])
        if len(printed) != len(cases):
            sys.exit(f"{name}: {len(printed)} answers to {len(cases)} cases")
        for case, lines in zip(cases, printed):
            expected, got = case.expected(), read(lines.splitlines())
            for kind in kinds_of(got):
                kinds[kind] = kinds.get(kind, 0) + 1
            if expected != got:
                differing += 1
                if differing <= 5:
                    print(f"{name}: word {case.word:04o} at {case.at:04o}\n  case {case.spelled()}"
                          f"  expected {expected}\n  got      {got}")
    if task == "compare":
        counts = ", ".join(f"{kind} {number}" for kind, number in sorted(kinds.items()))
        print(f"{count} cases, {differing} differ; {counts}")
        sys.exit(differing > 0)


if __name__ == "__main__":
    main(*sys.argv[1:])
