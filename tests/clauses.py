"""Lists the public functions of this repository's crates with their contracts, so that two states of the
repository can be compared.

usage: tests/clauses.py [--root DIR]            the sorted list of the crates below DIR, or of this repository
       tests/clauses.py --compare BEFORE AFTER  what was lost, added or changed from one to the other; each is such a list
                                                or a folder. A function is matched by its name without the crate, so that
                                                it may move. Exit status 1 if a function or a clause was lost or changed

Ghost items of an impl or a trait, such as the view of a type, are listed as clauses of `Type as Trait`."""
import os
import sys
from collections import defaultdict

from rattle_sources import crates_of, functions_of


def listed(root):
    """The functions below a folder: crate, name and lines, in order."""
    found = []
    for crate, folder in crates_of(root).items():
        for it in functions_of(crate, folder):
            head = [f"fn {it.head}"] if it.head else []
            clauses = [f"{kind} {name + ': ' if name else ''}{text}" for kind, name, text in it.clauses]
            found.append((crate, it.name, head + sorted(clauses)))
    return sorted(found)


def shown(found):
    return "".join(f"{crate}::{name}\n" + "".join(f"    {it}\n" for it in lines) for crate, name, lines in found)


def taken(path):
    """The functions of a folder, or of a list that was saved."""
    if os.path.isdir(path):
        return listed(path)
    found = []
    with open(path, encoding="utf-8") as file:
        for line in file.read().splitlines():
            if line.startswith("    "):
                found[-1][2].append(line[4:])
            else:
                crate, _, name = line.partition("::")
                found.append((crate, name, []))
    return found


def likeness(one, other):
    """How well two functions of the same name match: first by their crate, then by the lines that they share."""
    return one[0] == other[0], len({*one[2]} & {*other[2]})


def matched(before, after):
    """Pairs of functions of the same name, with None in place of one that was lost or added."""
    names = defaultdict(lambda: ([], []))
    for side, found in enumerate((before, after)):
        for it in found:
            names[it[1]][side].append(it)
    for name in sorted(names):
        olds, news = names[name]
        while olds and news:
            old, new = max(((a, b) for a in olds for b in news), key=lambda pair: likeness(*pair))
            olds.remove(old)
            news.remove(new)
            yield old, new
        yield from ((it, None) for it in olds)
        yield from ((None, it) for it in news)


def compared(before, after):
    """What changed, by kind, as lines."""
    told = defaultdict(list)
    for old, new in matched(before, after):
        if new is None:
            told["FUNCTIONS LOST"].append(shown([old]))
        elif old is None:
            told["functions added"].append(shown([new]))
        else:
            if old[0] != new[0]:
                told["functions moved"].append(f"{old[0]}::{old[1]} -> {new[0]}\n")
            gone = [it for it in old[2] if it not in new[2]]
            come = [it for it in new[2] if it not in old[2]]
            if gone or come:
                is_lost = any(not it.startswith("fn ") for it in gone) or any(it.startswith("requires ") for it in come)
                kind = "CLAUSES LOST OR CHANGED" if is_lost else "clauses added" if not gone else "heads changed"
                lines = [f"    - {it}\n" for it in gone] + [f"    + {it}\n" for it in come]
                told[kind].append(f"{new[0]}::{new[1]}\n{''.join(lines)}")
    return told


def main(words):
    here = os.path.dirname(os.path.dirname(os.path.abspath(__file__)))
    if words[:1] == ["--compare"] and len(words) == 3:
        told = compared(*[taken(it) for it in words[1:]])
        for kind in sorted(told):
            print(f"== {kind}: {len(told[kind])}\n{''.join(told[kind])}")
        counts = ", ".join(f"{kind} {len(told[kind])}" for kind in sorted(told))
        print(f"clauses: {counts or 'nothing changed'}")
        return 1 if any(it.isupper() for it in told) else 0
    if words and (words[0] != "--root" or len(words) != 2):
        print(__doc__, file=sys.stderr)
        return 2
    print(shown(listed(words[1] if words else here)), end="")
    return 0


if __name__ == "__main__":
    sys.exit(main(sys.argv[1:]))
