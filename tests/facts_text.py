"""How cases with facts are spelled for the program of tests/facts/cases.rattle, and how this program prints a
fact."""
import sys
from functools import lru_cache
from pathlib import Path

sys.path.insert(0, str(Path(__file__).parent.parent / "reference"))
import sets  # noqa: E402
from facts3 import AC  # noqa: E402

MASK = (1 << 64) - 1
WAYS = ("goes", "calls", "returns ")


def said(test):
    return "true" if test else "false"


@lru_cache(100000)
def hash_of(members):
    """The spelling of a set."""
    found = 5
    for lane in range(64):
        found = (found ^ (members >> 64 * lane & MASK)) * 0x9E3779B97F4A7C15 & MASK
        found ^= found >> 29
    return found


EVERY = hash_of(sets.ALL)


def spelled_set(members):
    runs = []
    for word in sets.words(members):
        if runs and runs[-1] == word - 1:
            runs[-1] = word
        else:
            runs += [word, word]
    return [len(runs) // 2] + runs


def spelled_sums(fact):
    """A fact of version 3."""
    cells = [(form[0][0], s) for form, s in fact.relations.items() if len(form) == 1 and form != ((AC, 1),)]
    return spelled_parts(fact, cells, [(form, s) for form, s in fact.relations.items() if len(form) > 1])


def spelled_parts(fact, cells, relations):
    """The numbers of a fact, with the sets of its cells and its other relations."""
    numbers = spelled_set(fact.set_of(AC)) + spelled_set(fact.mq) + [sum(1 << link for link in fact.link)]
    numbers += [len(fact.offsets), *sorted(fact.offsets)] + spelled_set(fact.sites) + [len(cells)]
    for cell, members in cells:
        numbers += [cell] + spelled_set(members)
    numbers.append(len(relations))
    for form, members in relations:
        numbers.append(len(form))
        for term, c in form:
            numbers += [c, *([4097 + term[0], term[1]] if isinstance(term, tuple) else [term + 1])]
        numbers += spelled_set(members)
    numbers.append(len(fact.chains))
    for x, (k, links, steps) in fact.chains.items():
        numbers += [x, k, sum(1 << link for link in links), len(steps)]
        numbers += [number for step, word in steps for number in (("AND", "TAD", "word").index(step), word)]
    return numbers


def told(fact):
    """What is printed about a fact, in an order of its own."""
    relations = [" ".join(["", *(term_text(*term) for term in form if isinstance(term, tuple))]) + f" : {hash_of(members)}"
                 for form, members in fact.relations.items() if form != ((AC, 1),) and members != sets.ALL]
    chains = [" ".join(["", f"{x} {k} {sum(1 << link for link in links)}", *(f"{step} {word}" for step, word in steps)])
              for x, (k, links, steps) in fact.chains.items()]
    registers = [hash_of(fact.set_of(AC)), hash_of(fact.mq), sum(1 << link for link in fact.link),
                 sum(1 << offset for offset in fact.offsets), hash_of(fact.sites)]
    return ordered(" " + " ".join(str(part) for part in registers), relations, chains)


def term_text(term, c):
    return f"{c}*[{term[0]}+{term[1]}]" if isinstance(term, tuple) else f"{c}*{term}"


def ordered(registers, relations, chains):
    return registers + "".join(f" ;{text}" for text in sorted(set(relations))) + "".join(f" %{text}" for text in sorted(chains))


def in_order(line):
    """A printed line with the relations and chains of its fact in order, without those that say nothing."""
    parts, *chains = line.split(" %")
    registers, *relations = parts.split(" ;")
    return ordered(registers, [text for text in relations if not text.endswith(f" : {EVERY}")], chains)


def read(lines):
    """Printed lines of a case, with the outcomes in order; those that no state satisfies are left out."""
    lines = [in_order(line) for line in lines]
    fixed = [line for line in lines if not line.startswith(WAYS)]
    return fixed + sorted(line for line in lines if line.startswith(WAYS) and line.split()[3] == "false")
