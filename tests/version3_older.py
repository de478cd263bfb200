"""Compares versions 1 and 2 with version 3 on the random cases of tests/equation_facts.py. The outcomes, the entailments and the returns
of reference/facts.py must be those of reference/facts3.py, if the latter is restricted as points 1 to 7 of "Versions 1 and 2" in
docs/TRANSFER.md say, and as points 8 and 9 say about outcomes and returns. Whenever a fact entails a single fact in version 1 or 2, the
narrowed fact must entail it in version 3. Conditions, landing and whole certificates are not compared, and neither are facts with two
equations for one pair of names.

usage: version3_older.py COUNT SEED
"""
import collections
import sys
from dataclasses import replace
from pathlib import Path

HERE = Path(__file__).parent
sys.path.insert(0, str(HERE.parent / "reference"))
import equation_facts as by_chance  # noqa: E402
import facts  # noqa: E402
import facts3  # noqa: E402
import sets  # noqa: E402
from facts3 import AC  # noqa: E402
from machine import is_supported, named_cell  # noqa: E402



def newer(fact, sites):
    """A fact of version 1 or 2 as one of version 3."""
    found = facts3.Fact(fact.mq, fact.link, {((AC, 1),): fact.ac}, {}, fact.offsets, sites)
    found.relations |= {((cell, 1),): members for cell, members in fact.cells.items()}
    for x, y, k in fact.equations:
        facts3.put(found.relations, {x: 1, y: -1}, sets.one(k))
    return found


def sums(fact):
    """The relations of several terms."""
    return {form: s for form, s in fact.relations.items() if len(form) > 1}


def names_sets(fact):
    """The sets of AC and of cells."""
    return {form: s for form, s in fact.relations.items() if len(form) == 1}


def equations_alone(fact):
    """A fact with only those relations that versions 1 and 2 have."""
    kept = {form: s for form, s in sums(fact).items() if len(form) == 2 and form[1][1] == facts3.MINUS and
            not isinstance(form[1][0], tuple) and sets.only(s) is not None}
    return replace(fact, relations=names_sets(fact) | kept, chains={})


def said(fact, nexts=()):
    """What a fact of either kind says, in a form that can be compared."""
    if isinstance(fact, facts3.Fact):
        equations = {(form[0][0], form[1][0], sets.only(s)) for form, s in sums(fact).items()}
        cells, ac = {name: s for ((name, _),), s in names_sets(fact).items()}, fact.set_of(AC)
    else:
        equations, cells, ac = set(fact.equations), fact.cells, fact.ac
    cells = {cell: members for cell, members in cells.items() if cell != AC and members != sets.ALL}
    return repr((ac, fact.mq, sorted(fact.link), sorted(cells.items()), sorted(equations), sorted(fact.offsets), sorted(nexts)))


def rows(start, cells, at, word, place):
    """The rows of version 3, without narrowing before CLA or OSR."""
    narrowed, facts3.narrowed = facts3.narrowed, lambda fact, _: fact
    try:
        return facts3.referred(start, cells, at, word, place) if word < 0o6000 else facts3.post(start, at, word, place)
    finally:
        facts3.narrowed = narrowed


def stepped(fact, known, at, word, place):
    """The fact after a pointer was stepped, what is known then, and the targets."""
    cell = named_cell(word, at)
    if not word & 0o400 or not 0o10 <= cell <= 0o17:
        return fact, known, facts3.targets(known, at, word, place)[1]
    cells = sets.shift(known.set_of(cell), 1)
    fact = fact.moved(cell).with_set(cell, cells)
    return fact, facts3.met_once(fact, place), cells


def older_post(fact, at, word, place):
    """The outcomes of versions 1 and 2, by the rows of version 3."""
    known, cells, y, operation = facts3.met_once(fact, place), 0, None, word >> 9
    if word < 0o6000:
        fact, known, cells = stepped(fact, known, at, word, place)
        y = facts3.variable(cells, place)
    if not known.set_of(AC):
        return []
    several = operation in (2, 3) and y is None
    start = replace(known, relations=names_sets(fact) | sums(fact) | {((AC, 1),): known.set_of(AC)}) if several else known
    if operation == 3 and y is not None:
        start.relations.pop(((AC, 1), (y, facts3.MINUS)), None)
    found = rows(start, cells, at, word, place)
    if operation == 2 and several and sets.only(cells) != place.entry:
        every = [known.set_of(target) for target in sets.words(cells)]
        nexts = [(at + 1) % 4096] * any(members & ~sets.one(0o7777) for members in every)
        nexts += [(at + 2) % 4096] * any(members >> 0o7777 & 1 for members in every)
        found = [facts3.Outcome(outcome.fact, nexts) for outcome in found]
    if operation == 1 or 0o7000 <= word < 0o7400:
        found = together(found)
    if operation == 1:
        relations = older_sums(fact, known, y, cells, place)
        found = [facts3.Outcome(replace(outcome.fact, relations=names_sets(outcome.fact) | relations), outcome.nexts)
                 for outcome in found]
    found = [facts3.Outcome(stays(fact, outcome.fact, y, several, word), outcome.nexts) for outcome in found]
    return [outcome for outcome in found if outcome.fact.set_of(AC) and outcome.fact.mq and outcome.fact.link and
            (operation not in (2, 3) or y is None or outcome.fact.set_of(y))]


def together(found):
    """One outcome for both links."""
    found = [outcome for outcome in found if outcome.fact.set_of(AC)]
    if not found:
        return []
    links = frozenset().union(*(outcome.fact.link for outcome in found))
    ac = sets.union(outcome.fact.set_of(AC) for outcome in found)
    return [facts3.Outcome(replace(found[0].fact.with_set(AC, ac), link=links), found[0].nexts)]


def older_sums(fact, known, y, cells, place):
    """The relations of several terms after TAD."""
    members, others = facts3.union_of_values(known, cells, place), {}
    for form, s in sums(fact).items():
        if form[0][0] != AC:
            others[form] = s
        elif sets.only(members) is not None and (y is None or sets.only(known.set_of(AC)) is None):
            others[form] = sets.added(s, members)
    if y is not None and sets.only(known.set_of(AC)) is not None:
        others[(AC, 1), (y, facts3.MINUS)] = known.set_of(AC)
    return others


def stays(before, after, y, several, word):
    """What a row does not name is as it was before narrowing, and only equations are kept."""
    after, operation = equations_alone(after), word >> 9
    names_ac = operation in (0, 1, 3, 7) or word in (0o6012, 0o6016, 0o6034, 0o6032, 0o6036)
    ac = after.set_of(AC) if names_ac else before.set_of(AC)
    if not several:
        written = {((y, 1),): after.set_of(y)} if operation in (2, 3) else {}
        after = replace(after, relations=names_sets(before) | written | sums(after))
    return after.with_set(AC, ac)


def older_entails(a, b, place):
    """The entailment of versions 1 and 2: an equation is one that a has itself, or both sides have one word and satisfy it."""
    known = facts3.met_once(a, place)
    bare = replace(b, relations=names_sets(b), sites=a.sites)
    if not facts3.entails(replace(known, link=a.link), bare, place):
        return False
    for form, s in sums(b).items():
        left, right = known.set_of(form[0][0]), known.set_of(form[1][0])
        one = sets.only(left) is not None and sets.only(right) is not None
        if a.relations.get(form) != s and not (one and sets.subtracted(left, right) == s):
            return False
    return True


def pairs_once(fact):
    pairs = [(x, y) for x, y, _ in fact.equations]
    return len(set(pairs)) == len(pairs)


def older_joined(call, exit_fact, written):
    """The return of versions 1 and 2: the exit says nothing about cells outside the written set."""
    relations = {form: s for form, s in exit_fact.relations.items() if len(form) > 1 or form[0][0] == AC or written >> form[0][0] & 1}
    return facts3.joined(call, replace(exit_fact, relations=relations), written)


def tried(case, counts):
    """Tries one random case; yields what differs."""
    place, fact, word = facts3.Place(case.image, case.declared, case.entry), newer(case.fact, case.sites), case.word
    returns = word >> 9 == 5 and word & 0o400 and named_cell(word, case.at) in case.declared.routines
    if is_supported(word, case.declared.profile) and word >> 9 != 4 and not returns:
        counts["outcomes"] += 1
        one = sorted(said(outcome.fact, outcome.nexts) for outcome in facts.post(case.fact, case.at, word, case.place))
        if one != sorted(said(outcome.fact, outcome.nexts) for outcome in older_post(fact, case.at, word, place)):
            yield f"outcomes of {word:04o}"
    for b in filter(pairs_once, (case.b, case.after)):
        entailed = facts.entails(case.fact, b)
        counts["entailed" if entailed else "not entailed"] += 1
        if entailed != older_entails(fact, newer(b, case.sites), place):
            yield "entailment"
        narrow = facts3.narrowed(fact, place)
        if entailed and narrow is not None and not facts3.entails(narrow, newer(b, case.sites), place):
            yield "entailment lost"
    if pairs_once(case.exit) and pairs_once(facts.joined(case.fact, case.exit, case.writes)):
        counts["returns"] += 1
        if said(facts.joined(case.fact, case.exit, case.writes)) != said(older_joined(fact, newer(case.exit, 0), case.writes)):
            yield "return"


def main(count, seed):
    counts, wrong = collections.Counter(), []
    for number in range(int(count)):
        case = by_chance.Case(by_chance.Chance(int(seed) * 1000003 + number))
        if pairs_once(case.fact):
            wrong += [f"{number}: {what}" for what in tried(case, counts)]
    print(dict(counts), f"{len(wrong)} differ")
    print("\n".join(wrong[:10]), end="\n" * bool(wrong))
    return int(bool(wrong))


if __name__ == "__main__":
    sys.exit(main(*sys.argv[1:]))
