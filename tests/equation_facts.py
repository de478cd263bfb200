"""Random cases, for facts.py, with facts of versions 1 and 2 of certificates, and what the program must print about a
word at a fact."""
import random
import sys
from dataclasses import replace
from pathlib import Path

sys.path.insert(0, str(Path(__file__).parent.parent / "reference"))
import check  # noqa: E402
import sets  # noqa: E402
from facts import AC, Fact, Place, entails, joined, possible, post, supported, targets  # noqa: E402
from facts3 import Fact as SumFact  # noqa: E402
from facts_text import hash_of, said, spelled_parts, spelled_set, told  # noqa: E402
from machine import named_cell  # noqa: E402
from watch import Declaration  # noqa: E402

ENTRY, OTHER = 0o250, 0o400
VARIABLES = [0o10, 0o11, 0o210, 0o211, *range(0o300, 0o306)]
CELLS = [0o10, 0o11, 0o210, 0o211, 0o250, 0o300, 0o301, 0o302, 0o303, 0o304, 0o305]
MAIN, BODY = set(range(0o200, 0o230)), set(range(0o251, 0o260))
MINUS = 0o7777


def declaration(profile, reads):
    routines = {ENTRY: (BODY, {0, 1}), OTHER: (set(range(0o401, 0o410)), {0})}
    return Declaration(0o200, profile, MAIN, routines, set(VARIABLES), {0o220}, {0o221}, reads)


DECLARED = [declaration("8i", {0o10, 0o11, 0o250, *range(0o300, 0o304)}), declaration("8e", None)]


class Chance:
    """What is chosen at random."""

    def __init__(self, seed):
        self.numbers = random.Random(seed)

    def one(self, choices):
        return self.numbers.choice(choices)

    def share(self, share):
        return self.numbers.random() < share

    def number(self):
        return self.one([0, 1, 2, 5, 0o300, 0o301, 0o7776, 0o7777, self.numbers.randrange(4096)])

    def set(self):
        """A set, most often a small one."""
        kind = self.numbers.randrange(20)
        if kind < 8:
            return sets.one(self.number())
        if kind < 14:
            low = self.number()
            return sets.span(low, min(low + self.numbers.randrange(9), 0o7777))
        if kind < 17:
            return sets.of(self.number() for _ in range(self.numbers.randrange(2, 6)))
        if kind < 18:
            low = self.numbers.randrange(4096)
            return sets.span(low, self.numbers.randrange(low, 4096))
        return sets.ALL if kind < 19 or self.share(0.8) else 0

    def pointer(self):
        """Words for a pointer."""
        near = [0o277, 0o300, 0o301, 0o302, 0o210, ENTRY, OTHER, 0o203, 0o10]
        return sets.of(self.one(near[:5] if self.share(0.8) else near) for _ in range(self.one([1, 1, 1, 2, 3])))

    def fact(self, entry):
        """A fact whose equations usually hold for some values."""
        values = {cell: self.number() for cell in [AC, *CELLS]}
        cells = {}
        for cell in self.numbers.sample(VARIABLES, self.numbers.randrange(7)) + ([ENTRY] if self.share(0.1) else []):
            near = self.pointer() if cell in (0o10, 0o11, 0o304, 0o305) else self.set()
            cells[cell] = near | (sets.one(values[cell]) if self.share(0.8) else 0)
        equations = set()
        for _ in range(self.one([0, 0, 1, 1, 2, 3, 5])):
            x, y = sorted(self.numbers.sample([AC, AC, *VARIABLES], 2))
            if x != y:
                equations.add((x, y, (values[x] - values[y] + (self.share(0.05) and 1)) % 4096))
        offsets = frozenset(self.numbers.sample(range(8), self.one([1, 1, 2, 3]))) if entry is not None else frozenset()
        link = self.one([{0}, {1}, {0, 1}, {0, 1}]) if self.share(0.98) else set()
        ac = self.set() | (sets.one(values[AC]) if self.share(0.9) else 0)
        return Fact(ac, self.set() or sets.ALL, frozenset(link), cells, frozenset(equations), offsets)

    def weaker(self, fact):
        """A fact that this one entails, or nearly entails."""
        def more(members):
            return members | (self.set() if self.share(0.3) else 0)
        def seen(name):
            members = fact.narrowed(name) if self.share(0.8) else fact.set_of(name)
            return more(members) if self.share(0.96) else self.set()
        known = {cell: seen(cell) for cell in {*fact.cells, *self.numbers.sample(VARIABLES, 2)} if self.share(0.7)}
        equations = {e for e in fact.equations if self.share(0.8)}
        if self.share(0.3):
            x, y = sorted(self.numbers.sample([AC, *VARIABLES], 2))
            left, right = sets.only(fact.narrowed(x)), sets.only(fact.narrowed(y))
            if left is not None and right is not None:
                equations.add((x, y, (left - right + (self.share(0.1) and 1)) % 4096))
        link = fact.link if self.share(0.97) else frozenset(self.one([{0}, {1}]))
        offsets = fact.offsets | {self.numbers.randrange(8)} if self.share(0.9) else frozenset({0})
        mq = more(fact.mq) if self.share(0.96) else self.set()
        return Fact(seen(AC), mq, link, known, frozenset(equations), offsets)

    def word(self, entry):
        if entry is not None and self.share(0.15):
            return self.one([0o5650, 0o5650, 0o2250, 0o2250, 0o1250])
        kind = self.numbers.randrange(20)
        if kind < 13:
            cell = self.one(CELLS + [0o202, 0o205])
            page = 0o200 if cell > 0o177 else 0
            indirect = 0o400 if self.share(0.35) else 0
            if indirect and self.share(0.7):
                cell, page = self.one([(0o10, 0), (0o11, 0), (0o304, 0o200), (0o305, 0o200)])
            return self.numbers.randrange(6) << 9 | indirect | page | cell & 0o177
        if kind < 15:
            return 0o7000 | self.numbers.randrange(256)
        if kind < 17:
            return 0o7400 | self.numbers.randrange(128) << 1
        if kind < 18:
            return self.one([0o7421, 0o7501, 0o7521, 0o7621, 0o7701, 0o7721, 0o7401, 0o7403])
        return self.one([0o6000 | self.numbers.randrange(0o70), 0o6011, 0o6012, 0o6016, 0o6032, 0o6034, 0o6036, 0o6046])


class Case:
    """One word with its address and facts."""

    def __init__(self, chance):
        self.machine = chance.numbers.randrange(2)
        self.declared = DECLARED[self.machine]
        self.entry = ENTRY if chance.share(0.4) else None
        self.at = chance.one(sorted(MAIN if self.entry is None else BODY))
        self.word = chance.word(self.entry)
        if self.word >> 8 == 0o17 and self.word & 2:
            self.at = chance.one([0o220, 0o221, self.at]) if self.entry is None else self.at
        self.image = {cell: chance.number() for cell in sorted(MAIN) + CELLS if chance.share(0.7)}
        self.sites = sets.of(chance.one([0o202, 0o203, 0o210]) for _ in range(2)) if self.entry is not None else 0
        self.writes = sets.of(cell for cell in VARIABLES if chance.share(0.8)) if chance.share(0.9) else chance.set()
        self.fact = chance.fact(self.entry)
        self.place = Place(self.image, self.declared, self.entry, self.sites)
        self.found = self.outcomes()
        known = chance.one(self.found)[2] if self.found else self.fact
        self.b = chance.weaker(known) if chance.share(0.95) else chance.fact(self.entry)
        self.exit = chance.fact(None)
        self.after = chance.weaker(joined(self.fact, self.exit, self.writes))
        if chance.share(0.1):
            some = {cell: sets.one(word) for cell, word in self.image.items() if chance.share(0.2)}
            equal = frozenset((x, y, (self.image[x] - self.image[y]) % 4096)
                              for x, y in [sorted(chance.numbers.sample(sorted(self.image), 2))])
            self.after = Fact(cells=some, equations=equal)

    def breaks(self):
        """The first condition on the word that fails."""
        if not supported(self.word, self.declared):
            return 3
        certificate = check.Certificate(routines={ENTRY: check.Routine(1, self.sites, self.writes)})
        judge = check.Judge(self.image, self.declared, certificate)
        for number in (5, 14, 6, 13):
            if not judge.holds(number, self.fact, self.at, self.word, self.place):
                return number
        return None

    def outcomes(self):
        """The outcomes, each as a kind, the next addresses and a fact."""
        if self.breaks():
            return []
        stepped, cells = targets(self.fact, self.at, self.word, self.place) if self.word < 0o6000 else (self.fact, 0)
        alive = cells and stepped.narrowed(AC) and stepped.ac and stepped.mq and stepped.link
        if self.word >> 9 == 4:
            return [("calls", cells, stepped)] if alive else []
        if self.word >> 8 == 0o13 and named_cell(self.word, self.at) == self.entry:
            return [("returns", 0, stepped)] if alive else []
        found = post(self.fact, self.at, self.word, self.place)
        if self.word >> 9 == 5:
            return [("goes", sets.of(outcome.nexts), outcome.fact) for outcome in found]
        return [("goes", sets.one(following), outcome.fact) for outcome in found for following in outcome.nexts]

    def spelled(self):
        numbers = [self.machine, 0, 0 if self.entry is None else self.entry + 1, self.at, self.word, len(self.image)]
        numbers += [number for pair in self.image.items() for number in pair] + spelled_set(self.writes)
        for fact in (self.fact, self.b, self.exit, self.after):
            numbers += spelled_fact(fact, self.sites)
        return " ".join(f"{number:o}" for number in numbers) + "\n"

    def expected(self):
        """The lines that are printed."""
        after_call = joined(self.fact, self.exit, self.writes)
        started = check.holds_before(self.after, self.image)
        lines = ["asked" + told(newer(self.fact, self.sites)),
                 f"returned {said(entails(after_call, self.after))} false started {said(started)}",
                 "joined" + told(newer(after_call, self.sites))]
        certificate = check.Certificate(routines={ENTRY: check.Routine(1, self.sites, self.writes)})
        judge = check.Judge(self.image, self.declared, certificate)
        listed = judge.holds(15, self.fact, self.at, self.word, self.place)
        lines.append(f"reads {hash_of(self.reads())} {said(listed)}")
        lines.append(f"possible {hash_of(possible(self.fact, self.at, self.place))}")
        if self.breaks():
            return lines + [f"breaks {self.breaks()}"]
        return lines + sorted(self.line(*outcome) for outcome in self.found)

    def reads(self):
        if self.word >= 0o6000 or not supported(self.word, self.declared):
            return 0
        read = sets.one(named_cell(self.word, self.at)) if self.word & 0o400 else 0
        return read | (targets(self.fact, self.at, self.word, self.place)[1] if self.word >> 9 < 3 else 0)

    def line(self, way, following, fact):
        lands = entails(fact, self.b) or entails(fact, self.after)
        return f"{way} {hash_of(following)} {said(lands)} false" + told(newer(fact, self.sites))


def newer(fact, sites):
    """A fact of version 1 or 2 as one of version 3."""
    relations = {((AC, 1),): fact.ac} | {((cell, 1),): members for cell, members in fact.cells.items()}
    relations |= {((x, 1), (y, MINUS), k): sets.one(k) for x, y, k in fact.equations}
    return SumFact(fact.mq, fact.link, relations, {}, fact.offsets, sites)


def spelled_fact(fact, sites):
    """A fact of version 1 or 2."""
    equations = [(((x, 1), (y, MINUS)), sets.one(k)) for x, y, k in sorted(fact.equations)]
    return spelled_parts(newer(fact, sites), fact.cells.items(), equations)
