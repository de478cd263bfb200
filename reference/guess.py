"""A second analyser: looks for a certificate by going through the program with facts until nothing grows.

What it finds is to be judged; nothing rests on it. It tracks the variables that words name directly, and the equations
between two names that differ by the same number wherever a loop comes by.
"""
from dataclasses import replace

import sets
from check import Certificate, Judge, Routine
from facts import AC, Fact, equation, joined, possible, post, supported
from machine import named_cell

GROWTHS = 24  # so often a set may grow at an address before it becomes all words
RUNS = 64  # a set in more runs becomes all words


class Stuck(Exception):
    """An instruction is met that the checker would refuse."""


class Guess:
    def __init__(self, image, declared):
        self.image, self.declared = image, declared
        self.found = Certificate(2 if declared.profile == "8e" else 1)
        self.found.routines = {entry: Routine(0, 0, 0) for entry in declared.routines}
        self.judge = Judge(image, declared, self.found)
        self.growths, self.waiting = {}, []
        everywhere = declared.main.union(*(body for body, _ in declared.routines.values()))
        named = {named_cell(image[at], at) for at in everywhere if at in image and image[at] < 0o6000}
        self.tracked = named & declared.variables | everywhere & declared.variables

    def run(self):
        """The certificate, when nothing grows any more."""
        self.reach(self.declared.start, Fact())
        while self.waiting:
            self.visit(self.waiting.pop())
        called = {entry for entry, line in self.found.routines.items() if line.sites}
        self.found.routines = {entry: self.found.routines[entry] for entry in called}
        for entry in called:
            self.found.routines[entry].rank = self.rank(entry)
        return self.found

    def rank(self, entry, above=()):
        """How deep the calls of a routine go; `above` are those that wait for it."""
        if entry in above:
            raise Stuck(f"{entry:04o}")
        body = self.declared.routines[entry][0]
        below = [callee for callee, line in self.found.routines.items()
                 if any(site in body for site in sets.words(line.sites))]
        return 1 + max((self.rank(callee, (*above, entry)) for callee in below), default=-1)

    def plain(self, fact):
        """A fact with the tracked cells alone, each narrowed."""
        cells = {cell: simple(fact.narrowed(cell)) for cell in self.tracked}
        cells = {cell: members for cell, members in cells.items() if members != sets.ALL}
        kept = frozenset(e for e in fact.equations if {e[0], e[1]} <= self.tracked | {AC})
        return replace(fact, ac=simple(fact.narrowed(AC)), cells=cells, equations=kept)

    def reach(self, at, fact):
        """A run may come to an address with this fact."""
        known = self.found.facts.get(at)
        grown = self.join(("fact", at), known, self.plain(fact))
        if grown != known:
            self.found.facts[at] = grown
            self.waiting.append(at)

    def join(self, where, old, new):
        """What both facts say."""
        if old is None:
            return new
        ac = self.grown(where, AC, old.ac, old.ac | new.ac)
        cells = {cell: self.grown(where, cell, members, members | new.cells.get(cell, sets.ALL))
                 for cell, members in old.cells.items()}
        cells = {cell: members for cell, members in cells.items() if members != sets.ALL}
        kept = {e for e in old.equations | new.equations if says(old, e) and says(new, e)}
        kept |= self.differences(old, new)
        equations, offsets = frozenset(sorted(kept)[:32]), old.offsets | new.offsets
        return Fact(ac, old.mq | new.mq, old.link | new.link, cells, equations, offsets)

    def grown(self, where, name, before, after):
        """A set that has grown, made all words where it does so too often."""
        if before == after:
            return before
        key = (*where, name)
        self.growths[key] = self.growths.get(key, 0) + 1
        return simple(after) if self.growths[key] < GROWTHS else sets.ALL

    def differences(self, old, new):
        """Equations between names with one word each, which differ by the same number in both facts."""
        single = {name: (sets.only(old.set_of(name)), sets.only(new.set_of(name))) for name in {AC, *old.cells}}
        single = {name: pair for name, pair in single.items() if None not in pair and pair[0] != pair[1]}
        return {equation(x, y, single[x][0] - single[y][0]) for x in single for y in single
                if x < y and (single[x][0] - single[y][0] - single[x][1] + single[y][1]) % 4096 == 0}

    def visit(self, at):
        """Goes on from an address."""
        if self.judge.owner(at) is False:
            raise Stuck(f"{at:04o}")
        fact, place = self.found.facts[at], self.judge.place(self.judge.owner(at))
        members = possible(fact, at, place)
        if members.bit_count() > 64 or not all(supported(word, self.declared) for word in sets.words(members)):
            raise Stuck(f"{at:04o}")
        for word in sets.words(members):
            written = self.judge.cells_written(fact, at, word, place)
            if not all(getattr(self.judge, f"holds_{n}")(written, fact, word, place, None) for n in (5, 14)) \
                    or not self.judge.holds(15, fact, at, word, place):
                raise Stuck(f"{at:04o}")
            self.write(place.entry, written & ~(sets.one(place.entry) if place.entry is not None else 0))
            if word >> 9 == 4:
                self.call(fact, at, word, place)
            elif self.judge.is_return(at, word):
                self.come_back(fact, at, word, place)
            else:
                leaves = place.entry is not None and word >> 9 == 5
                for outcome in post(fact, at, word, place):
                    for following in outcome.nexts:
                        abandons = leaves and following in self.declared.abandons
                        self.reach(following, replace(outcome.fact, offsets=frozenset()) if abandons else outcome.fact)

    def write(self, entry, written):
        """A routine may write some cells: so may those that call it."""
        if entry is None or not written & ~self.found.routines[entry].writes:
            return
        line = self.found.routines[entry]
        line.writes |= written
        for site in sets.words(line.sites):
            self.write(self.judge.owner(site), written | sets.one(entry))
            self.waiting.append(site)

    def call(self, fact, at, word, place):
        for callee in self.judge.callees(fact, at, word, place):
            if callee not in self.declared.routines:
                raise Stuck(f"{at:04o}")
            line = self.found.routines[callee]
            if not line.sites >> at & 1:
                line.sites |= sets.one(at)
                self.waiting += [there for there in self.declared.routines[callee][0] if there in self.found.facts]
            self.write(place.entry, line.writes | sets.one(callee))
            self.reach((callee + 1) % 4096, replace(fact, offsets=frozenset((0,))))
            for (entry, offset), known in self.found.exits.items():
                if entry == callee:
                    self.reach((at + 1 + offset) % 4096, joined(fact, known, line.writes))

    def come_back(self, fact, at, word, place):
        entry = place.entry
        if named_cell(word, at) != entry:
            raise Stuck(f"{at:04o}")
        for offset in fact.offsets:
            if offset not in self.declared.offsets(entry):
                raise Stuck(f"{at:04o}")
            known = self.found.exits.get((entry, offset))
            grown = self.join(("exit", entry, offset), known, replace(self.plain(fact), offsets=frozenset()))
            if grown != known:
                self.found.exits[entry, offset] = grown
                self.waiting += list(sets.words(self.found.routines[entry].sites))


def simple(members):
    """A set of few runs as it is, any other as all words."""
    return members if (members & ~(members << 1)).bit_count() <= RUNS else sets.ALL


def says(fact, equal):
    """A fact has an equation, or two single words that fulfil it."""
    x, y, k = equal
    left, right = sets.only(fact.narrowed(x)), sets.only(fact.narrowed(y))
    return equal in fact.equations or (left is not None and right is not None and left == (right + k) % 4096)


def guess(image, declared):
    """A certificate, or `Stuck`."""
    return Guess(image, declared).run()
