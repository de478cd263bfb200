"""Tests the rules of version 3 in reference/facts3.py on random machines: a fact is made that holds of a random state, the
machine in reference/ executes a word, and what the rules conclude must hold of the state after the word.

usage: version3_facts.py COUNT SEED, which prints how many cases of each kind there were, and what went wrong.
"""
import collections
import copy
import random
import sys
from dataclasses import replace
from pathlib import Path

sys.path.insert(0, str(Path(__file__).parent.parent / "reference"))
import facts3  # noqa: E402
import sets  # noqa: E402
from facts3 import AC, Fact, Place  # noqa: E402
from machine import World, is_supported  # noqa: E402
from watch import Declaration  # noqa: E402

ENTRY, AT = 0o250, 0o255
VARIABLES = [0o10, 0o210, 0o300, 0o301, 0o302]
TABLE = list(range(0o310, 0o330))
DECLARED = Declaration(0o200, "8e", set(range(0o200, 0o210)),
                       {ENTRY: (set(range(0o251, 0o270)), {0, 1, 2}), 0o400: ({0o401}, {0})}, set(VARIABLES), set(), set())


class Chance:
    """What is chosen at random."""

    def __init__(self, seed):
        self.r = random.Random(seed)
        self.subject = self.r.choice(VARIABLES)

    def cell(self):
        """A cell; often the one that the instruction names too."""
        return self.subject if self.r.random() < 0.5 else self.r.choice([*VARIABLES, *VARIABLES, 0o270, 0o271])

    def word(self):
        return self.r.choice([0, 1, 2, 0o7777, 0o7776, 0o4000, 0o3777, *VARIABLES, *TABLE, *TABLE, self.r.randrange(4096)])

    def set_with(self, word):
        """A set that has a word."""
        kind, found = self.r.randrange(6), sets.one(word)
        if kind < 2:
            return found
        if word in VARIABLES and kind < 5:
            return found | sets.of(self.r.sample(VARIABLES, 2))
        if kind == 2:
            return sets.ALL
        for _ in range(self.r.randrange(1, 5)):
            found |= sets.one(self.r.choice([self.word(), (word + self.r.randrange(-3, 4)) % 4096]))
        return found

    def state(self, image):
        memory = self.r.choices([self.word() for _ in range(64)], k=4096)
        world = World(image, AT, "8e", memory, self.word(), self.r.randrange(2), self.word())
        world.switches = self.word()
        for name in world.flags:
            world.flags[name] = self.r.random() < 0.5
        return world

    def instruction(self):
        while True:
            kind = self.r.randrange(10)
            if kind < 6:
                operation = self.r.choice([0, 1, 1, 1, 2, 2, 3, 3, 3])
                cell = self.subject if self.r.random() < 0.6 else self.r.choice([*VARIABLES, *VARIABLES, 0o270, 0o271, 0o250])
                page = 0 if cell < 0o200 else 0o200
                if cell >= 0o400 or cell >= 0o200 and cell & 0o7600 != AT & 0o7600:
                    page, cell = 0o200, 0o200 | cell & 0o177
                word = operation << 9 | (0o400 if self.r.random() < 0.35 else 0) | page | cell & 0o177
            elif kind < 8:
                word = self.r.choice([0o7001, 0o7040, 0o7041, 0o7100, 0o7020, 0o7010, 0o7004, 0o7012, 0o7006, 0o7002,
                                      0o7110, 0o7130, 0o7000 | self.r.randrange(256)])
            elif kind < 9:
                word = 0o7400 | self.r.randrange(128) << 1 & ~2
            else:
                word = self.r.choice([0o7421, 0o7501, 0o7521, 0o7621, 0o7701, 0o7721, 0o6036, 0o6034, 0o6031, 0o6032])
            if is_supported(word, "8e"):
                return word


def value(world, start, term):
    """What a term is in a state: the meaning, as the text has it."""
    if isinstance(term, tuple):
        return start[(value(world, start, term[0]) + term[1]) % 4096]
    return world.ac if term == AC else world.memory[term] if term in VARIABLES else start[term]


def fact_of(chance, world, start, site, offset, place):
    """A fact that holds of a state."""
    r = chance.r
    def put(*terms):
        """A relation of terms with coefficients, which is true."""
        form, sign = facts3.spelled(frozenset(dict(terms).items())) or (None, 0)
        if form:
            found.relations[form] = chance.set_with(sum(c * value(world, start, term) for term, c in form) % 4096)

    found = Fact(chance.set_with(world.mq), frozenset({world.link, r.choice([world.link, 0, 1])}),
                 offsets=frozenset({offset, r.randrange(4)}), sites=sets.one(site) | sets.one(r.choice([site, 0o205])))
    for name in [AC, *r.sample(VARIABLES, r.randrange(5))]:
        put((name, 1))
    for _ in range(r.randrange(8)):
        x, y, z = r.choice([AC, AC, chance.cell()]), chance.cell(), chance.cell()
        k = r.choice([0, 0, 1, 0o7777, (r.choice(TABLE) - value(world, start, y)) % 4096])
        c = r.choice([1, 1, -1, -1, -1, 2, 0o7774, 3])
        put(*r.choice([[(x, 1), (y, c)], [(AC, 1), (y, 1), (z, -1)], [(x, 1), ((y, k), r.choice([1, -1]))]]))
    if r.random() < 0.2:
        x = chance.cell()
        put((x, 1))
        k, steps = r.choice([0, 1, chance.word()]), tuple(r.choice([("AND", r.choice([7, 0o7600, 0o77])), ("TAD", chance.word()),
                                                                    ("word", r.choice([0o7010, 0o7106, 0o7041, 0o7012]))])
                                                          for _ in range(r.randrange(1, 4)))
        links = frozenset(r.choice([(0,), (1,), (0, 1)]))
        _, ac = min(facts3.results((k, links, steps), value(world, start, x)))
        steps += (("TAD", (world.ac - ac) % 4096),)
        if world.link not in {link for link, ac in facts3.results((k, links, steps), value(world, start, x)) if ac == world.ac}:
            steps += (("word", 0o7020),)
        chain = (k, links, steps)
        if (world.link, world.ac) in facts3.results(chain, value(world, start, x)):
            found.chains[x] = chain
    return found


def holds(fact, world, start, site, offset, place):
    """A fact holds of a state: the meaning, as the text has it."""
    if not fact.mq >> world.mq & 1:
        return "mq"
    if world.link not in fact.link:
        return "link"
    if not fact.sites >> site & 1 or offset not in fact.offsets:
        return "call"
    for form, s in fact.relations.items():
        if not s >> sum(c * value(world, start, term) for term, c in form) % 4096 & 1:
            return kind(form), form
    for x, chain in fact.chains.items():
        if (world.link, world.ac) not in facts3.results(chain, value(world, start, x)):
            return "chain", x
    return None


def weaker(chance, a):
    """A fact that says less, or sometimes something else."""
    r = chance.r

    def some(relations):
        return {key: s if r.random() < 0.6 or not isinstance(s, int) else s | sets.one(chance.word())
                for key, s in relations.items() if r.random() < 0.7}

    return replace(a, relations=some(a.relations), chains=some(a.chains))


def kind(form):
    """Which shape a relation has."""
    (first, _), rest = form[0], form[1:]
    second = "" if not rest else " word" if isinstance(rest[-1][0], tuple) else " cell" * len(rest)
    return ("AC" if first == AC else "cell") + second + (" factor" if any(c not in (1, facts3.MINUS) for _, c in rest) else "")


def alone(fact, like):
    """Each relation of a fact by itself."""
    bare = Fact(offsets=like.offsets, sites=like.sites)
    for form, s in fact.relations.items():
        yield kind(form), replace(bare, relations={form: s})
    for x, chain in fact.chains.items():
        yield "chain", replace(bare, chains={x: chain})


def case(chance, counts):
    """What went wrong in a random case, or None."""
    r, at = chance.r, AT
    image = {cell: chance.word() for cell in [*TABLE, 0o270, 0o271, 0o300, 0o10]}
    word = image[at] = chance.instruction()
    world = chance.state(image)
    for cell in VARIABLES:
        world.memory[cell] = r.choice([*VARIABLES, chance.word(), world.memory[cell]])
    site, offset = r.choice([0o203, 0o206]), r.randrange(3)
    world.memory[ENTRY] = (site + 1 + offset) % 4096
    start = [image.get(cell, word_) for cell, word_ in enumerate(world.memory)]
    place = Place(image, DECLARED, ENTRY)
    fact = fact_of(chance, world, start, site, offset, place)
    if holds(fact, world, start, site, offset, place):
        return "made", holds(fact, world, start, site, offset, place)
    narrow = facts3.narrowed(fact, place)
    if narrow is None or holds(narrow, world, start, site, offset, place):
        return "narrowed", narrow and holds(narrow, world, start, site, offset, place)
    other = weaker(chance, fact)
    counts["weaker"] += 1
    if facts3.entails(narrow, other, place):
        counts["entailed"] += 1
        if holds(other, world, start, site, offset, place):
            return "entailed", holds(other, world, start, site, offset, place)
    other = fact_of(chance, chance.state(image) if r.random() < 0.5 else world, start, site, offset, place)
    for shape, b in alone(other, narrow):
        if facts3.entails(narrow, b, place):
            counts["entailed " + shape] += 1
            if holds(b, world, start, site, offset, place):
                return "entailed", shape, holds(b, world, start, site, offset, place)
        else:
            counts["not entailed " + shape] += 1
    if r.random() < 0.3:
        said = returned(chance, narrow, (world, start, site, offset, place))
        counts["returned"] += 1
        if said:
            return "returned", said
    stepped, cells = (narrow, 0) if word >= 0o6000 else facts3.targets(narrow, at, word, place)
    written = cells if word >> 9 in (2, 3) else 0
    if word < 0o6000 and word & 0o400 and facts3.named_cell(word, at) in range(0o10, 0o20):
        written |= sets.one(facts3.named_cell(word, at))
    own = word >> 9 == 2 and sets.only(written) == ENTRY
    if written & ~sets.of(VARIABLES) and not own:
        counts["forbidden"] += 1
        return None
    outcomes = facts3.post(narrow, at, word, place)
    world.step()
    offset += own
    wrong = []
    for outcome in outcomes:
        if world.pc in outcome.nexts:
            said = holds(outcome.fact, world, start, site, offset, place)
            if said is None:
                counts["stepped"] += 1
                return landed(chance, counts, outcome.fact, (world, start, site, offset, place))
            wrong.append(said)
    return "outcome", f"{word:04o}", wrong


def returned(chance, call, state):
    """What is known after a return holds if the written set of the callee has everything that it wrote."""
    world, start, site, offset, place = state
    written, world = chance.r.sample(VARIABLES, chance.r.randrange(4)), copy.copy(world)
    world.memory, world.ac, world.mq, world.link = list(world.memory), chance.word(), chance.word(), chance.r.randrange(2)
    for cell in written:
        world.memory[cell] = chance.word()
    known = facts3.joined(call, fact_of(chance, world, start, 0o203, 1, place), sets.of(written))
    return holds(known, world, start, site, offset, place)


def landed(chance, counts, fact, state):
    """A fact that holds lands only where a fact holds."""
    place = state[-1]
    known = [weaker(chance, fact) for _ in range(3)]
    if chance.r.random() < 0.5:
        name = chance.r.choice(VARIABLES)
        known = [b.with_set(name, b.set_of(name) & members) for b, members in
                 zip(known, chance.r.choice([(sets.span(0, 0o300), sets.span(0o301, 0o315), sets.span(0o314, 0o7777)),
                                             (sets.span(0, 0o277), sets.span(0o302, 0o777), sets.span(0o301, 0o314))]))]
    for part in facts3.parts(fact, place):
        if state[0].link in part.link and facts3.lands_by(part, known, place, True):
            counts["landed"] += 1
            if all(holds(b, *state) for b in known):
                return "landed", [holds(b, *state) for b in known]
    return None


def main():
    count, seed = int(sys.argv[1]), int(sys.argv[2])
    counts, wrong = collections.Counter(), []
    for number in range(count):
        said = case(Chance(seed * 1000003 + number), counts)
        if said:
            wrong.append((number, said))
    print(dict(counts), f"{len(wrong)} wrong")
    for number, said in wrong[:10]:
        print(" ", number, said)
    return int(bool(wrong))


if __name__ == "__main__":
    sys.exit(main())
