"""Random cases, for facts.py, with facts of version 3 of certificates, and what the program must print about a
word at a fact."""
import sys
from pathlib import Path

sys.path.insert(0, str(Path(__file__).parent.parent / "reference"))
import check3  # noqa: E402
import facts3  # noqa: E402
import sets  # noqa: E402
import version3_facts as by_chance  # noqa: E402
from facts_text import hash_of, said, spelled_set, spelled_sums, told  # noqa: E402
from machine import is_supported, named_cell  # noqa: E402
from version3_facts import AT, DECLARED, ENTRY, TABLE, VARIABLES  # noqa: E402


class Case:
    """One word with its address and facts."""

    def __init__(self, seed):
        chance = by_chance.Chance(seed)
        r = chance.r
        self.at, self.image = AT, {cell: chance.word() for cell in [*TABLE, 0o270, 0o271, 0o300, 0o10]}
        self.word = self.image[AT] = chance.instruction() if r.random() < 0.97 else r.randrange(4096)
        world = chance.state(self.image)
        for cell in VARIABLES:
            world.memory[cell] = r.choice([*VARIABLES, chance.word(), world.memory[cell]])
        offset = r.randrange(3)
        start = [self.image.get(cell, word) for cell, word in enumerate(world.memory)]
        self.place = facts3.Place(self.image, DECLARED, ENTRY)
        state = (world, start, r.choice([0o203, 0o206]), offset, self.place)
        self.writes = sets.of(cell for cell in VARIABLES if r.random() < 0.8)
        self.fact = by_chance.fact_of(chance, *state)
        if r.random() < 0.05:
            self.fact = by_chance.weaker(chance, self.fact).with_set(r.choice(VARIABLES), chance.set_with(chance.word()))
        self.narrow = facts3.narrowed(self.fact, self.place)
        self.exit = by_chance.fact_of(chance, *(state if r.random() < 0.7 else (chance.state(self.image), *state[1:])))
        self.found = self.outcomes()
        known = r.choice(self.found)[2] if self.found else self.fact
        self.first, self.second = self.others(chance, known)

    def others(self, chance, known):
        """Two facts among which a fact may land: weaker ones, which often have different words for one name."""
        r = chance.r
        first, second = by_chance.weaker(chance, known), by_chance.weaker(chance, known)
        kind = r.random()
        if kind < 0.4:
            name, least = r.choice([facts3.AC, *VARIABLES]), r.choice([0o301, 1, chance.word()])
            lower, upper = sets.span(0, least), sets.span(least + (r.random() < 0.8), 0o7777) if least < 0o7777 else sets.ALL
            return first.with_set(name, first.set_of(name) & lower), second.with_set(name, second.set_of(name) & upper)
        if kind < 0.6 and self.narrow:
            return first, by_chance.weaker(chance, facts3.joined(self.narrow, self.exit, self.writes))
        if kind < 0.7:
            cells = {cell: self.image[cell] for cell in self.image if r.random() < 0.3}
            return first, facts3.Fact(relations={((cell, 1),): chance.set_with(word) for cell, word in cells.items()})
        return first, second

    def breaks(self):
        """The first condition on the word that fails."""
        if not is_supported(self.word, DECLARED.profile):
            return 3
        certificate = check3.Certificate()
        certificate.routines[ENTRY] = check3.Routine(1, 0, self.writes)
        judge = check3.Judge(self.image, DECLARED, certificate)
        return next((number for number in (5, 14, 6, 13) if not judge.holds(number, self.narrow, self.at, self.word, self.place)), None)

    def outcomes(self):
        """The outcomes, each as a kind, the next addresses and a fact."""
        if self.narrow is None or self.breaks():
            return []
        if self.word < 0o6000:
            stepped, cells = facts3.targets(self.narrow, self.at, self.word, self.place)
            if self.word >> 9 == 4:
                return [("calls", cells, stepped)] if cells else []
            if self.word >> 8 == 0o13 and named_cell(self.word, self.at) == ENTRY:
                return [("returns", 0, stepped)] if cells else []
        found = facts3.post(self.narrow, self.at, self.word, self.place)
        if self.word >> 9 == 5:
            return [("goes", sets.of(outcome.nexts), outcome.fact) for outcome in found if outcome.nexts]
        return [("goes", sets.one(following), outcome.fact) for outcome in found for following in outcome.nexts]

    def spelled(self):
        numbers = [2, 1, ENTRY + 1, self.at, self.word, len(self.image)]
        numbers += [number for pair in self.image.items() for number in pair] + spelled_set(self.writes)
        for fact in (self.fact, self.first, self.exit, self.second):
            numbers += spelled_sums(fact)
        return " ".join(f"{number:o}" for number in numbers) + "\n"

    def lands(self, fact, *known):
        return all(facts3.lands_by(part, known, self.place, True) for part in facts3.parts(fact, self.place))

    def expected(self):
        """The lines that are printed."""
        if self.narrow is None:
            return ["void"]
        after_call = facts3.joined(self.narrow, self.exit, self.writes)
        started = self.lands(check3.start_fact(self.image), self.second)
        lines = ["asked" + told(self.narrow),
                 f"returned {said(self.lands(after_call, self.second))} {said(self.is_idle(after_call))} started {said(started)}",
                 "joined" + told(after_call),
                 f"reads {hash_of(self.reads())} true",
                 f"possible {hash_of(facts3.possible(self.narrow, self.at, self.place))}"]
        if self.breaks():
            return lines + [f"breaks {self.breaks()}"]
        return lines + sorted(self.line(*outcome) for outcome in self.found if not self.is_idle(outcome[2]))

    def is_idle(self, fact):
        return not facts3.parts(fact, self.place)

    def reads(self):
        if self.word >= 0o6000 or not is_supported(self.word, DECLARED.profile):
            return 0
        read = sets.one(named_cell(self.word, self.at)) if self.word & 0o400 else 0
        return read | (facts3.targets(self.narrow, self.at, self.word, self.place)[1] if self.word >> 9 < 3 else 0)

    def line(self, way, following, fact):
        return f"{way} {hash_of(following)} {said(self.lands(fact, self.first, self.second))} false" + told(fact)
