"""Facts and their outcomes, written from their description alone, for comparing.

Names in equations are cells, and AC is -1, so that AC stands before all cells. An equation (x, y, k) says that x is
y + k, with x before y.
"""
from dataclasses import dataclass, field, replace

import sets
from machine import group1, is_supported, named_cell, skips
from watch import is_halt

AC = -1


@dataclass
class Fact:
    """What is known: sets of AC, MQ, link and tracked cells, equations, offsets."""
    ac: int = sets.ALL
    mq: int = sets.ALL
    link: frozenset = frozenset((0, 1))
    cells: dict = field(default_factory=dict)
    equations: frozenset = frozenset()
    offsets: frozenset = frozenset()

    def set_of(self, name):
        return self.ac if name == AC else self.cells.get(name, sets.ALL)

    def narrowed(self, name):
        """The set of a name, met with those of its partners."""
        found = self.set_of(name)
        for x, y, k in self.equations:
            if x == name:
                found &= sets.shift(self.set_of(y), k)
            if y == name:
                found &= sets.shift(self.set_of(x), -k)
        return found

    def with_cell(self, cell, members):
        return replace(self, cells=self.cells | {cell: members})

    def without(self, names):
        """Without the equations on some names."""
        return replace(self, equations=frozenset(e for e in self.equations if e[0] not in names and e[1] not in names))

    def moved(self, name, by):
        """The equations after a name was counted up."""
        changed = {(x, y, (k + by * (x == name) - by * (y == name)) % 4096) for x, y, k in self.equations}
        return replace(self, equations=frozenset(changed))


@dataclass
class Outcome:
    """A fact after a step, and where it goes on."""
    fact: Fact
    nexts: list


@dataclass
class Place:
    """What the step of a word depends on besides its fact: the tape, the declaration, the running routine's entry
    (None in main) and the sites from which it is called."""
    image: dict
    declared: object
    entry: int
    sites: int


def equation(x, y, k):
    """x = y + k in its orientation."""
    return (x, y, k % 4096) if x < y else (y, x, -k % 4096)


def values(fact, cell, place):
    """The words that a cell may hold."""
    if cell in place.declared.variables:
        return fact.narrowed(cell)
    if cell == place.entry:
        return sets.of((site + 1 + offset) % 4096 for site in sets.words(place.sites) for offset in fact.offsets)
    if cell in place.declared.routines or cell not in place.image:
        return sets.ALL
    return sets.one(place.image[cell])


def possible(fact, at, place):
    """The words that may stand at an address."""
    if at in place.declared.variables:
        return fact.narrowed(at)
    return sets.one(place.image[at]) if at in place.image else sets.ALL


def targets(fact, at, word, place):
    """The fact after a pointer was stepped, and the targets of a memory reference."""
    cell = named_cell(word, at)
    if not word & 0o400:
        return fact, sets.one(cell)
    if 0o10 <= cell <= 0o17:
        stepped = sets.shift(fact.narrowed(cell), 1)
        fact = fact.moved(cell, 1).with_cell(cell, stepped)
        return fact, stepped
    return fact, values(fact, cell, place)


def union_of_values(fact, cells, place):
    found = 0
    for cell in sets.words(cells):
        found |= values(fact, cell, place)
        if found == sets.ALL:
            break
    return found


def variable(cells, place):
    """The one target, where that is a variable."""
    cell = sets.only(cells)
    return cell if cell in place.declared.variables else None


def after_tad(fact, cells, place, following):
    ac, values_there = fact.narrowed(AC), union_of_values(fact, cells, place)
    total, carries = sets.sums(ac, values_there)
    cell, word, added = variable(cells, place), sets.only(ac), sets.only(values_there)
    if cell is not None and word is not None:
        after = fact.without({AC})
        after = replace(after, equations=after.equations | {equation(AC, cell, word)})
    else:
        after = fact.moved(AC, added) if added is not None else fact.without({AC})
    link = frozenset(link ^ carry for link in fact.link for carry in carries)
    return [Outcome(replace(after, ac=total, link=link), [following])]


def after_isz(fact, cells, place, at):
    following, skipped = (at + 1) % 4096, (at + 2) % 4096
    if sets.only(cells) is not None and sets.only(cells) == place.entry:
        return [Outcome(replace(fact, offsets=frozenset(offset + 1 for offset in fact.offsets)), [following])]
    cell = variable(cells, place)
    if cell is not None:
        before, after = fact.narrowed(cell), fact.moved(cell, 1)
        found = [Outcome(after.with_cell(cell, sets.shift(before, 1) & ~1), [following])]
        if before >> 0o7777 & 1:
            found.append(Outcome(after.with_cell(cell, 1), [skipped]))
        return [outcome for outcome in found if outcome.fact.cells[cell]]
    after, nexts = fact.without(set(sets.words(cells))), []
    for tracked, members in fact.cells.items():
        if cells >> tracked & 1:
            after = after.with_cell(tracked, members | sets.shift(members, 1))
    every = [fact.narrowed(target) for target in sets.words(cells)]
    nexts += [following] if any(members & ~sets.one(0o7777) for members in every) else []
    nexts += [skipped] if any(members >> 0o7777 & 1 for members in every) else []
    return [Outcome(after, nexts)]


def in_reach(fact, place):
    """Each word of AC lies 0 to 77 behind the return address of each site."""
    return all(site < word <= site + 0o100 for site in sets.words(place.sites) for word in sets.words(fact.narrowed(AC)))


def after_dca(fact, cells, place, following):
    ac, cell = fact.narrowed(AC), variable(cells, place)
    if sets.only(cells) is not None and sets.only(cells) == place.entry:
        found = {word - site - 1 for site in sets.words(place.sites) for word in sets.words(ac)}
        offsets = frozenset(offset for offset in found if 0 <= offset < 64)
        return [Outcome(replace(fact.without({AC}), ac=1, offsets=offsets), [following])]
    if cell is not None:
        copied = {equation(cell, y, k) for x, y, k in fact.equations if x == AC and y != cell}
        after = fact.without({AC, cell})
        after = replace(after, equations=after.equations | copied).with_cell(cell, ac)
    else:
        after = fact.without({AC} | set(sets.words(cells)))
        for tracked, members in fact.cells.items():
            if cells >> tracked & 1:
                after = after.with_cell(tracked, members | ac)
    return [Outcome(replace(after, ac=1), [following])]


def after_group1(fact, word, following):
    results = {group1(word, ac, link) for ac in sets.words(fact.narrowed(AC)) for link in fact.link}
    after = replace(fact, ac=sets.of(ac for ac, _ in results), link=frozenset(link for _, link in results))
    if word & 0o256:
        after = after.without({AC})
    elif word & 1:
        after = after.moved(AC, 1)
    return [Outcome(after, [following])]


def after_group2(fact, word, at, place):
    if is_halt(word) and at in place.declared.stops:
        return []
    found = []
    for link in sorted(fact.link):
        branches = [[], []]
        for ac in sets.words(fact.narrowed(AC)):
            branches[skips(word, ac, link)].append(ac)
        for branch, taken in enumerate(branches):
            if not taken:
                continue
            ac = 1 if word & 0o200 else sets.of(taken)
            ac = sets.or_any(ac, 0o7777) if word & 4 else ac
            after = fact.without({AC}) if word & 0o204 else fact
            found.append(Outcome(replace(after, ac=ac, link=frozenset((link,))), [(at + 1 + branch) % 4096]))
    return found


def after_group3(fact, word, following):
    ac, mq = fact.narrowed(AC), fact.mq
    results = {0o7421: (1, ac), 0o7501: (None, mq), 0o7521: (mq, ac), 0o7621: (1, 1), 0o7701: (mq, mq), 0o7721: (mq, 1)}
    new_ac, new_mq = results[word]
    new_ac = sets.ors(ac, mq) if new_ac is None else new_ac
    return [Outcome(replace(fact.without({AC}), ac=new_ac, mq=new_mq), [following])]


def after_device(fact, word, at):
    following = (at + 1) % 4096
    if word in (0o6011, 0o6021, 0o6031, 0o6041):
        return [Outcome(fact, [following, (at + 2) % 4096])]
    if word in (0o6012, 0o6016, 0o6034):
        return [Outcome(replace(fact.without({AC}), ac=sets.or_any(fact.narrowed(AC), 0o377)), [following])]
    if word in (0o6032, 0o6036):
        return [Outcome(replace(fact.without({AC}), ac=1 if word == 0o6032 else sets.span(0, 0o377)), [following])]
    return [Outcome(fact, [following])]


def post(fact, at, word, place):
    """The outcomes of a supported word that is neither a JMS nor a JMP I through an entry."""
    following, operation = (at + 1) % 4096, word >> 9
    if operation < 6:
        fact, cells = targets(fact, at, word, place)
        if not cells:
            found = []
        elif operation == 0:
            ac = sets.ands(fact.narrowed(AC), union_of_values(fact, cells, place))
            found = [Outcome(replace(fact.without({AC}), ac=ac), [following])]
        elif operation == 1:
            found = after_tad(fact, cells, place, following)
        elif operation == 2:
            found = after_isz(fact, cells, place, at)
        elif operation == 3:
            found = after_dca(fact, cells, place, following)
        else:
            found = [Outcome(fact, list(sets.words(cells)))]
    elif operation == 6:
        found = after_device(fact, word, at)
    elif word < 0o7400:
        found = after_group1(fact, word, following)
    elif word & 1:
        found = after_group3(fact, word, following)
    else:
        found = after_group2(fact, word, at, place)
    if not fact.narrowed(AC):
        return []
    return [outcome for outcome in found if outcome.fact.ac and outcome.fact.mq and outcome.fact.link]


def entails(a, b, offsets=True):
    """Fact a says at least as much as fact b; against an exit fact offsets aren't compared."""
    if a.narrowed(AC) & ~b.ac or a.mq & ~b.mq or not a.link <= b.link or offsets and not a.offsets <= b.offsets:
        return False
    if any(a.narrowed(cell) & ~members for cell, members in b.cells.items()):
        return False
    for x, y, k in b.equations - a.equations:
        left, right = sets.only(a.narrowed(x)), sets.only(a.narrowed(y))
        if left is None or right is None or left != (right + k) % 4096:
            return False
    return True


def joined(call, exit_fact, written):
    """What is known after a return: of written cells what the exit says, of others what the caller knew."""
    cells = {cell: members for cell, members in call.cells.items() if not written >> cell & 1}
    cells |= {cell: members for cell, members in exit_fact.cells.items() if written >> cell & 1}
    kept = {e for e in call.equations if e[0] != AC and not written >> e[0] & 1 and not written >> e[1] & 1}
    return Fact(exit_fact.ac, exit_fact.mq, exit_fact.link, cells, frozenset(kept) | exit_fact.equations, call.offsets)


def supported(word, declared):
    return is_supported(word, declared.profile)
