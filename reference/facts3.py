"""Facts of version 3 and their outcomes, written from docs/TRANSFER.md alone, for comparing.

A term is AC, which is -1 so that it stands before all cells, a cell, or (x, k), the word that the cell at x + k held at
the start. A form is a tuple of terms with their coefficients. A fact has

    relations[form] = S              the form's sum is in S; a form of one term is the set of AC or of a cell
    chains[x] = (k, links, steps)    link and AC are what the steps make of x + k and one of these links
"""
from dataclasses import dataclass, field, replace
from functools import cached_property, lru_cache

import sets
from machine import group1, named_cell, skips
from watch import is_halt

AC = -1
MINUS = 0o7777


@dataclass
class Fact:
    """What is known of a state, and of the call in which it is."""
    mq: int = sets.ALL
    link: frozenset = frozenset((0, 1))
    relations: dict = field(default_factory=dict)
    chains: dict = field(default_factory=dict)
    offsets: frozenset = frozenset()
    sites: int = 0

    def set_of(self, name):
        return self.relations.get(((name, 1),), sets.ALL)

    # A fact is narrowed as a whole; in the versions before, name by name.
    narrowed = set_of

    def with_set(self, name, members):
        return replace(self, relations=self.relations | {((name, 1),): members})

    def without(self, *gone):
        """Without the relations of some names; without chains, where AC is one of them."""
        return replace(self, relations={form: s for form, s in self.relations.items() if not names(form) & {*gone}},
                       chains={x: chain for x, chain in self.chains.items() if not {x, AC} & {*gone}})

    def moved(self, cell):
        """With the relations after a cell was counted up by 1."""
        relations = {}
        for form, s in self.relations.items():
            put(relations, *moved(form, s, cell, sets.one(1)))
        chains = {x: ((k - (x == cell)) % 4096, links, steps) for x, (k, links, steps) in self.chains.items()}
        return replace(self, relations=relations, chains=chains)


@dataclass
class Outcome:
    """A fact after a step, and where it goes on."""
    fact: Fact
    nexts: list


@dataclass
class Place:
    """What the step of a word depends on besides its fact: the tape, the declaration, the running routine's entry
    (None in main)."""
    image: dict
    declared: object
    entry: int

    def at_start(self, cells):
        """The words that some cells may have held at the start."""
        if cells & ~self.on_tape:
            return sets.ALL
        return sets.of(self.image[cell] for cell in sets.words(cells))

    def started_with(self, members, cells):
        """Those of some cells that may have held a word of a set at the start."""
        if not members:
            return 0
        return cells & ~self.on_tape | sets.of(cell for cell in sets.words(cells & self.on_tape) if members >> self.image[cell] & 1)

    @cached_property
    def on_tape(self):
        return sets.of(self.image)

    @cached_property
    def changing(self):
        """The variables and the entries; each other cell keeps the word of the start."""
        return sets.of(self.declared.variables | set(self.declared.routines))


# Forms -----------------------------------------------------------------------------------------------------------

def names(form):
    """The names of which a form speaks."""
    return {term[0] if isinstance(term, tuple) else term for term, _ in form}


def order(term):
    return isinstance(term, tuple), term


@lru_cache(100000)
def spelled(terms):
    """The form that says what some terms with their coefficients say, and its sign; None where none has a permitted shape."""
    pairs = [(term, c % 4096) for term, c in terms if c % 4096]
    pairs.sort(key=lambda pair: (pair[1] not in (1, MINUS), order(pair[0])))
    sign = pairs[0][1] if pairs else 0
    form = tuple((term, c * sign % 4096) for term, c in pairs)
    return (form, sign) if sign in (1, MINUS) and permitted(form) else None


def permitted(form):
    """x; x + c y; x + [y + k], x - [y + k]; AC + x - y, AC - x + y; where x may be AC but in the last."""
    (first, _), rest = form[0], form[1:]
    if isinstance(first, tuple) or len(rest) > 2 or any(term == AC for term, _ in rest):
        return False
    if len(rest) == 1 and isinstance(rest[0][0], tuple):
        return rest[0][1] in (1, MINUS) and rest[0][0][0] != first
    if any(isinstance(term, tuple) for term, _ in rest):
        return False
    return len(rest) < 2 or first == AC and {c for _, c in rest} == {1, MINUS}


def meet(relations, form, members):
    """Adds a relation; where there is one of this form the two sets meet."""
    if members != sets.ALL:
        relations[form] = relations.get(form, sets.ALL) & members


def put(relations, terms, members):
    """Adds what some terms say, if that has a permitted shape."""
    found = spelled(frozenset(terms.items()))
    if found:
        meet(relations, found[0], sets.times(found[1], members))


def own(fact, terms):
    """What a fact's own relation says of the sum of some terms."""
    form, sign = spelled(frozenset(terms.items()))
    return sets.times(sign, fact.relations.get(form, sets.ALL))


def moved(form, members, cell, by):
    """A relation's terms and set after a word of a set was added to a cell."""
    terms = {}
    for term, c in form:
        if term == cell:
            members = sets.added(members, sets.times(c, by))
        elif isinstance(term, tuple) and term[0] == cell:
            members = members if sets.only(by) is not None else sets.ALL
            term = cell, (term[1] - (sets.only(by) or 0)) % 4096
        terms[term] = c
    return terms, members


def known(fact, form, place):
    """K(form): what a fact says of its sum, by the sets of its names and by relations of the sum and of its last terms."""
    (term, c), rest = form[0], form[1:]
    if isinstance(term, tuple):
        members = place.at_start(sets.shift(fact.set_of(term[0]), term[1]))
    else:
        members = fact.set_of(term)
    found = sets.times(c, members)
    return own(fact, dict(form)) & sets.added(found, known(fact, rest, place)) if rest else found


def confine(found, fact, part, members, place):
    """Adds to a fact that the sum of a part of a form, as another fact knows it, is in a set."""
    (term, c), = part[:1]
    if len(part) > 1:
        put(found.relations, dict(part), members)
    elif isinstance(term, tuple):
        x, k = term
        cells = place.started_with(sets.times(c, members), sets.shift(fact.set_of(x), k))
        meet(found.relations, ((x, 1),), sets.shift(cells, -k))
    else:
        meet(found.relations, ((term, 1),), sets.divided(c, members, fact.set_of(term)))


@lru_cache(200000)
def results(chain, word):
    """What a chain makes of a word: pairs of a link and a word."""
    start, links, steps = chain
    found = set()
    for link in links:
        ac = (word + start) % 4096
        for kind, operand in steps:
            if kind == "AND":
                ac &= operand
            elif kind == "TAD":
                link, ac = link ^ ac + operand >> 12, (ac + operand) % 4096
            else:
                ac, link = group1(operand, ac, link)
        found.add((link, ac))
    return found


# Narrowing -------------------------------------------------------------------------------------------------------

def narrowed(fact, place):
    """N(F), or None where no state satisfies it."""
    found = met_once(fact, place)
    return found if all(found.relations.values()) and found.mq and found.link else None


def met_once(fact, place):
    """The fact with each set met with what the relations say of it, by the other sets as they stand."""
    found = replace(fact, relations=dict(fact.relations))
    for form, s in fact.relations.items():
        first, rest = form[:1], form[1:]
        if rest:
            confine(found, fact, first, sets.subtracted(s, known(fact, rest, place)), place)
            confine(found, fact, rest, sets.subtracted(s, known(fact, first, place)), place)
    for x, chain in fact.chains.items():
        narrow_by_chain(fact, found, x, chain)
    return found


def narrow_by_chain(fact, found, x, chain):
    members = fact.set_of(AC)
    fits = [(word, link, ac) for word in sets.words(fact.set_of(x)) for link, ac in results(chain, word)
            if link in fact.link and members >> ac & 1]
    found.link &= {link for _, link, _ in fits}
    put(found.relations, {x: 1}, sets.of(word for word, _, _ in fits))
    put(found.relations, {AC: 1}, sets.of(ac for _, _, ac in fits))
    put(found.relations, {AC: 1, x: -1}, sets.of((ac - word) % 4096 for word, _, ac in fits))


# Which words a cell may hold ------------------------------------------------------------------------------------

def values(fact, cell, place):
    """The words that a cell may hold."""
    if cell in place.declared.variables:
        return fact.set_of(cell)
    if cell == place.entry:
        return sets.of((site + 1 + offset) % 4096 for site in sets.words(fact.sites) for offset in fact.offsets)
    return sets.ALL if cell in place.declared.routines else place.at_start(sets.one(cell))


def possible(fact, at, place):
    """The words that may stand at an address."""
    return values(fact, at, place)


def targets(fact, at, word, place):
    """The fact after a pointer was stepped, and the targets of a memory reference."""
    cell = named_cell(word, at)
    if not word & 0o400:
        return fact, sets.one(cell)
    if 0o10 <= cell <= 0o17:
        fact = fact.moved(cell)
        return fact, fact.set_of(cell)
    return fact, values(fact, cell, place)


def union_of_values(fact, cells, place):
    found = 0
    for cell in sets.words(cells):
        found |= values(fact, cell, place)
        if found == sets.ALL:
            break
    return found


def variable(cells, place):
    """The one target, where that is a variable."""
    cell = sets.only(cells)
    return cell if cell in place.declared.variables else None


# Outcomes -------------------------------------------------------------------------------------------------------

def begun(fact):
    """The chains, with one begun for each cell of which AC is a known word more."""
    found = {form[1][0]: (sets.only(s), fact.link, ()) for form, s in fact.relations.items()
             if len(form) == 2 and form[0][0] == AC and form[1][1] == MINUS and not isinstance(form[1][0], tuple) and
             sets.only(s) is not None}
    return found | fact.chains


def longer(chains, kind, operand):
    return {x: (k, links, steps + ((kind, operand),)) for x, (k, links, steps) in chains.items()}


def after_and(fact, cells, place, following):
    members = union_of_values(fact, cells, place)
    after = fact.without(AC).with_set(AC, sets.ands(fact.set_of(AC), members))
    if sets.only(members) is not None:
        after.chains = longer(begun(fact), "AND", sets.only(members))
    return [Outcome(after, [following])]


def added_term(cells, pointer, place):
    """The term whose word is added by a TAD, if there is one."""
    if pointer is not None and not cells & place.changing:
        return pointer, 0
    return variable(cells, place)


def relations_after_tad(fact, members, added):
    """The relations after a TAD of a word of a set, which is that of a term where this is not None."""
    relations = {}
    for form, s in fact.relations.items():
        terms = dict(form)
        c = terms.get(added, 0)
        meet(relations, form, sets.added(s, members) if AC in terms else s)
        if added is not None and AC in terms:
            put(relations, terms | {added: c - 1}, s)
        elif c in (1, MINUS):
            others = {term: c * factor for term, factor in form if term != added}
            put(relations, {AC: 1} | others, sets.added(fact.set_of(AC), sets.times(c, s)))
    return relations


def after_tad(fact, cells, place, pointer, following):
    members = union_of_values(fact, cells, place)
    only, (low, high) = sets.only(members), sets.totals(fact.set_of(AC), members)
    relations = relations_after_tad(fact, members, added_term(cells, pointer, place))
    after = replace(fact, relations=relations, chains=longer(fact.chains, "TAD", only) if only is not None else {})
    found = []
    for link in (0, 1):
        ac = ((low if link in fact.link else 0) | (high if 1 - link in fact.link else 0)) & after.set_of(AC)
        found.append(Outcome(replace(after.with_set(AC, ac), link=frozenset((link,))), [following]))
    return found


def after_isz(fact, cells, place, at):
    following, skipped = (at + 1) % 4096, (at + 2) % 4096
    if sets.only(cells) is not None and sets.only(cells) == place.entry:
        return [Outcome(replace(fact, offsets=frozenset(offset + 1 for offset in fact.offsets)), [following])]
    cell = variable(cells, place)
    if cell is not None:
        after = fact.moved(cell)
        counted = after.set_of(cell)
        return [Outcome(after.with_set(cell, counted & ~1), [following]), Outcome(after.with_set(cell, counted & 1), [skipped])]
    after, nexts = several(fact, fact, cells, lambda members: sets.shift(members, 1)), []
    every = [fact.set_of(target) for target in sets.words(cells)]
    nexts += [following] if any(members & ~sets.one(0o7777) for members in every) else []
    nexts += [skipped] if any(members >> 0o7777 & 1 for members in every) else []
    return [Outcome(after, nexts)]


def several(fact, after, cells, new):
    """What is known after one of some cells was written: its old words or new ones."""
    after = after.without(*sets.words(cells))
    for cell in sets.words(cells):
        if fact.set_of(cell) != sets.ALL:
            after = after.with_set(cell, fact.set_of(cell) | new(fact.set_of(cell)))
    return after


def in_reach(fact):
    """Each word of AC lies 0 to 77 behind the return address of each site."""
    return all(site < word <= site + 0o100 for site in sets.words(fact.sites) for word in sets.words(fact.set_of(AC)))


def after_dca(fact, cells, place, following):
    if sets.only(cells) is not None and sets.only(cells) == place.entry:
        found = {word - site - 1 for site in sets.words(fact.sites) for word in sets.words(fact.set_of(AC))}
        offsets = frozenset(offset for offset in found if 0 <= offset < 64)
        return [Outcome(replace(fact.without(AC).with_set(AC, 1), offsets=offsets), [following])]
    y = variable(cells, place)
    if y is not None:
        after = replace(fact, relations=relations_after_dca(fact, y), chains={})
    else:
        after = several(fact, fact.without(AC), cells, lambda _: fact.set_of(AC))
    return [Outcome(after.with_set(AC, 1), [following])]


def relations_after_dca(fact, y):
    """The relations after AC was stored in a variable."""
    relations, by = {}, own(fact, {AC: 1, y: -1})
    for form, s in fact.relations.items():
        if form[0][0] == AC:
            if y not in names(form):
                put(relations, {y: 1} | dict(form[1:]), s)
        elif y not in names(form):
            meet(relations, form, s)
        elif by != sets.ALL:
            put(relations, *moved(form, s, y, by))
    return relations


def after_group1(fact, word, following):
    found, pairs = [], {group1(word, ac, link) for ac in sets.words(fact.set_of(AC)) for link in fact.link}
    after = fact.without(AC) if word & 0o216 else turned(fact, word)
    if not word & 0o200:
        after.chains = longer(begun(fact) if word & 0o16 else fact.chains, "word", word)
    for link in sorted({link for _, link in pairs}):
        ac = sets.of(ac for ac, other in pairs if other == link)
        found.append(Outcome(replace(after.with_set(AC, ac), link=frozenset((link,))), [following]))
    return found


def turned(fact, word):
    """The relations after CMA and IAC, where the word has them."""
    relations = {}
    for form, s in fact.relations.items():
        terms = dict(form)
        if AC in terms and word & 0o40:
            terms, s = {AC: 1} | {term: -c for term, c in form[1:]}, sets.complement(s)
        put(relations, terms, sets.shift(s, 1) if AC in terms and word & 1 else s)
    return replace(fact, relations=relations)


def after_group2(fact, word, at, place):
    if is_halt(word) and at in place.declared.stops:
        return []
    found = []
    for link in sorted(fact.link):
        branches = [[], []]
        for ac in sets.words(fact.set_of(AC)):
            branches[skips(word, ac, link)].append(ac)
        for branch, taken in enumerate(branches):
            after = replace(fact.with_set(AC, sets.of(taken)), link=frozenset((link,)))
            if word & 0o204 and taken:
                after = narrowed(after, place)
                if after is None:
                    continue
                ac = 1 if word & 0o200 else after.set_of(AC)
                after = after.without(AC).with_set(AC, sets.or_any(ac, 0o7777) if word & 4 else ac)
            found.append(Outcome(after, [(at + 1 + branch) % 4096]))
    return found


def after_group3(fact, word, following):
    ac, mq = fact.set_of(AC), fact.mq
    made = {0o7421: (1, ac), 0o7501: (None, mq), 0o7521: (mq, ac), 0o7621: (1, 1), 0o7701: (mq, mq), 0o7721: (mq, 1)}
    new_ac, new_mq = made[word]
    new_ac = sets.ors(ac, mq) if new_ac is None else new_ac
    return [Outcome(replace(fact.without(AC).with_set(AC, new_ac), mq=new_mq), [following])]


def after_device(fact, word, at):
    following = (at + 1) % 4096
    if word in (0o6011, 0o6021, 0o6031, 0o6041):
        return [Outcome(fact, [following, (at + 2) % 4096])]
    made = {0o6032: 1, 0o6036: sets.span(0, 0o377)}
    if word in (0o6012, 0o6016, 0o6034):
        made[word] = sets.or_any(fact.set_of(AC), 0o377)
    return [Outcome(fact.without(AC).with_set(AC, made[word]) if word in made else fact, [following])]


def post(fact, at, word, place):
    """The outcomes of a supported word that is neither a JMS nor a JMP I through an entry, from a narrowed fact."""
    following, operation = (at + 1) % 4096, word >> 9
    if operation == 6:
        return after_device(fact, word, at)
    if operation == 7:
        if word < 0o7400:
            return after_group1(fact, word, following)
        return after_group3(fact, word, following) if word & 1 else after_group2(fact, word, at, place)
    return referred(*targets(fact, at, word, place), at, word, place)


def referred(fact, cells, at, word, place):
    """The outcomes of a memory reference to some cells."""
    following, operation = (at + 1) % 4096, word >> 9
    pointer = named_cell(word, at) if word & 0o400 and named_cell(word, at) in place.declared.variables else None
    if not cells:
        return []
    if operation == 0:
        return after_and(fact, cells, place, following)
    if operation == 1:
        return after_tad(fact, cells, place, pointer, following)
    if operation == 2:
        return after_isz(fact, cells, place, at)
    if operation == 3:
        return after_dca(fact, cells, place, following)
    return [Outcome(fact, list(sets.words(cells)))]


# Entailment and landing -----------------------------------------------------------------------------------------

def entails_chain(fact, x, chain):
    """Each link and word of AC that may be beside each word of x is one that the chain makes."""
    mine = fact.chains.get(x)
    if mine is None and fact.set_of(AC).bit_count() * len(fact.link) > 2:
        return fact.set_of(x) == 0
    every = {(link, ac) for link in fact.link for ac in sets.words(fact.set_of(AC))} if mine is None else None
    for word in sets.words(fact.set_of(x)):
        if mine is None:
            allowed = every
        else:
            allowed = {(link, ac) for link, ac in results(mine, word) if link in fact.link and fact.set_of(AC) >> ac & 1}
        if not allowed <= results(chain, word):
            return False
    return True


def entails(a, b, place, offsets=True):
    """The narrowed fact a says at least as much as b; against an exit's fact offsets are not compared."""
    if a.mq & ~b.mq or not a.link <= b.link or a.sites & ~b.sites or offsets and not a.offsets <= b.offsets:
        return False
    return (all(not a.relations.get(form, sets.ALL) & ~s or not known(a, form, place) & ~s for form, s in b.relations.items()) and
            all(entails_chain(a, x, chain) for x, chain in b.chains.items()))


def lands_by(part, known, place, offsets):
    """A narrowed fact with one link entails one of some facts, or is split among them by the words of a name."""
    if any(entails(part, b, place, offsets) for b in known):
        return True
    told = {form[0][0] for b in known for form in b.relations if len(form) == 1}
    untold = next(cell for cell in range(4096) if cell not in told)
    return any(is_split_by(name, part, known, place, offsets) for name in sorted(told | {AC, untold}))


def taken(name, part, b, place, offsets):
    """The words of a name in the set of a fact, if the part with this set entails it or has no state; else none."""
    members = part.set_of(name) & b.set_of(name)
    met = narrowed(part.with_set(name, members), place)
    return members if met is None or entails(met, b, place, offsets) else 0


def is_split_by(name, part, known, place, offsets):
    """Each word of a name is taken by a fact."""
    covered = 0
    for b in known:
        if part.set_of(name) & b.set_of(name) & ~covered:
            covered |= taken(name, part, b, place, offsets)
    return covered == part.set_of(name)


def parts(fact, place):
    """The fact with each of its links alone, narrowed, where some state may satisfy it."""
    found = (narrowed(replace(fact, link=frozenset((link,))), place) for link in sorted(fact.link))
    return [part for part in found if part is not None]


def joined(call, exit_fact, written):
    """What is known after a return: what the exit says, and what the caller knew of cells that weren't written."""
    relations = dict(exit_fact.relations)
    for form, s in call.relations.items():
        if not any(name == AC or written >> name & 1 for name in names(form)):
            meet(relations, form, s)
    return replace(exit_fact, relations=relations, offsets=call.offsets, sites=call.sites)
