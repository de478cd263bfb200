"""The conditions V1 to V16 on a certificate, and its text, written from their description alone, for comparing.

A certificate is taken as well formed: faults of its text aren't told apart.
"""
from dataclasses import dataclass, field, replace

import facts
import sets
from facts import AC, Fact, Place, entails, in_reach
from machine import is_supported, named_cell
from watch import is_halt

ORDER = [2, 3, 5, 14, 6, 13, 7, 8, 9, 10, 12, 11, 4, 15, 16]


@dataclass
class Routine:
    """The line of a routine."""
    rank: int
    sites: int
    writes: int


@dataclass
class Certificate:
    """Routines by entry, facts by address, exit facts by entry and offset."""
    version: int = 1
    routines: dict = field(default_factory=dict)
    facts: dict = field(default_factory=dict)
    exits: dict = field(default_factory=dict)


def set_text(members):
    """A set as its maximal runs."""
    return ",".join(f"{a:04o}" if a == b else f"{a:04o}-{b:04o}" for a, b in sets.runs(members)) or "-"


def set_of(text):
    if text == "-":
        return 0
    return sum(sets.span(int(run[:4], 8), int(run[-4:], 8)) for run in text.split(","))


def fact_text(fact, version):
    mq = f" mq {set_text(fact.mq)}" if version == 2 else ""
    lines = [f"ac {set_text(fact.ac)}{mq} link {''.join(str(link) for link in sorted(fact.link))}"]
    lines += [f"cell {cell:04o} {set_text(members)}" for cell, members in sorted(fact.cells.items())]
    return lines + [f"equal {'AC' if x == AC else f'{x:04o}'} {y:04o} {k:04o}" for x, y, k in sorted(fact.equations)]


def text(certificate):
    """The spelling of a certificate."""
    out = [f"PDP8-CERTIFICATE {certificate.version}"]
    for entry, line in sorted(certificate.routines.items()):
        sites, writes = set_text(line.sites), set_text(line.writes)
        out.append(f"routine {entry:04o} rank {line.rank:02o} sites {sites} writes {writes}")
    for at, fact in sorted(certificate.facts.items()):
        first, *rest = fact_text(fact, certificate.version)
        offsets = "".join(str(offset) for offset in sorted(fact.offsets)) or "-"
        out += [f"fact {at:04o} {first} offsets {offsets}"] + rest
    for (entry, offset), fact in sorted(certificate.exits.items()):
        first, *rest = fact_text(fact, certificate.version)
        out += [f"exit {entry:04o} {offset} {first}"] + rest
    return "".join(line + "\n" for line in out + ["end"])


def parse(written):
    """The certificate that a well-formed text spells."""
    first, *lines = written.splitlines()
    found, fact = Certificate(int(first.split()[1])), None
    for line in lines:
        words = line.split()
        named = dict(zip(words[2 + (words[0] == "exit")::2], words[3 + (words[0] == "exit")::2]))
        if words[0] == "routine":
            line = Routine(int(named["rank"], 8), set_of(named["sites"]), set_of(named["writes"]))
            found.routines[int(words[1], 8)] = line
        elif words[0] in ("fact", "exit"):
            offsets = frozenset(int(digit) for digit in named.get("offsets", "-").replace("-", ""))
            fact = Fact(set_of(named["ac"]), set_of(named["mq"]) if "mq" in named else sets.ALL,
                        frozenset(int(digit) for digit in named["link"]), {}, frozenset(), offsets)
            if words[0] == "fact":
                found.facts[int(words[1], 8)] = fact
            else:
                found.exits[int(words[1], 8), int(words[2])] = fact
        elif words[0] == "cell":
            fact.cells[int(words[1], 8)] = set_of(words[2])
        elif words[0] == "equal":
            x = AC if words[1] == "AC" else int(words[1], 8)
            fact.equations |= {(x, int(words[2], 8), int(words[3], 8))}
    return found


def holds_before(fact, image):
    """The fact holds of every start."""
    if fact.ac != sets.ALL or fact.mq != sets.ALL or len(fact.link) < 2:
        return False
    if any((sets.one(image[cell]) if cell in image else sets.ALL) & ~members for cell, members in fact.cells.items()):
        return False
    return all(x in image and y in image and image[x] == (image[y] + k) % 4096 for x, y, k in fact.equations)


def listed(found, key):
    """The facts of a certificate at an address, or for an entry and an offset: one or, in version 3, a list."""
    facts_there = found.get(key, [])
    return facts_there if isinstance(facts_there, list) else [facts_there]


class Judge:
    """The conditions at one address, by their numbers; with how facts change, and the last address that may be a site."""
    rules, last_site = facts, 0o7767

    def __init__(self, image, declared, certificate):
        self.image, self.declared, self.certificate = image, declared, certificate

    def owner(self, at):
        """The routine whose body has an address (None for main), or False."""
        if at in self.declared.main:
            return None
        return next((entry for entry, (body, _) in self.declared.routines.items() if at in body), False)

    def place(self, entry):
        line = self.certificate.routines.get(entry)
        return Place(self.image, self.declared, entry, line.sites if line else 0)

    def lands(self, fact, at, entry):
        """A fact stands at an address of a routine's body and is entailed."""
        known = self.certificate.facts
        return at in self.declared.body(entry) and at in known and entails(fact, known[at])

    def cells_written(self, fact, at, word, place):
        """The cells that a word may write, those of a JMS apart."""
        if word >= 0o6000:
            return 0
        cell, (_, cells) = named_cell(word, at), self.rules.targets(fact, at, word, place)
        stepped = sets.one(cell) if word & 0o400 and 0o10 <= cell <= 0o17 else 0
        return stepped | (cells if word >> 9 in (2, 3) else 0)

    def callees(self, fact, at, word, place):
        return list(sets.words(self.rules.targets(fact, at, word, place)[1])) if word >> 9 == 4 else []

    def is_return(self, at, word):
        return word >> 9 == 5 and bool(word & 0o400) and named_cell(word, at) in self.declared.routines

    def holds_2(self, at):
        known = [at in self.declared.routines] * (at in self.certificate.routines or
                                                  any(entry == at for entry, _ in self.certificate.exits))
        if at in self.certificate.facts:
            offsets, entry = self.certificate.facts[at].offsets, self.owner(at)
            known.append(not offsets if entry is None else entry in self.certificate.routines and bool(offsets))
        return all(known)

    def holds(self, number, fact, at, word, place):
        """A condition on one possible word."""
        entry, lines = place.entry, self.certificate.routines
        own = lines.get(entry)
        if number in (5, 6, 14):
            written = self.cells_written(fact, at, word, place)
            return getattr(self, f"holds_{number}")(written, fact, word, place, own)
        if number == 16:
            return all(self.asserted(said, fact, place) for said in self.declared.held_at(at))
        if number == 13:
            return not is_halt(word) or at in self.declared.stops | self.declared.pauses
        if number in (7, 8, 9, 10, 11):
            if number == 7 and word >> 9 == 4 and word & 0o400 and 0o10 <= named_cell(word, at) <= 0o17:
                return False
            return all(self.holds_of_call(number, fact, at, callee, entry, own)
                       for callee in self.callees(fact, at, word, place))
        if number == 12:
            return not self.is_return(at, word) or self.holds_12(fact, at, word, entry)
        if number == 4:
            if word >> 9 == 4 or self.is_return(at, word):
                return True
            return all(self.lands_beyond(outcome.fact, following, entry, word)
                       for outcome in self.rules.post(fact, at, word, place) for following in outcome.nexts)
        return self.declared.reads is None or self.holds_15(fact, at, word, place)

    def lands_beyond(self, fact, at, entry, word):
        """The fact lands in the same body; or as one of main's, where a JMP in a routine abandons all calls."""
        if entry is not None and word >> 9 == 5 and at in self.declared.abandons:
            return self.lands(self.abandoned(fact), at, None)
        return self.lands(fact, at, entry)

    def called(self, fact, at):
        """What is known at the first instruction of a routine that is called from an address."""
        return replace(fact, offsets=frozenset((0,)))

    def abandoned(self, fact):
        """What is known in main after all calls have been abandoned."""
        return replace(fact, offsets=frozenset())

    def asserted(self, said, fact, place):
        """By a fact what is asserted is so."""
        if said.subject == "link":
            return fact.link <= said.words
        known = {"ac": fact.narrowed(AC), "mq": fact.mq}.get(said.subject)
        return not (self.rules.values(fact, said.subject, place) if known is None else known) & ~sets.of(said.words)

    def holds_5(self, written, fact, word, place, own):
        return not written & ~sets.of(self.declared.variables | set(self.declared.routines))

    def holds_14(self, written, fact, word, place, own):
        entries, entry = written & sets.of(self.declared.routines), place.entry
        own_alone = entry is not None and sets.only(written) == entry
        counted = word >> 9 == 2 and 7 not in fact.offsets
        moved = word >> 9 == 3 and not word & 0o400 and entry in self.declared.moves and in_reach(fact, place)
        return not entries or (own_alone and (counted or moved))

    def holds_6(self, written, fact, word, place, own):
        return place.entry is None or not written & ~(own.writes | sets.one(place.entry))

    def holds_of_call(self, number, fact, at, callee, entry, own):
        line = self.certificate.routines.get(callee)
        if number == 7:
            return callee in self.declared.routines and line is not None and (entry is None or line.rank < own.rank)
        if number == 8:
            return entry is None or not ((line.writes | sets.one(callee)) & ~own.writes or line.writes >> entry & 1)
        if number == 9:
            return bool(line.sites >> at & 1) and at <= self.last_site
        if number == 10:
            return self.lands(self.called(fact, at), (callee + 1) % 4096, callee)
        return self.holds_11(fact, at, callee, entry, line)

    def holds_11(self, fact, at, callee, entry, line):
        return all(self.lands(self.rules.joined(fact, known, line.writes), (at + 1 + offset) % 4096, entry)
                   for (of, offset), known in self.certificate.exits.items() if of == callee)

    def holds_12(self, fact, at, word, entry):
        if named_cell(word, at) != entry:
            return False
        exits = self.certificate.exits
        return all(offset in self.declared.offsets(entry) and (entry, offset) in exits and
                   entails(fact, exits[entry, offset], offsets=False) for offset in fact.offsets)

    def cells_read(self, fact, at, word, place):
        """The cells that a word may read."""
        if word >= 0o6000:
            return 0
        pointer = sets.one(named_cell(word, at)) if word & 0o400 else 0
        return pointer | (self.rules.targets(fact, at, word, place)[1] if word >> 9 < 3 else 0)

    def holds_15(self, fact, at, word, place):
        listed = sets.of(self.declared.reads) | (sets.one(place.entry) if place.entry is not None else 0)
        return not self.cells_read(fact, at, word, place) & ~listed

    def narrowed(self, fact, place):
        """What is asked about a fact, or None if no state satisfies it."""
        return fact

    def exits_hold(self, entry):
        """By each exit of a routine that some state may satisfy what is declared of its returns is so."""
        place, exits = self.place(entry), self.certificate.exits
        asked = [(offset, self.narrowed(fact, place)) for of, offset in exits if of == entry for fact in listed(exits, (of, offset))]
        return all(self.asserted(said, fact, place) for offset, fact in asked if fact is not None
                   for said in self.declared.held_by(entry, offset))

    def fails_at(self, at):
        """The first condition that fails at an address, or None."""
        if not self.holds_2(at):
            return 2
        place = self.place(self.owner(at))
        asked = [self.narrowed(fact, place) for fact in listed(self.certificate.facts, at)]
        asked = [(fact, self.rules.possible(fact, at, place)) for fact in asked if fact is not None]
        for number in ORDER[1:]:
            for fact, members in asked:
                if number == 3:
                    if members.bit_count() > 64 or not all(is_supported(word, self.declared.profile) for word in sets.words(members)):
                        return 3
                elif not all(self.holds(number, fact, at, word, place) for word in sets.words(members)):
                    return number
        return None if self.exits_hold(at) else 16


def judge(image, declared, certificate):
    """None, or the first condition that fails and its address."""
    start = certificate.facts.get(declared.start)
    if start is None or not holds_before(start, image):
        return 1, declared.start
    lines = set(certificate.routines) | set(certificate.facts) | {entry for entry, _ in certificate.exits}
    asked = Judge(image, declared, certificate)
    for at in sorted(lines):
        failed = asked.fails_at(at)
        if failed:
            return failed, at
    return None


def counts(declared):
    """What `pdp8 check` says beside yes."""
    cells = len(declared.main) + sum(len(body) for body, _ in declared.routines.values())
    said = (f"yes: {cells} body cells, {len(declared.variables)} variable cells, {len(declared.routines)} entries, "
            f"{len(declared.stops | declared.pauses)} halts")
    said += f", {len(declared.reads)} read cells" if declared.reads is not None else ""
    said += f", {len(declared.asserted)} assertions" if declared.asserted else ""
    skips = sum(max(declared.offsets(entry), default=0) > 7 for entry in declared.routines)
    widened = ((len(declared.abandons), "abandon place"), (len(declared.moves), "moved return"), (skips, "skip"))
    return said + "".join(f", {count} {name}{'s' * (count > 1)}" for count, name in widened if count)
