"""The text of certificates of version 3, with its faults, and the conditions V1 to V16 on them, written from
docs/FORMATS.md, docs/TRANSFER.md and docs/THEOREM.md alone, for comparing.
"""
import re
from dataclasses import dataclass, field, replace

import check
import facts3
import sets
from check import Routine, set_of, set_text
from facts3 import AC, MINUS, Fact, Place, in_reach, lands_by, order, parts, spelled
from machine import named_cell

LIMITS = {"cell": 64, "sum": 32, "func": 4}
MOST = 64
LONGEST = 1048576
ADDRESS, SET, OFFSETS = r"[0-7]{4}", r"[-0-7,]+", r"[-0-7,]+"
TERM = rf"(?:AC|{ADDRESS}|\[{ADDRESS}\+{ADDRESS}\])"
LINES = {
    "routine": rf"routine ({ADDRESS}) rank ([0-7]{{2}}) sites ({SET}) writes ({SET})",
    "fact": rf"fact ({ADDRESS}) sites ({SET}) ac ({SET}) mq ({SET}) link (0|1|01) offsets ({OFFSETS})",
    "exit": rf"exit ({ADDRESS}) ([0-7]{{2}}) sites ({SET}) ac ({SET}) mq ({SET}) link (0|1|01)",
    "cell": rf"cell ({ADDRESS}) ({SET})",
    "sum": rf"sum ({TERM}(?: (?:[+-]|{ADDRESS}) {TERM}){{1,2}}) in ({SET})",
    "func": rf"func ({ADDRESS}) ({ADDRESS}) link (0|1|01)((?: AND {ADDRESS}| TAD {ADDRESS}| 7[0-3][0-7]{{2}}){{1,16}})",
}


class Fault(Exception):
    """A text is no certificate."""


@dataclass
class Certificate:
    """Routines by entry; facts by address and exits by entry and offset, each with the lists of their facts."""
    routines: dict = field(default_factory=dict)
    facts: dict = field(default_factory=dict)
    exits: dict = field(default_factory=dict)


# Writing --------------------------------------------------------------------------------------------------------

def offsets_text(offsets):
    return re.sub(r"\d{4}", lambda word: word[0][2:], set_text(sets.of(offsets)))


def link_text(links):
    return "".join(str(link) for link in sorted(links))


def term_text(term):
    return "AC" if term == AC else "[{:04o}+{:04o}]".format(*term) if isinstance(term, tuple) else f"{term:04o}"


def form_text(form):
    signs = {1: "+", MINUS: "-"}
    return term_text(form[0][0]) + "".join(f" {signs.get(c, f'{c:04o}')} {term_text(term)}" for term, c in form[1:])


def form_key(form):
    """The key of a relation's line below a fact: those of cells are before all others."""
    return len(form) > 1, *((order(term), c) for term, c in form)


def fact_lines(fact):
    """The lines below a fact."""
    for form, s in sorted(fact.relations.items(), key=lambda pair: form_key(pair[0])):
        if len(form) > 1:
            yield f"sum {form_text(form)} in {set_text(s)}"
        elif form != ((AC, 1),):
            yield f"cell {form_text(form)} {set_text(s)}"
    for x, (k, links, steps) in sorted(fact.chains.items()):
        words = "".join(f" {kind} {operand:04o}" if kind != "word" else f" {operand:04o}" for kind, operand in steps)
        yield f"func {x:04o} {k:04o} link {link_text(links)}{words}"


def text(certificate):
    """The spelling of a certificate."""
    out = ["PDP8-CERTIFICATE 3"]
    for entry, line in sorted(certificate.routines.items()):
        out.append(f"routine {entry:04o} rank {line.rank:02o} sites {set_text(line.sites)} writes {set_text(line.writes)}")
    for at, facts in sorted(certificate.facts.items()):
        for fact in facts:
            out.append(f"fact {at:04o} sites {set_text(fact.sites)} ac {set_text(fact.set_of(AC))} mq {set_text(fact.mq)} "
                       f"link {link_text(fact.link)} offsets {offsets_text(fact.offsets)}")
            out += fact_lines(fact)
    for (entry, offset), facts in sorted(certificate.exits.items()):
        for fact in facts:
            out.append(f"exit {entry:04o} {offset:02o} sites {set_text(fact.sites)} ac {set_text(fact.set_of(AC))} "
                       f"mq {set_text(fact.mq)} link {link_text(fact.link)}")
            out += fact_lines(fact)
    return "".join(line + "\n" for line in out + ["end"])


# Reading --------------------------------------------------------------------------------------------------------

def members_of(written, empty=False):
    """The set that a text spells; a ValueError where it has another spelling."""
    runs = re.fullmatch(rf"-|{ADDRESS}(-{ADDRESS})?(,{ADDRESS}(-{ADDRESS})?)*", written)
    if not runs or (written == "-" and not empty) or any(run[:4] > run[-4:] for run in written.split(",")):
        raise ValueError(written)
    found = set_of(written)
    if set_text(found) != written:
        raise ValueError(written)
    return found


def offsets_of(written):
    if not re.fullmatch(r"-|[0-7]{2}(-[0-7]{2})?(,[0-7]{2}(-[0-7]{2})?)*", written):
        raise ValueError(written)
    return frozenset(sets.words(members_of(re.sub(r"\d\d", lambda word: "00" + word[0], written), True)))


def links_of(written):
    return frozenset(int(digit) for digit in written)


def term_of(written):
    numbers = tuple(int(word, 8) for word in re.findall(ADDRESS, written))
    return AC if written == "AC" else numbers if written[0] == "[" else numbers[0]


def form_of(written):
    """The form that a text spells; a ValueError where it has another spelling."""
    words, factors = written.split(" "), {"+": 1, "-": MINUS}
    pairs = [(term_of(words[0]), 1)]
    pairs += [(term_of(term), factors.get(c) or int(c, 8)) for c, term in zip(words[1::2], words[2::2])]
    form, _ = spelled(frozenset(dict(pairs).items())) or (None, 0)
    if form != tuple(pairs) or form_text(form) != written:
        raise ValueError(written)
    return form


def steps_of(written):
    found = []
    for kind, operand in re.findall(rf"(?:(AND|TAD) )?({ADDRESS})", written):
        if not kind and int(operand, 8) & 0o14 == 0o14:
            raise ValueError(operand)
        found.append((kind or "word", int(operand, 8)))
    return tuple(found)


class Reader:
    """What the lines of a text have said so far."""

    def __init__(self):
        self.found, self.under, self.last, self.below, self.counts = Certificate(), None, (), (), {}

    def line(self, written, number):
        """Takes a line that is not the last."""
        kind = written.split(" ")[0]
        parts_ = re.fullmatch(LINES[kind], written) if kind in LINES else None
        try:
            if not parts_ or (kind in LIMITS and self.under is None):
                raise ValueError(written)
            key, add, group = getattr(self, kind)(*parts_.groups())
        except ValueError:
            raise Fault(f"BadLine {number}") from None
        self.in_order(kind, key, number)
        self.counts[group] = self.counts.get(group, 0) + 1
        if self.counts[group] > LIMITS.get(kind, MOST):
            raise Fault("TooMany")
        add()

    def in_order(self, kind, key, number):
        if kind in LIMITS:
            if key <= self.below:
                raise Fault(f"Order {number}")
            self.below = key
        else:
            if key < self.last or (key == self.last and kind == "routine"):
                raise Fault(f"Order {number}")
            self.last, self.below = key, ()
            if kind != "routine":
                self.counts = {group: count for group, count in self.counts.items() if group not in LIMITS}

    def routine(self, entry, rank, sites, writes):
        line = Routine(int(rank, 8), members_of(sites, True), members_of(writes, True))
        return (0, int(entry, 8)), lambda: self.found.routines.update({int(entry, 8): line}), "routine"

    def fact_of(self, sites, ac, mq, link, offsets="-"):
        return Fact(members_of(mq), links_of(link), {((AC, 1),): members_of(ac)}, {}, offsets_of(offsets), members_of(sites, True))

    def begin(self, listed, key, fact):
        listed.setdefault(key, []).append(fact)
        self.under = fact

    def fact(self, at, *rest):
        fact, key = self.fact_of(*rest), int(at, 8)
        return (1, key), lambda: self.begin(self.found.facts, key, fact), ("fact", key)

    def exit(self, entry, offset, *rest):
        fact, key = self.fact_of(*rest), (int(entry, 8), int(offset, 8))
        return (2, *key), lambda: self.begin(self.found.exits, key, fact), ("exit", *key)

    def cell(self, cell, members):
        return self.relation(((int(cell, 8), 1),), members, "cell")

    def sum(self, terms, members):
        return self.relation(form_of(terms), members, "sum")

    def relation(self, form, members, group):
        fact, members = self.under, members_of(members)
        return form_key(form), lambda: fact.relations.update({form: members}), group

    def func(self, x, k, links, steps):
        chain = (int(k, 8), links_of(links), steps_of(steps))
        return (2, int(x, 8)), lambda: self.under.chains.update({int(x, 8): chain}), "func"


def read(written):
    """The certificate that a text spells, or a Fault."""
    lines = written.split("\n")
    if lines[0] != "PDP8-CERTIFICATE 3" or len(lines) < 2:
        raise Fault("Version")
    reader, length = Reader(), len(lines[0]) + 1
    for number, line in enumerate(lines[1:], 2):
        length += len(line) + 1
        if length > LONGEST:
            raise Fault("TooMany")
        if number == len(lines):
            raise Fault(f"BadLine {number}")
        if line == "end":
            break
        reader.line(line, number)
    if lines[number:] != [""]:
        raise Fault(f"BadLine {number + 1}")
    return reader.found


# Judging --------------------------------------------------------------------------------------------------------

def start_fact(image):
    """What is so at every start."""
    return Fact(relations={((cell, 1),): sets.one(word) for cell, word in image.items()})


class Judge(check.Judge):
    """The conditions at one address, by their numbers, where they are others than those on the versions before."""
    rules, last_site = facts3, 0o7776

    def __init__(self, image, declared, certificate):
        super().__init__(image, declared, certificate)
        self.places = {}

    def place(self, entry):
        if entry not in self.places:
            self.places[entry] = Place(self.image, self.declared, entry)
        return self.places[entry]

    def lands(self, fact, at, entry):
        """Where some state may satisfy it, a fact lands at an address of a routine's body."""
        place = self.place(entry)
        found, known = parts(fact, place), self.certificate.facts.get(at, [])
        return not found or (at in self.declared.body(entry) and all(lands_by(part, known, place, True) for part in found))

    def called(self, fact, at):
        return replace(super().called(fact, at), sites=sets.one(at))

    def abandoned(self, fact):
        return replace(super().abandoned(fact), sites=0)

    def narrowed(self, fact, place):
        return facts3.narrowed(fact, place)

    def returns_well(self, fact, offset, entry):
        """A fact lands among the exits of an offset."""
        place, known = self.place(entry), self.certificate.exits.get((entry, offset), [])
        return all(lands_by(part, known, place, False) for part in parts(fact, place))

    def holds_2(self, at):
        lines, facts, entry = self.certificate.routines, self.certificate.facts.get(at, []), self.owner(at)
        if at not in self.declared.routines and (at in lines or any(of == at for of, _ in self.certificate.exits)):
            return False
        if entry is None:
            return all(not fact.offsets and not fact.sites for fact in facts)
        return all(entry in lines and fact.offsets and fact.sites for fact in facts)

    def holds_14(self, written, fact, word, place, own):
        entries, entry = written & sets.of(self.declared.routines), place.entry
        counted = (entry is not None and word >> 9 == 2 and sets.only(written) == entry and 0o77 not in fact.offsets and
                   not facts3.values(fact, entry, place) >> 0o7777 & 1)
        moved = (entry is not None and word >> 9 == 3 and not word & 0o400 and sets.only(written) == entry and
                 entry in self.declared.moves and in_reach(fact))
        return not entries or counted or moved

    def holds_11(self, fact, at, callee, entry, line):
        return all(self.lands(facts3.joined(fact, known, line.writes), (at + 1 + offset) % 4096, entry)
                   for (of, offset), facts in self.certificate.exits.items() if of == callee
                   for known in facts if known.sites >> at & 1)

    def holds_12(self, fact, at, word, entry):
        return named_cell(word, at) == entry and all(
            offset in self.declared.offsets(entry) and self.returns_well(fact, offset, entry)
            for offset in fact.offsets)


def judge(image, declared, certificate):
    """None, or the first condition that fails and its address."""
    asked = Judge(image, declared, certificate)
    if declared.start not in certificate.facts or not asked.lands(start_fact(image), declared.start, None):
        return 1, declared.start
    for at in sorted({*certificate.routines, *certificate.facts, *(entry for entry, _ in certificate.exits)}):
        failed = asked.fails_at(at)
        if failed:
            return failed, at
    return None
