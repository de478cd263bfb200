"""Checks what `pdp8 check --why` says of forged certificates: by the reference in Python, every sentence must be true. The gate runs this.

usage: tests/reasons.py PDP8 [--count N] [--seed N] [--guess] [--wrong]

The certificates are forged as in verdicts.py, but with lines of every kind, from those of examples/ and tests/version3/ and, with --guess,
also from those that `guess` finds for the programs in the style of 1970. The verdict must be that of the reference. If it is no, each
sentence below it must be known here and true: the word that is shown is possible at the address by the fact that is shown, and violates the
condition; the cell, word, sum, offset, site or rank that is named is as it is said to be. Cases for which this is not so are kept, with the
commands that repeat them. From 1000 cases on, the sentences that none of them reached are listed. With --wrong, one number in each reason
is increased by 1 first, so that most reasons must be found to be wrong; those for which the next number is right, too, are not.
"""
import argparse
import collections
import re
import subprocess
import sys
import tempfile
from dataclasses import dataclass
from pathlib import Path

TOP = Path(__file__).resolve().parent.parent
sys.path.insert(0, str(TOP / "reference"))
import check  # noqa: E402
import check3  # noqa: E402
import facts3  # noqa: E402
import labels  # noqa: E402
import sets  # noqa: E402
import verdicts  # noqa: E402
from facts3 import AC, MINUS  # noqa: E402
from machine import is_supported, named_cell  # noqa: E402
from watch import is_halt  # noqa: E402


def octal(text):
    return int(text, 8)


# The parts of a sentence: an address or a word in four digits, an offset or a link, a word or a link, a number in decimal, and any text.
PARTS = {"A": ("([0-7]{4})", octal), "O": ("([0-7]{1,2})", octal), "W": ("([0-7]{1,4})", octal), "D": (r"(\d+)", int), "T": ("(.*)", str)}
# By kind, each sentence as a pattern, with what its parts are and the function that says whether it is true. A kind is the number of a
# condition, or what a part of a sentence speaks of.
SENTENCES = collections.defaultdict(dict)
REACHED = collections.Counter()


class Unknown(Exception):
    """A sentence that is not known."""


def says(kind, sentence):
    """That a function says whether a sentence is true."""
    def add(function):
        split = re.split(r"\{(\w)\}", sentence)
        pattern = "".join(PARTS[part][0] if at % 2 else re.escape(part) for at, part in enumerate(split))
        SENTENCES[kind][sentence] = re.compile(pattern), [PARTS[part][1] for part in split[1::2]], function
        return function
    return add


def is_true(kind, text, *known):
    """Whether a text of a kind is true by what is known."""
    for sentence, (pattern, parts, function) in SENTENCES[kind].items():
        found = pattern.fullmatch(text)
        if found:
            REACHED[kind, sentence] += 1
            return bool(function(*known, *(part(group) for part, group in zip(parts, found.groups()))))
    raise Unknown(f"{kind}: {text}")


def is_beyond(members, others, word):
    """A word is in the first set and not in the second."""
    return members >> word & ~(others >> word) & 1


# What tells a fact from others at its address ----------------------------------------------------------------------

says("mark", "for the call from {A}")(lambda fact, site: fact.sites == sets.one(site))
says("mark", "link {O}")(lambda fact, link: fact.link == {link})
says("mark", "AC = {A}")(lambda fact, word: fact.set_of(AC) == sets.one(word))
says("mark", "[{A}] = {A}")(lambda fact, cell, word: fact.set_of(cell) == sets.one(word))

# What is possible by the fact a and excluded by the fact b --------------------------------------------------------

says("gap", "AC may be {A}")(lambda a, b, place, word: is_beyond(a.narrowed(AC), b.set_of(AC), word))
says("gap", "MQ may be {A}")(lambda a, b, place, word: is_beyond(a.mq, b.mq, word))
says("gap", "the link may be {O}")(lambda a, b, place, link: link in a.link - b.link)
says("gap", "the routine may have been called from {A}")(lambda a, b, place, site: is_beyond(a.sites, b.sites, site))
says("gap", "the return word may be the return address plus {O}")(lambda a, b, place, offset: offset in a.offsets - b.offsets)
says("gap", "the cell {A} may hold {A}")(lambda a, b, place, cell, word: is_beyond(a.narrowed(cell), b.set_of(cell), word))


@says("gap", "while the cell {A} holds {A}, AC may be {A} with the link {O}")
def is_beside(a, b, place, cell, word, ac, link):
    possible = a.set_of(cell) >> word & 1 and a.set_of(AC) >> ac & 1 and link in a.link
    made = [(link, ac) in facts3.results(fact.chains[cell], word) for fact in (a, b) if cell in fact.chains]
    return possible and cell in b.chains and not made[-1] and all(made[:-1])


def added_text(word):
    return "" if word == 0 else f" + {word:04o}" if word < 0o4000 else f" - {4096 - word:04o}"


def term_text(term):
    """A term as a sentence names it."""
    if isinstance(term, tuple):
        return f"the word at [{term[0]:04o}]" + added_text(term[1]).replace(" ", "")
    return "AC" if term == AC else f"[{term:04o}]"


def sum_text(form):
    """A sum as a sentence names it."""
    signs = {1: " + ", MINUS: " - "}
    return "".join(signs.get(c, f" + {c:04o} * ") + term_text(term) for term, c in form).removeprefix(" + ")


@says("gap", "{T} may be {A}")
def may_be(a, b, place, text, word):
    return any(sum_text(form) == text and is_beyond(facts3.known(a, form, place), s, word % 4096) for form, s in b.relations.items())


says("gap", "{T} may equal {T}")(lambda a, b, place, one, other: may_be(a, b, place, f"{one} - {other}", 0))
says("gap", "{T} may be {A} more than {T}")(lambda a, b, place, one, by, other: may_be(a, b, place, f"{one} - {other}", by))
says("gap", "{T} may be {A} less than {T}")(lambda a, b, place, one, by, other: may_be(a, b, place, f"{one} - {other}", -by))

# Why a fact does not land -----------------------------------------------------------------------------------------


@dataclass
class Landing:
    """A fact, and others among which it must land in a place: those at an address, which may be outside the body, or the exit lines of an
    offset, with which offsets are not compared."""
    fact: object
    among: list
    place: object
    inside: bool = True
    offsets: bool = True

    def parts(self):
        """The parts that must land, each for itself."""
        return facts3.parts(self.fact, self.place) if isinstance(self.fact, facts3.Fact) else [self.fact]

    def under(self, link):
        """The part with a link, in version 3."""
        return next((part for part in self.parts() if isinstance(part, facts3.Fact) and part.link == {link}), None)


def lands(sentence):
    """That a function says whether a sentence on a landing is true, which may be one at an address or among exit lines."""
    def add(function):
        says("landing", sentence.replace("ONE", "the fact there").replace("ALL", "the facts there"))(function)
        return says("exit", sentence.replace("ONE", "the exit line").replace("ALL", "the exit lines"))(function)
    return add


says("landing", "there is no fact at the address reached")(lambda landing: landing.inside and not landing.among)
says("landing", "the address reached is not in the body")(lambda landing: not landing.inside)


@lands("if the link is {O}, {T}, which ONE excludes")
def is_excluded_under(landing, link, gap):
    part = landing.under(link)
    return part and len(landing.among) == 1 and is_true("gap", gap, part, landing.among[0], landing.place)


@lands("if the link is {O}, {T}, which none of ALL allows")
def is_taken_by_none(landing, link, text):
    part, (cell, word) = landing.under(link), re.fullmatch(r"(?:AC may be|the cell (\d{4}) may hold) (\d{4})", text).groups()
    name, word = octal(cell) if cell else AC, octal(word)
    return part and len(landing.among) > 1 and part.set_of(name) >> word & 1 and not any(
        facts3.taken(name, part, b, landing.place, landing.offsets) >> word & 1 for b in landing.among)


@lands("{T}, which ONE excludes")
def is_excluded(landing, gap):
    return not landing.under(0) and not landing.under(1) and len(landing.among) == 1 and is_true(
        "gap", gap, landing.fact, landing.among[0], landing.place)


@lands("ONE requires {T} = {T}, and this may be false")
def is_not_known(landing, left, right):
    fact, (b,) = landing.fact, landing.among
    equations = [(x, y, k) for x, y, k in b.equations - fact.equations if (term_text(x), term_text(y) + added_text(k)) == (left, right)]
    only = [(sets.only(fact.narrowed(x)), sets.only(fact.narrowed(y)), k) for x, y, k in equations]
    return any(None in (one, other) or one != (other + k) % 4096 for one, other, k in only)


@lands("none of ALL allows all that is possible")
def is_allowed_by_none(landing):
    return len(landing.among) > 1 and not all(
        facts3.lands_by(part, landing.among, landing.place, landing.offsets) for part in landing.parts())


# Why a condition fails --------------------------------------------------------------------------------------------


class Refused:
    """A condition that fails at an address of a certificate; and the fact, as it stands and narrowed, and the word of which the reason
    speaks."""

    def __init__(self, image, declared, certificate, number, at):
        self.third = isinstance(certificate, check3.Certificate)
        self.image, self.declared, self.certificate, self.number, self.at = image, declared, certificate, number, at
        self.judge = (check3 if self.third else check).Judge(image, declared, certificate)
        self.rules = self.judge.rules
        self.routines, self.entry = certificate.routines, self.judge.owner(at)
        self.place, self.own = self.judge.place(self.entry), self.routines.get(self.entry)
        self.claimed = self.fact = self.word = None

    def facts(self, at):
        return check.listed(self.certificate.facts, at)

    def exits(self, entry, offset):
        return check.listed(self.certificate.exits, (entry, offset))

    def is_so(self, lines, text):
        """The lines of a reason are true, and those of the fact that it shows are in the text of the certificate."""
        word = re.match(rf"{self.at:04o} ([0-7]{{4}}) ", lines[0])
        if word:
            self.word, lines = octal(word[1]), lines[1:]
        asked, reason, *shown = lines
        index, count, marks, reason = re.fullmatch(r"(?:fact (\d+) of (\d+) at this address((?:, [^:]*)?): )?(.*)", reason).groups()
        known = self.facts(self.at)
        facts = re.findall(rf"^fact {self.at:04o} .*\n(?:(?:cell|equal|sum|func) .*\n)*", text, re.M)
        index = int(index) - 1 if index else 0 if len(known) == 1 else None
        if index is not None:
            self.claimed = known[index]
            self.fact = self.judge.narrowed(self.claimed, self.place)
        return (asked.startswith(f"V{self.number} requires: ") and (self.word == self.image.get(self.at) or self.possible() >> self.word & 1) and
                shown == ([] if index is None else facts[index].splitlines()) and
                (count is None or 1 < int(count) == len(known)) and
                all(self.is_mark(mark, known) for mark in (marks or "").split(", ")[1:]) and is_true(self.number, reason, self))

    def is_mark(self, text, known):
        """The fact has a mark that another one lacks."""
        return is_true("mark", text, self.claimed) and not all(is_true("mark", text, fact) for fact in known)

    def possible(self):
        return self.rules.possible(self.fact, self.at, self.place) if self.fact else 0

    def violates(self):
        """The word is possible by the fact, and violates the condition."""
        possible = self.word is not None and self.possible() >> self.word & 1
        return possible and not self.judge.holds(self.number, self.fact, self.at, self.word, self.place)

    def writes(self, cell):
        """The word violates the condition and may write a cell."""
        return self.violates() and self.judge.cells_written(self.fact, self.at, self.word, self.place) >> cell & 1

    def names_own(self, operation, entry):
        """The word violates the condition and is this operation on the entry of its routine, not through a pointer."""
        return self.violates() and self.word >> 8 == operation << 1 and named_cell(self.word, self.at) == entry == self.entry

    def calls(self, entry):
        """The word violates the condition and is a JMS that may call an address."""
        return self.violates() and self.word >> 9 == 4 and self.rules.targets(self.fact, self.at, self.word, self.place)[1] >> entry & 1

    def returns(self, entry):
        """The word violates the condition and returns through an entry."""
        return self.violates() and self.judge.is_return(self.at, self.word) and named_cell(self.word, self.at) == entry

    def misses(self, text, fact, owner, at):
        """A fact does not land at an address of a routine's body, and a text says truly why."""
        landing = Landing(fact, self.facts(at), self.judge.place(owner), at in self.declared.body(owner))
        return landing.parts() and is_true("landing", text, landing)

    def denies(self, said, fact, subject, word):
        """By a fact the subject of an assertion may have a word that the assertion excludes."""
        name = {"AC": "ac", "MQ": "mq", "the link": "link"}.get(subject)
        if name is None:
            name = octal(subject)
            members = self.rules.values(fact, name, self.place)
        else:
            members = {"ac": fact.narrowed(AC), "mq": fact.mq, "link": sets.of(fact.link)}[name]
        return any(one.subject == name and is_beyond(members, sets.of(one.words), word) for one in said)


says(1, "there is no fact at this address")(lambda case: not case.facts(case.at))


@says(1, "at the start, {T}")
def is_no_start(case, text):
    cells = {cell: sets.one(word) for cell, word in case.image.items()}
    fact = check3.start_fact(case.image) if case.third else check.Fact(cells=cells)
    return case.at == case.declared.start and case.misses(text, fact, None, case.at)


@says(2, "a routine or exit line names this address, which is not an entry")
def is_no_entry(case):
    named = case.at in case.routines or any(entry == case.at for entry, _ in case.certificate.exits)
    return named and case.at not in case.declared.routines


says(2, "there is a fact at this address, which is not in any body")(lambda case: case.facts(case.at) and case.entry is False)
says(2, "the fact is in main's body but has the offset {O}")(lambda case, offset: case.entry is None and offset in case.claimed.offsets)
says(2, "the fact is in main's body but has sites")(lambda case: case.entry is None and case.third and case.claimed.sites)
says(2, "the fact is in the body of the routine {A} but has no offset")(
    lambda case, entry: case.entry == entry and not case.claimed.offsets)
says(2, "the fact is in the body of the routine {A} but has no sites")(
    lambda case, entry: case.entry == entry and case.third and not case.claimed.sites)
says(2, "the fact is in the body of the routine {A}, which has no routine line")(
    lambda case, entry: case.entry == entry and entry not in case.routines and case.facts(case.at))

says(3, "{D} words are possible")(lambda case, count: case.possible().bit_count() == count > 64)
says(3, "the machine does not implement this word")(
    lambda case: case.possible() >> case.word & 1 and not is_supported(case.word, case.declared.profile))


def ways_on(case, at):
    """The facts with which a run may go on at an address, each with the routine whose body this must be."""
    for outcome in case.rules.post(case.fact, case.at, case.word, case.place):
        if at in outcome.nexts and case.entry is not None and case.word >> 9 == 5 and at in case.declared.abandons:
            yield case.judge.abandoned(outcome.fact), None
        elif at in outcome.nexts:
            yield outcome.fact, case.entry


@says(4, "the run may continue at {A}, and {T}")
def does_not_land(case, at, text):
    return case.violates() and any([case.misses(text, fact, owner, at) for fact, owner in ways_on(case, at)])


@says(4, "the run may continue at {A}, which is in main's body: add `abandon {A}`")
def jumps_to_main(case, at, advised):
    ways = case.violates() and [Landing(fact, [], case.place).parts() for fact, owner in ways_on(case, at) if owner is not None]
    return any(ways) and case.word >> 9 == 5 and at == advised and at in case.declared.main


says(5, "it may write {A}, which is neither a variable nor an entry")(
    lambda case, cell: case.writes(cell) and cell not in case.declared.variables and cell not in case.declared.routines)
says(6, "it may write {A}, which is not in the routine's written set")(
    lambda case, cell: case.writes(cell) and cell != case.entry and not case.own.writes >> cell & 1)
says(7, "it calls through an auto-index cell")(
    lambda case: case.violates() and case.word >> 8 == 9 and 0o10 <= named_cell(case.word, case.at) <= 0o17)
says(7, "the JMS calls {A}, which is not an entry")(lambda case, entry: case.calls(entry) and entry not in case.declared.routines)
says(7, "the JMS calls {A}, which has no routine line")(
    lambda case, entry: case.calls(entry) and entry in case.declared.routines and entry not in case.routines)


@says(7, "the JMS calls {A}, whose rank {D} is not below the caller's rank {D}")
def is_not_lower(case, entry, rank, own):
    return case.calls(entry) and case.entry is not None and case.routines[entry].rank == rank >= own == case.own.rank


says(8, "the JMS calls {A}, which may write {A}, a cell that the caller's written set does not contain")(
    lambda case, entry, cell: case.calls(entry) and is_beyond(case.routines[entry].writes, case.own.writes, cell))
says(8, "the JMS calls {A}, which the caller's written set does not contain")(
    lambda case, entry: case.calls(entry) and not case.own.writes >> entry & 1)
says(8, "the JMS calls {A}, which may write the caller's entry")(
    lambda case, entry: case.calls(entry) and case.routines[entry].writes >> case.entry & 1)
says(9, "the JMS calls {A}, whose routine line does not list this address as a site")(
    lambda case, entry: case.calls(entry) and not case.routines[entry].sites >> case.at & 1)
says(9, "the JMS calls {A} from an address above {A}")(
    lambda case, entry, last: case.calls(entry) and case.at > last == case.judge.last_site)


@says(10, "the JMS calls {A} and continues after the entry: {T}")
def does_not_enter(case, entry, text):
    return case.calls(entry) and case.misses(text, case.judge.called(case.fact, case.at), entry, (entry + 1) % 4096)


@says(11, "the JMS calls {A}, which returns with offset {O}, according to exit line {D}: {T}")
def does_not_come_back(case, entry, offset, number, text):
    exits = case.exits(entry, offset)
    found = exits[number - 1] if 1 <= number <= len(exits) else None
    return case.calls(entry) and found and (not case.third or found.sites >> case.at & 1) and case.misses(
        text, case.rules.joined(case.fact, found, case.routines[entry].writes), case.entry, (case.at + 1 + offset) % 4096)


says(11, "the JMS calls {A}, which returns with offset {O}: {T}")(
    lambda case, entry, offset, text: not case.third and does_not_come_back(case, entry, offset, 1, text))

says(12, "it returns through {A}, which is not the entry of its own routine")(
    lambda case, entry: case.returns(entry) and entry != case.entry)


def returns_by(case, entry, offset):
    return case.returns(entry) and entry == case.entry and offset in case.fact.offsets


@says(12, "it returns through {A} with offset {O}, which is not declared")
def is_undeclared(case, entry, offset):
    return returns_by(case, entry, offset) and offset not in case.declared.offsets(entry)


says(12, "it returns through {A} with offset {O}, which is not declared: add `skips {A} {O}`")(
    lambda case, *named: named[:2] == named[2:] and named[1] > 7 and is_undeclared(case, *named[:2]))
says(12, "it returns through {A} with offset {O}, which has no exit line")(
    lambda case, entry, offset: returns_by(case, entry, offset) and (entry, offset) not in case.certificate.exits)


@says(12, "it returns through {A} with offset {O}: {T}")
def is_no_exit(case, entry, offset, text):
    landing = Landing(case.fact, case.exits(entry, offset), case.place, offsets=False)
    return returns_by(case, entry, offset) and is_true("exit", text, landing)


says(13, "it halts, and no halt is declared there")(lambda case: case.violates() and is_halt(case.word))
says(14, "it may write {A}, which is an entry")(lambda case, cell: case.writes(cell) and cell in case.declared.routines)
says(14, "it may increment {A}, the routine's own entry, past offset 7")(
    lambda case, entry: not case.third and case.names_own(2, entry) and 7 in case.fact.offsets)
says(14, "it may increment {A}, the routine's own entry, past offset 77 or past 7777")(
    lambda case, entry: case.third and case.names_own(2, entry))
says(14, "it may write {A}, the routine's own entry: add `moves {A}`")(
    lambda case, entry, advised: case.names_own(3, entry) and entry == advised and entry not in case.declared.moves)


@says(14, "it may store the word {A} in {A}, but the word there must be the return address of the call at {A} plus 0 to 77")
def moves_too_far(case, word, entry, site):
    sites = case.fact.sites if case.third else case.place.sites
    possible = sites >> site & 1 and case.fact.narrowed(AC) >> word & 1
    return case.names_own(3, entry) and possible and not site < word <= site + 0o100


@says(15, "it may read {A}, which is not on the list of reads")
def reads_unlisted(case, cell):
    read = case.violates() and case.judge.cells_read(case.fact, case.at, case.word, case.place)
    return read and read >> cell & 1 and cell != case.entry and cell not in case.declared.reads


says(16, "{T} may be {W}, which a `holds` line excludes")(
    lambda case, subject, word: case.violates() and case.denies(case.declared.held_at(case.at), case.fact, subject, word))


@says(16, "when it returns with offset {O} by exit line {D}, {T} may be {W}, which a `returns` line excludes")
def exit_denies(case, offset, number, subject, word):
    exits, case.place = case.exits(case.at, offset), case.judge.place(case.at)
    fact = case.judge.narrowed(exits[number - 1], case.place) if 1 <= number <= len(exits) else None
    return fact and case.denies(case.declared.held_by(case.at, offset), fact, subject, word)


says(16, "when it returns with offset {O}, {T} may be {W}, which a `returns` line excludes")(
    lambda case, offset, subject, word: not case.third and exit_denies(case, offset, 1, subject, word))


# The cases -------------------------------------------------------------------------------------------------------


LINES = re.compile(r"^(?:routine|fact|exit) .*\n(?:(?:cell|equal|sum|func) .*\n)*", re.M)


def in_order(text):
    """A certificate with its lines in their order."""
    kinds = ("routine", "fact", "exit")
    lines = sorted(LINES.findall(text), key=lambda line: (kinds.index(line.split()[0]), line.split()[1:2 + line.startswith("exit")]))
    return text[:text.index("\n") + 1] + "".join(lines) + "end\n"


class Forger(verdicts.Changes):
    """Changes as in verdicts.py, and others, by which each kind of line is changed as often."""

    def changed_line(self, text):
        """A certificate in which a line of some kind is left out, or has another digit or set."""
        lines = text.splitlines(True)
        kind = self.one(sorted({line.split()[0] for line in lines[1:-1]}))
        at = self.one(at for at, line in enumerate(lines) if line.startswith(kind))
        change = self.one([lambda _: "", self.with_a_digit, self.with_a_set if verdicts.SET.search(lines[at]) else self.with_a_digit])
        return in_order("".join([*lines[:at], change(lines[at]), *lines[at + 1:]]))

    def changed_image(self, image):
        """A tape on which a word is any other word, or a memory reference that names the cell of another one, or an auto-index cell."""
        at, other = self.one(image), self.one(image)
        cell = self.one([named_cell(image[other], other), named_cell(image[other], other), 0o10])
        if self.numbers.random() < 0.3 or 0o200 <= cell != at & 0o7600 | cell & 0o177:
            return super().changed_image(image)
        return image | {at: self.numbers.randrange(12) << 8 | (cell >= 0o200) << 7 | cell & 0o177}

    def changed_certificate(self, text):
        for _ in range(self.one([1, 1, 2, 3])):
            text = self.changed_line(text)
        return text if self.numbers.random() < 0.7 else super().changed_certificate(text)

    def well_formed(self, known):
        """A program with its declaration and certificate, changed, where the certificate has its form."""
        while True:
            name, *parts = self.one(known)
            parts = self.changed(*parts)
            if verdicts.declaration_of(parts[1]) and verdicts.certificate_of(parts[2]):
                return name, *parts


def guessed(program):
    """The programs in the style of 1970 for which `guess` finds a certificate: name, words of the tape, declaration and certificate."""
    for source in sorted((TOP / "tests").glob("style-of-1970*/*.pal")):
        ran = subprocess.run([program, "guess", "--source", source, "-o", "-"], capture_output=True, text=True)
        if ran.returncode == 0:
            yield source.stem, *labels.program(source.read_bytes()), ran.stdout


def with_a_wrong_number(text, changes):
    """What the program says, with one number of the reason increased by 1."""
    def more(number):
        return f"{octal(number) + 1:0{len(number)}o}"[-len(number):]
    return re.sub(r"( requires: .*\n)(.*)", lambda found: found[1] + changes.in_a_line(found[2], r"\b([0-7]+)\b", more), text)


def what_is_wrong(image, declaration, certificate, said):
    """What is wrong in what the program says about a certificate, or None."""
    first, *lines = said.splitlines()
    wanted = verdicts.verdict(image, declaration, certificate)
    if first != wanted:
        return f"{first} where {wanted} is wanted"
    if not wanted.startswith("no: "):
        return None
    number, at = re.fullmatch(r"no: V(\d+) at (\d{4})", wanted).groups()
    case = Refused(image, verdicts.declaration_of(declaration), verdicts.certificate_of(certificate), int(number), octal(at))
    try:
        return None if case.is_so(lines, certificate) else "the reason is wrong"
    except (Unknown, AttributeError, LookupError, TypeError, ValueError) as fault:
        return f"not understood: {fault!r}"


def said(program, case):
    """What the program says: a verdict and its reason, or the kind of a fault."""
    ran = subprocess.run([program, "check", "--why", case.tape, case.declaration, case.certificate], capture_output=True, text=True, timeout=120)
    return ran.stdout or ran.stderr.removeprefix("pdp8: ").split(":")[0]


def arguments():
    parser = argparse.ArgumentParser(description=__doc__, formatter_class=argparse.RawDescriptionHelpFormatter)
    parser.add_argument("program", metavar="PDP8", type=lambda name: Path(name).resolve())
    parser.add_argument("--count", type=int, default=300)
    parser.add_argument("--seed", type=int, default=8)
    parser.add_argument("--guess", action="store_true")
    parser.add_argument("--wrong", action="store_true")
    return parser.parse_args()


def main():
    asked, folder = arguments(), Path(tempfile.mkdtemp())
    changes, kinds, wrong = Forger(asked.seed), collections.Counter(), []
    known = verdicts.programs(TOP / "examples") + verdicts.programs(TOP / "tests/version3") + (list(guessed(asked.program)) if asked.guess else [])
    for number in range(asked.count):
        name, *parts = changes.well_formed(known)
        case = verdicts.Case(folder / f"{number:06}-{name}", *parts, [])
        told = said(asked.program, case)
        kinds[re.split(" at |: .* cells|\n", told)[0]] += 1
        told = with_a_wrong_number(told, changes) if asked.wrong else told
        fault = what_is_wrong(*parts, told)
        if fault:
            wrong.append(f"pdp8 check --why {case.tape} {case.declaration} {case.certificate}: {fault}\n{told}")
        if not fault or asked.wrong:
            case.forget()
    if not any(folder.iterdir()):
        folder.rmdir()
    print("\n".join(wrong[:20]), end="\n" * bool(wrong))
    print(", ".join(f"{kind} {times}" for kind, times in sorted(kinds.items())))
    unreached = [f"{kind}: {sentence}" for kind, known in SENTENCES.items() for sentence in known if (kind, sentence) not in REACHED]
    print(f"sentences that no case reached: {len(unreached)}", *(unreached if asked.count >= 1000 else []), sep="\n  ")
    print(f"{asked.count} forged certificates of {len(known)} programs, {len(wrong)} with a wrong reason or verdict")
    return int(bool(wrong))


if __name__ == "__main__":
    sys.exit(main())
