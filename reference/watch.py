"""A second watcher: declarations and the eight rules, written from their description alone, for comparing."""
from dataclasses import dataclass, field

from machine import World, access, is_supported, lines_of, octal


class BadDeclaration(Exception):
    """A declaration is refused."""


@dataclass
class Assertion:
    """What is to hold: of a subject (`ac`, `mq`, `link`, or the address of a cell) that it has one of some words, at
    some places, or where `entry` is not None when its routine returns by one of some offsets."""
    subject: object
    words: set
    places: set = None
    entry: int = None
    offsets: set = None


@dataclass
class Declaration:
    """What a declaration says. Routines are a dictionary from entries to pairs of a body and offsets; `reads` is None
    where there is no list of reads; `skips` has pairs of an entry and further offsets."""
    start: int = None
    profile: str = None
    main: set = field(default_factory=set)
    routines: dict = field(default_factory=dict)
    variables: set = field(default_factory=set)
    stops: set = field(default_factory=set)
    pauses: set = field(default_factory=set)
    reads: set = None
    skips: list = field(default_factory=list)
    moves: set = field(default_factory=set)
    abandons: set = field(default_factory=set)
    asserted: list = field(default_factory=list)

    def offsets(self, entry):
        """The offsets by which a routine may return."""
        return self.routines[entry][1].union(*(offsets for of, offsets in self.skips if of == entry))

    def held_at(self, at):
        """What is to hold at an address."""
        return [said for said in self.asserted if said.entry is None and at in said.places]

    def held_by(self, entry, offset):
        """What is to hold when a routine returns by an offset."""
        return [said for said in self.asserted if said.entry == entry and offset in said.offsets]

    def body(self, entry):
        """The body of a routine, of main where there is none."""
        return self.main if entry is None else self.routines[entry][0]


def cells(words):
    """The cells of some ranges."""
    found = set()
    for word in words:
        ends = [octal(end, 0o7777, 4) for end in word.split("-")]
        if len(ends) > 2 or ends[0] > ends[-1]:
            raise ValueError(word)
        found |= set(range(ends[0], ends[-1] + 1))
    return found


def one_or_more(words):
    if not words:
        raise ValueError("none")
    return words


SUBJECTS = ("ac", "mq", "link", "cell")


def address(word):
    return octal(word, 0o7777, 4)


def offsets_in(found):
    """The numbers, if each of them is an offset, 0 to 77."""
    if any(offset > 0o77 for offset in found):
        raise ValueError(found)
    return found


def assertion(words, **where):
    """An assertion by the name of its subject and the words after it."""
    name, rest = words[0], words[1:]
    if name == "link":
        if rest not in (["0"], ["1"]):
            raise ValueError(rest)
        return Assertion("link", {int(rest[0])}, **where)
    if name == "cell":
        return Assertion(address(one_or_more(rest)[0]), cells(one_or_more(rest[1:])), **where)
    return Assertion(name, cells(one_or_more(rest)), **where)


def add_further(found, name, rest):
    """Adds what a line says on how routines return, or on what is to hold."""
    if name == "skips" and rest:
        entry, offsets = address(rest[0]), offsets_in(cells(one_or_more(rest[1:])))
        if len(found.skips) == 64:
            raise BadDeclaration("TooMany")
        found.skips.append((entry, offsets))
    elif name in ("moves", "abandon"):
        named = {address(word) for word in one_or_more(rest)}
        (found.moves if name == "moves" else found.abandons).update(named)
    elif name in ("holds", "returns"):
        subjects = [place for place, word in enumerate(rest) if word in SUBJECTS]
        if not subjects:
            raise ValueError(rest)
        before, after = rest[:subjects[0]], rest[subjects[0]:]
        if name == "holds":
            said = assertion(after, places={address(word) for word in one_or_more(before)})
        else:
            entry, *named = one_or_more(before)
            named = {address(word) for word in named} or set(range(64))
            said = assertion(after, entry=address(entry), offsets=offsets_in(named))
        if len(found.asserted) == 256:
            raise BadDeclaration("TooMany")
        found.asserted.append(said)
    else:
        raise ValueError(name)


def add_line(found, twice, words):
    """Adds what one line says; `twice` notes entries that came before."""
    name, rest = words[0], words[1:]
    if name == "start" and len(rest) == 1:
        start = octal(rest[0], 0o7777, 4)
        if found.start is not None:
            raise BadDeclaration("TwoStarts")
        found.start = start
    elif name == "profile" and rest in (["8i"], ["8e"]):
        if found.profile is not None:
            raise BadDeclaration("TwoProfiles")
        found.profile = rest[0]
    elif name == "main":
        found.main |= cells(one_or_more(rest))
    elif name == "var":
        found.variables |= cells(one_or_more(rest))
    elif name in ("stop", "pause"):
        (found.stops if name == "stop" else found.pauses).update(octal(word, 0o7777, 4) for word in one_or_more(rest))
    elif name == "read":
        found.reads = (found.reads or set()) | cells(rest)
    elif name == "sub" and rest[1:2] == ["body"] and "returns" in rest:
        middle = rest.index("returns")
        entry, body = octal(rest[0], 0o7777, 4), cells(one_or_more(rest[2:middle]))
        offsets = {octal(word, 7, 1) for word in rest[middle + 1:]}
        if len(found.routines) + len(twice) == 64:
            raise BadDeclaration("TooMany")
        if entry in found.routines:
            twice.append(entry)
        else:
            found.routines[entry] = (body, offsets)
    else:
        add_further(found, name, rest)


def check(found, twice):
    """Asks what is asked of a declaration as a whole."""
    bodies = [found.main] + [body for body, _ in found.routines.values()]
    everywhere = set().union(*bodies)
    if found.start is None:
        raise BadDeclaration("NoStart")
    shared = {cell for cell in everywhere if sum(cell in body for body in bodies) > 1}
    entries = set(found.routines)
    overlap = shared | set(twice) | (entries & (everywhere | found.variables)) | (found.stops & found.pauses)
    if overlap:
        raise BadDeclaration(f"Overlap {min(overlap):04o}")
    stepped = [entry for entry in entries if 0o10 <= entry <= 0o17]
    if stepped:
        raise BadDeclaration(f"EntryInAutoIndex {min(stepped):04o}")
    if found.start not in found.main:
        raise BadDeclaration("StartNotInMain")
    outside = (found.stops | found.pauses) - everywhere
    if outside:
        raise BadDeclaration(f"HaltNotInBody {min(outside):04o}")
    named = {entry for entry, _ in found.skips} | found.moves
    named |= {said.entry for said in found.asserted if said.entry is not None}
    held = set().union(*(said.places for said in found.asserted if said.entry is None))
    misplaced = (named - entries) | (found.abandons - found.main) | (held - everywhere)
    if misplaced:
        raise BadDeclaration(f"Misplaced {min(misplaced):04o}")


def declaration(text):
    """The declaration that a text spells."""
    if len(text) > 16384:
        raise BadDeclaration("TooMany")
    found, twice = Declaration(), []
    for number, words in lines_of(text):
        try:
            add_line(found, twice, words)
        except ValueError:
            raise BadDeclaration(f"BadLine {number}") from None
        except BadDeclaration as fault:
            raise BadDeclaration(f"{fault} {number}" if str(fault) != "TooMany" else "TooMany") from None
    check(found, twice)
    found.profile = found.profile or "8i"
    return found


def broken_rule(world, declared, calls):
    """The least rule that the next step breaks, or None."""
    at = world.pc
    word = world.memory[at]
    entry, back = calls[-1] if calls else (None, None)
    if at not in declared.body(entry) or not is_supported(word, declared.profile):
        return 1
    done, operation = access(world.memory, at), word >> 9
    for cell in done.writes:
        moves = operation == 3 and not word & 0o400 and cell in declared.moves
        own = (operation == 2 or moves) and cell == entry and cell == done.place
        if cell not in declared.variables and not own:
            return 2
    if operation == 4 and done.place not in declared.routines:
        return 3
    if returns(done, word, declared):
        offsets = declared.offsets(done.named)
        if done.named != entry or done.place not in {(back + offset) % 4096 for offset in offsets}:
            return 4
    if is_halt(word) and at not in declared.stops | declared.pauses:
        return 5
    if declared.reads is not None and any(cell not in declared.reads and cell != entry for cell in done.reads):
        return 7
    asserted = declared.held_at(at)
    if returns(done, word, declared):
        asserted += declared.held_by(entry, (done.place - back) % 4096)
    if not all(word_of(said.subject, world) in said.words for said in asserted):
        return 8
    return None


def word_of(subject, world):
    """The word of which an assertion speaks."""
    if isinstance(subject, int):
        return world.memory[subject]
    return {"ac": world.ac, "mq": world.mq, "link": world.link}[subject]


def is_halt(word):
    return word & 0o7403 == 0o7402


def returns(done, word, declared):
    """The word is a JMP I through an entry."""
    return word >> 9 == 5 and bool(word & 0o400) and done.named in declared.routines


def watch(image, declared, happening, **start):
    """(event, rule) of the first illegal step, or None; and the world after the run."""
    world = World(image, declared.start, declared.profile, **start)
    calls = []
    for number, event in enumerate(happening):
        if event[0] == "continue" and world.halted_at in declared.stops:
            continue
        if event[0] == "step" and world.halted_at is None:
            rule = broken_rule(world, declared, calls)
            if rule:
                return (number, rule), world
            word, done = world.memory[world.pc], access(world.memory, world.pc)
            if word >> 9 == 4:
                calls.append((done.place, (world.pc + 1) % 4096))
            elif returns(done, word, declared):
                calls.pop()
            elif word >> 9 == 5 and done.place in declared.abandons:
                calls.clear()
        world.apply(event)
    return None, world
