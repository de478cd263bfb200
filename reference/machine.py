"""A second PDP-8 with its devices, written from the machine's description alone, for comparing.

A `World` is the machine and its devices; `World.apply(event)` makes one event happen. Events are
tuples: ("step",), ("key", byte), ("printer",), ("reader", byte), ("punch",), ("switches", word)
and ("continue",).
"""
from dataclasses import dataclass

DEVICE_WORDS = {0o6002, 0o6011, 0o6012, 0o6014, 0o6016, 0o6021, 0o6022, 0o6024, 0o6026, 0o6031, 0o6032, 0o6034,
                0o6036, 0o6041, 0o6042, 0o6044, 0o6046}
DEVICE_WORDS_8E = DEVICE_WORDS | {0o6030, 0o6040}
MQ_WORDS = {0o7421, 0o7501, 0o7521, 0o7621, 0o7701, 0o7721}


class BadEvents(Exception):
    """A text of events is refused."""


def is_supported(word, profile):
    """The machine of a profile has this word."""
    if word < 0o6000:
        return True
    if word < 0o7000:
        return word in (DEVICE_WORDS_8E if profile == "8e" else DEVICE_WORDS)
    if word < 0o7400:
        rotates = word & 0o14
        return rotates != 0o14 and (rotates != 0 or not word & 2 or profile == "8e")
    return not word & 1 or (profile == "8e" and word in MQ_WORDS)


def named_cell(word, at):
    """The cell that a memory reference at an address names."""
    return (at & 0o7600 if word & 0o200 else 0) | word & 0o177


@dataclass
class Access:
    """What a word does to memory: the cells that it reads, those that it writes (the cell of a JMS apart), its
    named cell, whether that is a pointer in 0010 to 0017 which is stepped, and its effective address. A word that
    is no memory reference has neither cell nor address."""
    reads: list
    writes: list
    named: int = None
    steps: bool = False
    place: int = None


def access(memory, at):
    """What the word at an address does to memory."""
    word = memory[at]
    if word >= 0o6000:
        return Access([], [])
    named, operation, indirect = named_cell(word, at), word >> 9, bool(word & 0o400)
    steps = indirect and 0o10 <= named <= 0o17
    place = (memory[named] + steps) % 4096 if indirect else named
    reads = [named] * indirect + [place] * (operation in (0, 1, 2))
    writes = [named] * steps + [place] * (operation in (2, 3))
    return Access(reads, writes, named, steps, place)


def group1(word, ac, link):
    if word & 0o200:
        ac = 0
    if word & 0o100:
        link = 0
    if word & 0o40:
        ac ^= 0o7777
    if word & 0o20:
        link ^= 1
    ring = (link << 12 | ac) + (word & 1)
    ring %= 0o20000
    if word & 0o16 == 2:
        return (ring & 0o77) << 6 | ring >> 6 & 0o77, ring >> 12
    for _ in range(2 if word & 2 else 1):
        if word & 0o10:
            ring = ring >> 1 | (ring & 1) << 12
        if word & 0o4:
            ring = ring << 1 & 0o17777 | ring >> 12
    return ring & 0o7777, ring >> 12


def skips(word, ac, link):
    holds = bool(word & 0o100 and ac & 0o4000 or word & 0o40 and ac == 0 or word & 0o20 and link)
    return holds != bool(word & 0o10)


def group3(word, ac, mq):
    if word & 0o200:
        ac = 0
    if word == 0o7621:
        return 0, 0
    if word & 0o120 == 0o120:
        return mq, ac
    if word & 0o20:
        return 0, ac
    if word & 0o100:
        return ac | mq, mq
    return ac, mq


class World:
    """The machine, its devices, the switches, both outputs, the HLT at which it stands (None while it runs), and
    whether its last step met an unsupported word."""

    def __init__(self, image, start=0o200, profile="8i", memory=None, ac=0, link=0, mq=0):
        self.memory = list(memory) if memory else [0] * 4096
        for at, word in image.items():
            self.memory[at] = word
        self.profile, self.pc, self.ac, self.link, self.mq = profile, start, ac, link, mq
        self.switches, self.halted_at, self.stuck, self.steps = 0, None, False, 0
        self.flags = {"keyboard": False, "printer": False, "reader": False, "punch": False}
        self.pending = {"printer": False, "reader": False, "punch": False}
        self.buffers = {"keyboard": 0, "reader": 0}
        self.printed, self.punched = [], []

    def apply(self, event):
        """Makes an event happen; an event that isn't enabled changes nothing."""
        kind = event[0]
        if kind == "step":
            if self.halted_at is None:
                self.stuck = not is_supported(self.memory[self.pc], self.profile)
                if not self.stuck:
                    self.step()
        elif kind == "key":
            self.buffers["keyboard"], self.flags["keyboard"] = event[1], True
        elif kind == "switches":
            self.switches = event[1]
        elif kind == "continue":
            self.halted_at = None
        elif self.pending[kind]:
            self.pending[kind], self.flags[kind] = False, True
            if kind == "reader":
                self.buffers["reader"] = event[1]

    def step(self):
        """One instruction."""
        self.steps += 1
        at, word = self.pc, self.memory[self.pc]
        self.pc = (at + 1) % 4096
        if word < 0o6000:
            self.reference(at, word >> 9)
        elif word < 0o7000:
            self.device(word)
        elif word < 0o7400:
            self.ac, self.link = group1(word, self.ac, self.link)
        elif word & 1:
            self.ac, self.mq = group3(word, self.ac, self.mq)
        else:
            self.skip_if(skips(word, self.ac, self.link))
            if word & 0o200:
                self.ac = 0
            if word & 4:
                self.ac |= self.switches
            if word & 2:
                self.halted_at = at

    def skip_if(self, condition):
        if condition:
            self.pc = (self.pc + 1) % 4096

    def reference(self, at, operation):
        done = access(self.memory, at)
        place = done.place
        if done.steps:
            self.memory[done.named] = place
        if operation == 0:
            self.ac &= self.memory[place]
        elif operation == 1:
            total = self.ac + self.memory[place]
            self.ac, self.link = total % 4096, self.link ^ total >> 12
        elif operation == 2:
            self.memory[place] = (self.memory[place] + 1) % 4096
            self.skip_if(self.memory[place] == 0)
        elif operation == 3:
            self.memory[place], self.ac = self.ac, 0
        elif operation == 4:
            self.memory[place], self.pc = self.pc, (place + 1) % 4096
        else:
            self.pc = place

    def device(self, word):
        if word in (0o6011, 0o6021, 0o6031, 0o6041):
            self.skip_if(self.flags[{1: "reader", 2: "punch", 3: "keyboard", 4: "printer"}[word >> 3 & 7]])
        elif word in (0o6012, 0o6014, 0o6016):
            if word & 2:
                self.ac |= self.buffers["reader"]
            self.flags["reader"] = False
            if word & 4:
                self.buffers["reader"], self.pending["reader"] = 0, True
        elif word in (0o6022, 0o6024, 0o6026):
            self.put("punch", self.punched, word)
        elif word in (0o6042, 0o6044, 0o6046):
            self.put("printer", self.printed, word)
        elif word in (0o6030, 0o6032, 0o6034, 0o6036):
            if word & 2:
                self.ac = 0
            if word & 4:
                self.ac |= self.buffers["keyboard"]
            if word & 2 or word == 0o6030:
                self.flags["keyboard"] = False
        elif word == 0o6040:
            self.flags["printer"] = True

    def put(self, name, output, word):
        if word & 2:
            self.flags[name] = False
        if word & 4:
            output.append(self.ac & 0o377)
            self.pending[name] = True

    def summary(self):
        """What `pdp8 run` prints at the end."""
        if self.halted_at is not None:
            state, place = "HALT", self.halted_at
        else:
            state, place = "UNSUPPORTED" if self.stuck else "BOUND", self.pc
        text = f"{state} {place:04o} AC={self.ac:04o} L={self.link} PC={self.pc:04o} STEPS={self.steps}\n"
        for name, output in (("PRINTED", self.printed), ("PUNCHED", self.punched)):
            if output:
                text += name + "".join(f" {byte:03o}" for byte in output) + "\n"
        return text


def lines_of(text):
    """The lines of a text of words: number and words of each line that has any."""
    lines = text.decode("latin-1").split("\n")
    ended = [line[:-1] if line.endswith("\r") else line for line in lines[:-1]]
    for number, line in enumerate(ended + lines[-1:], 1):
        words = line.split("/")[0].replace("\t", " ").split(" ")
        words = [word for word in words if word]
        if words:
            yield number, words


def octal(text, most, digits):
    """A number of so many octal digits at most."""
    if not 1 <= len(text) <= digits or any(digit not in "01234567" for digit in text) or int(text, 8) > most:
        raise ValueError(text)
    return int(text, 8)


def event_of(words):
    """The event that a line spells, and how often."""
    name, rest = words[0], words[1:]
    if name == "step" and len(rest) <= 1:
        if rest and not (rest[0].isascii() and rest[0].isdigit() and 1 <= int(rest[0]) <= 1000000):
            raise ValueError("count")
        return ("step",), int(rest[0]) if rest else 1
    if name in ("printer", "punch", "continue") and not rest:
        return (name,), 1
    if name in ("key", "reader") and len(rest) == 1:
        return (name, octal(rest[0], 0o377, 3)), 1
    if name == "switches" and len(rest) == 1:
        return (name, octal(rest[0], 0o7777, 4)), 1
    raise ValueError(name)


def events(text):
    """The events of a text."""
    if len(text) > 65536:
        raise BadEvents("TooMany")
    found = []
    for number, words in lines_of(text):
        try:
            event, times = event_of(words)
        except ValueError:
            raise BadEvents(f"BadLine {number}") from None
        if len(found) + times > 1000000:
            raise BadEvents("TooMany")
        found += [event] * times
    return found


def run(world, happening):
    """Lets these events happen, up to a step at an unsupported word."""
    for event in happening:
        world.apply(event)
        if world.stuck:
            break
    return world
