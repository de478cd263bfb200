"""Compares `pdp8 watch` with the watcher in reference/ on random programs, declarations and events: what
the two print, and what they say about a fault, must be the same to the byte.

usage: watcher.py PROGRAM FOLDER COUNT SEED. Files are made in FOLDER, and cases on which the two differ
are kept there.
"""
import random
import subprocess
import sys
from pathlib import Path

sys.path.insert(0, str(Path(__file__).parent.parent / "reference"))
import machine  # noqa: E402
import tape  # noqa: E402
import watch  # noqa: E402

# Main, two routines with a second page for one of them, variables and a table of constants.
MAIN, FIRST, SECOND = range(0o200, 0o212), range(0o221, 0o226), range(0o231, 0o236)
ENTRIES, VARIABLES, CONSTANTS = [0o220, 0o230], [0o10, 0o11, 0o240, 0o241, 0o242], [0o250, 0o251, 0o252, 0o253]
# Addresses of main to which a routine may jump.
LEFT_FOR = [0o200, 0o204]
OPERATES = [0o7000, 0o7200, 0o7300, 0o7001, 0o7040, 0o7041, 0o7240, 0o7650, 0o7640, 0o7440, 0o7410, 0o7604, 0o7402,
            0o7421, 0o7501, 0o7521, 0o7701, 0o7002, 0o7010, 0o7004, 0o7016, 0o7401]
DEVICES = [0o6011, 0o6012, 0o6014, 0o6016, 0o6021, 0o6026, 0o6031, 0o6036, 0o6041, 0o6046, 0o6001, 0o6030, 0o6040]
BROKEN_LINES = ["start 9", "main", "var 0300-0200", "sub 0300", "stop", "read 8", "profile 8a", "main 0-", "start",
                "variable 5", "sub 0300 body returns 0", "sub 300 body 301 returns 8", "step 5", "sub 300 body 301",
                "sub 300 body 301 returns 0 10", "pause 00200", "main 200 - 201", "start 0200 0201",
                "skips 0220", "skips 0220 100", "skips 300 1", "moves", "moves 0300", "moves 0220-0230", "abandon", "abandon 0221",
                "abandon 0200-0201", "holds 0300 ac 0", "holds ac 0", "holds 0200", "holds 0200 link 2", "holds 0200 ac 3-1",
                "holds 0200 cell 0010", "holds 0200 0201 ac", "returns 0300 ac 0", "returns ac 0", "returns 0220 100 ac 0"]


def reference(operation, cell, indirect=False):
    """A memory reference on the page 0200 or page zero."""
    return operation << 9 | (0o400 if indirect else 0) | (0o200 if cell > 0o177 else 0) | cell & 0o177


class Chance:
    """What is chosen at random."""

    def __init__(self, seed):
        self.numbers = random.Random(seed)

    def one(self, choices):
        return self.numbers.choice(choices)

    def share(self, share):
        return self.numbers.random() < share

    def word(self, body, entry):
        """A word that usually complies with the declaration."""
        kind = self.numbers.randrange(20)
        if kind < 4:
            return reference(1, self.one(VARIABLES + CONSTANTS))
        if kind < 8:
            return reference(self.one([2, 3]), self.one(VARIABLES + ([entry] if entry and self.share(0.3) else [])))
        if kind < 10:
            return reference(self.one([0, 1, 3]), self.one(VARIABLES[:3] + CONSTANTS + ENTRIES[:1]), True)
        if kind < 12:
            return reference(4, self.one(ENTRIES), self.share(0.1))
        if kind < 14:
            return reference(5, self.one(list(body)))
        if kind < 15 and entry:
            return reference(5, self.one([entry, entry, entry, *ENTRIES]), True)
        if self.share(0.3):
            return self.one(DEVICES[:10])
        return self.one(OPERATES[:12] if self.share(0.85) else OPERATES + DEVICES)

    def leaving(self, body, entry):
        """A word of a body; in a routine now and then a direct jump to an address of main for which an `abandon` line may allow it."""
        if entry and self.share(0.15):
            return reference(5, self.one(LEFT_FOR))
        return self.word(body, entry)

    def moving(self):
        """A call of the first routine, which stores a return word that it computes."""
        added = self.one([0o7001, 0o7000, 0o7001, reference(1, CONSTANTS[3])])
        words = [0o7200, reference(1, ENTRIES[0]), added, reference(3, *self.one([(ENTRIES[0], False)] * 4 + [(VARIABLES[2], True)]))]
        return {MAIN[1]: reference(4, ENTRIES[0]), MAIN[0]: 0o7000, VARIABLES[2]: ENTRIES[0], FIRST[4]: reference(5, ENTRIES[0], True)} | dict(zip(FIRST, words))

    def leaving_from_two(self):
        """A call of the first routine, which calls the second one, which jumps to an address of main."""
        return {MAIN[1]: reference(4, ENTRIES[0]), MAIN[0]: 0o7000, FIRST[0]: reference(4, ENTRIES[1]), SECOND[0]: self.one(OPERATES[:8]),
                SECOND[1]: reference(5, self.one(LEFT_FOR), self.share(0.1))}

    def image(self):
        image = {at: self.leaving(body, entry) for body, entry in ((MAIN, 0), (FIRST, ENTRIES[0]), (SECOND, ENTRIES[1]))
                 for at in body}
        for body, entry in ((FIRST, ENTRIES[0]), (SECOND, ENTRIES[1])):
            image[body[-1]] = reference(5, entry, True)
            image[entry] = 0
        image[MAIN[-1]] = self.one([0o7402, reference(5, MAIN[0])])
        data = [0o237, 0o250, 0o251, 0o252, 0o7775, 0o220, 0o230, 5]
        image |= {at: self.one(data) for at in VARIABLES[2:] + CONSTANTS}
        if self.share(0.4):
            image |= self.one([self.moving, self.leaving_from_two])()
        if self.share(0.3):
            at = self.one(sorted(image))
            image[at] = self.numbers.randrange(4096)
        return image

    def declaration(self, image):
        halts = [at for at in (*MAIN, *FIRST, *SECOND) if watch.is_halt(image[at]) and self.share(0.9)]
        lines = ["start 0200", f"main {MAIN[0]:o}-{MAIN[-1]:o}", "var 10 11 240-242"]
        lines += [f"{self.one(['stop', 'pause'])} {at:04o}" for at in halts]
        for entry, body in zip(ENTRIES, (FIRST, SECOND)):
            returns = " ".join(self.one(["0", "0", "0 1", "1 0", "0 1 2", "3", "0 0", ""]).split())
            lines.append(f"sub {entry:o} body {body[0]:o}-{body[3]:o} {body[-1]:o} returns {returns}".rstrip())
        lines += self.one([[], [], ["profile 8e"], ["profile 8i"]])
        lines += [line for line in self.further_lines() if self.share(0.35)]
        lines += self.one([[], [], ["read 0010-0011 220-257"], ["read 240-253", "read 10"], ["read 0-7777"], ["read"]])
        self.numbers.shuffle(lines)
        return self.joined(self.spoiled(lines))

    def subject(self):
        """What an assertion says: usually something that holds in most runs."""
        return self.one(["link 0", "link 1", "ac 0-3777", "ac 0-6000 7000-7777", "ac 0", "mq 0", "mq 0-7777", "cell 240 0-7776",
                         "cell 0010 0-777", "cell 250 237-253 5", "cell 220 0-3777", "cell 241 0"])

    def further_lines(self):
        """Lines about how routines return and about what must hold, each of which may be left out."""
        places = [f"{self.one([*MAIN, *FIRST, *SECOND]):04o}" for _ in range(self.one([1, 1, 2]))]
        offsets = self.one(["", "", " 0", " 0 1", " 77"])
        return [f"skips {self.one(ENTRIES):o} {self.one(['1', '1-3', '4 6', '10', '7-20', '0-77'])}",
                f"moves {self.one(['220', '220', '230', '220 230'])}",
                "abandon " + " ".join(f"{at:o}" for at in LEFT_FOR if self.share(0.7) or at == LEFT_FOR[0]),
                f"holds {' '.join(places)} {self.subject()}", f"returns {self.one(ENTRIES):o}{offsets} {self.subject()}"]

    def spoiled(self, lines):
        """The lines, sometimes with a fault."""
        if self.share(0.75):
            return lines
        if self.share(0.4):
            lines = [line for line in lines if not self.share(0.2)]
        for _ in range(self.one([0, 1, 1, 2])):
            extra = self.one([self.one(BROKEN_LINES), self.one(lines or ["start 0"]),
                              f"var {self.one([*MAIN, *ENTRIES]):o}", f"main {self.one([*FIRST, *ENTRIES]):o}",
                              f"stop {self.one([*MAIN, 0o300]):o}",
                              f"pause {self.one([*MAIN]):o}", "profile 8e", "start 0300", "sub 10 body 300 returns 0"])
            lines.insert(self.numbers.randrange(len(lines) + 1), extra)
        if self.share(0.05):
            lines += [f"sub {entry:o} body {entry + 1:o} returns"
                      for entry in range(0o1000, 0o1000 + 2 * self.one([62, 63, 64]), 2)]
        return lines

    def joined(self, lines):
        """A text of these lines."""
        text = ""
        for line in lines:
            text += self.one(["", "", " ", "\t"]) + line.replace(" ", self.one([" ", " ", "  ", "\t"]))
            text += self.one(["", "", " ", "/ a comment", " / 9"]) + self.one(["\n", "\n", "\n", "\r\n", "\n\n"])
        return (text if self.share(0.8) else text[:-1]).encode()

    def events(self):
        lines = []
        for _ in range(self.numbers.randrange(1, 40)):
            lines.append(self.one(["step", f"step {self.numbers.randrange(1, 30)}", "step 3", "printer", "punch",
                                   "continue", f"key {self.numbers.randrange(256):o}",
                                   f"reader {self.numbers.randrange(256):03o}",
                                   f"switches {self.numbers.randrange(4096):o}"]))
        if self.share(0.03):
            bad = ["step 0", "key", "key 400", "step -1", "reader 0001", "switches 10000", "Step", "step 1000001"]
            lines.insert(self.numbers.randrange(len(lines)), self.one(bad))
        return self.joined(lines)


def expected(image, declaration, events):
    """What is printed, and what is said about a fault."""
    try:
        declared = watch.declaration(declaration)
        broken, _ = watch.watch(image, declared, machine.events(events))
    except watch.BadDeclaration as fault:
        return "", f"pdp8: declaration: {fault}\n"
    except machine.BadEvents as fault:
        return "", f"pdp8: events: {fault}\n"
    return ("broken: event {} rule {}\n".format(*broken) if broken else "clean\n"), ""


def kind_of(printed, said):
    """What is counted at the end."""
    if said:
        return said.split()[2]
    return printed.split()[-2] + " " + printed.split()[-1] if "rule" in printed else printed.strip()


def main():
    program, folder, count, seed = sys.argv[1:]
    program, folder = str(Path(program).resolve()), Path(folder)
    kinds, differ = {}, 0
    for number in range(int(count)):
        chance = Chance(f"{seed} {number}")
        image = chance.image()
        texts = tape.written(image), chance.declaration(image), chance.events()
        paths = [folder / f"{number}.{end}" for end in ("bin", "declaration", "events")]
        for path, text in zip(paths, texts):
            path.write_bytes(text)
        wanted = expected(image, *texts[1:])
        kinds[kind_of(*wanted)] = kinds.get(kind_of(*wanted), 0) + 1
        ran = subprocess.run([program, "watch", *paths], capture_output=True, text=True)
        if wanted == (ran.stdout, ran.stderr):
            for path in paths:
                path.unlink()
        else:
            differ += 1
            print(f"{paths[0].with_suffix('')}: wanted {wanted}, found {(ran.stdout, ran.stderr)}")
    print(f"{count} cases: " + ", ".join(f"{kind} {times}" for kind, times in sorted(kinds.items())))
    print(f"{differ} differ" if differ else "the same verdicts and faults")
    return int(differ > 0)


if __name__ == "__main__":
    sys.exit(main())
