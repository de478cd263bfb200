"""Compares the verdicts of `pdp8 check` with those of the checkers in reference/ on the programs of examples/ or tests/version3, each
with one change: a line of the certificate is left out, a set has one word more or less, or there is another digit, rank, site, offset,
link, equation or coefficient, another version, another word on the tape, or another declaration. The line of a yes or a no must be the
same, and if one of the two refuses a certificate or a declaration as malformed, the other must refuse it, too. If a case is accepted,
a run with random events from a random start is watched, which must not violate a rule.

usage: verdicts.py PROGRAM EXAMPLES FOLDER COUNT SEED. Files are made in FOLDER, and cases on which the two differ are kept there.
"""
import collections
import random
import re
import subprocess
import sys
from functools import lru_cache
from pathlib import Path

sys.path.insert(0, str(Path(__file__).parent.parent / "reference"))
import check as judge  # noqa: E402
import check3  # noqa: E402
import labels  # noqa: E402
import pal  # noqa: E402
import sets  # noqa: E402
import tape  # noqa: E402
import watch  # noqa: E402

SET = re.compile(r"(?<=(?:ac|mq|es|in) )[-0-7,]+|(?<=^cell \d{4} )[-0-7,]+", re.M)
DIGIT = re.compile(r"[0-7]")


def is_sound(certificate):
    """The lines have their form: no set of AC, MQ or a cell is empty, the link is 0 or 1, the first name of an equation comes
    before the second, no two equations have the same names, and no number is above its limit."""
    facts = [*certificate.facts.values(), *certificate.exits.values()]
    pairs = [[(x, y) for x, y, _ in fact.equations] for fact in facts]
    return (certificate.version in (1, 2) and len(certificate.routines) <= 64 and
            all(fact.ac and fact.mq and fact.link <= {0, 1} and all(fact.cells.values()) and len(fact.cells) <= 64 for fact in facts) and
            all(len(set(two)) == len(two) <= 32 and all(x < y for x, y in two) for two in pairs))


def is_third(text):
    """A text says that it has version 3."""
    return text.startswith("PDP8-CERTIFICATE 3\n")


@lru_cache(2)
def certificate_of(text):
    """The certificate that a text spells, or None if it spells none."""
    if is_third(text):
        try:
            return check3.read(text)
        except check3.Fault:
            return None
    if any(first >= last for first, last in re.findall(r"(\d{4})-(\d{4})", text)):
        return None
    try:
        found = judge.parse(text)
    except (ValueError, IndexError, KeyError, AttributeError):
        return None
    return found if is_sound(found) and judge.text(found) == text else None


@lru_cache(2)
def declaration_of(text):
    try:
        return watch.declaration(text.encode())
    except watch.BadDeclaration:
        return None


class Changes:
    """Random changes: each takes and returns the words of the tape, the text of the declaration and that of the certificate."""

    def __init__(self, seed):
        self.numbers = random.Random(seed)

    def one(self, choices):
        return self.numbers.choice(list(choices))

    def without_a_line(self, text):
        lines = text.splitlines(True)
        del lines[self.numbers.randrange(len(lines))]
        return "".join(lines)

    def with_a_digit(self, text):
        place = self.one(DIGIT.finditer(text)).start()
        return text[:place] + str(self.numbers.randrange(8)) + text[place + 1:]

    def with_a_set(self, text):
        """A set with one word more or less, usually next to a word that it has. A range that another change turned round has no word."""
        found = self.one(SET.finditer(text))
        members = max(judge.set_of(found.group()), 0)
        near = [word % 4096 for run in re.findall(r"\d{4}", found.group()) for word in (int(run, 8), int(run, 8) + 1)]
        word = self.one(near) if near and self.numbers.random() < 0.8 else self.numbers.randrange(4096)
        return text[:found.start()] + judge.set_text(members ^ sets.one(word)) + text[found.end():]

    def in_a_line(self, text, pattern, new):
        """The text with one match of a pattern replaced, if there is a match."""
        found = list(re.finditer(pattern, text, re.M))
        if not found:
            return text
        match = self.one(found)
        return text[:match.start(1)] + new(match.group(1)) + text[match.end(1):]

    def with_a_rank(self, text):
        return self.in_a_line(text, r"rank (\d\d)", lambda old: self.one(["00", "01", "02", "03", "77"]))

    def with_offsets(self, text):
        several = ["-", "00", "01", "00-01", "07", "00-02,07", "00-77"] if is_third(text) else ["-", "0", "1", "01", "7", "0127"]
        return self.in_a_line(text, r"offsets ([-0-7,]+)", lambda old: self.one(several))

    def with_links(self, text):
        return self.in_a_line(text, r"link ([01]+)", lambda old: self.one(["0", "1", "01"]))

    def with_an_equation(self, text):
        """Another difference in an equation."""
        return self.in_a_line(text, r"^equal \S+ \d+ (\d+)", lambda old: f"{(int(old, 8) + self.one([1, 7777])) % 4096:04o}")

    def with_a_coefficient(self, text):
        """Another coefficient in a sum, if there is a sum."""
        return self.in_a_line(text, r"^sum \S+ (\S+) ", lambda old: self.one(["+", "-", "0002", "7776", "0012"]))

    def in_another_version(self, text):
        if is_third(text):
            return text.replace("CERTIFICATE 3", self.one(["CERTIFICATE 1", "CERTIFICATE 2"]))
        if text.startswith("PDP8-CERTIFICATE 1"):
            text = re.sub(r"^((?:fact|exit) .*) link", r"\1 mq 0000-7777 link", text, flags=re.M)
            return text.replace("CERTIFICATE 1", "CERTIFICATE 2")
        return re.sub(r" mq \S+", "", text).replace("CERTIFICATE 2", "CERTIFICATE 1")

    def changed_certificate(self, text):
        changes = [self.without_a_line, self.with_a_digit, self.with_a_set, self.with_a_set, self.with_a_set,
                   self.with_a_rank, self.with_offsets, self.with_links, self.with_an_equation]
        changes += [self.with_a_coefficient] * is_third(text)
        for _ in range(self.one([1, 1, 1, 2])):
            text = self.one(changes)(text)
        return self.in_another_version(text) if self.numbers.random() < (0.02 if is_third(text) else 0.2) else text

    def changed_image(self, image):
        at = self.one(image)
        return image | {at: self.one([image[at] ^ 1 << self.numbers.randrange(12), self.numbers.randrange(4096)])}

    def further_line(self, text):
        """A line about how a routine returns or about what must hold, with entries of the declaration and addresses near its start."""
        entries = re.findall(r"^sub (\S+)", text, re.M) or ["0300"]
        start = int(re.search(r"^start (\S+)", text, re.M).group(1), 8)
        entry, place = self.one(entries), f"{start + self.one([0, 0, 1, 2, 3, self.numbers.randrange(32)]):04o}"
        subject = self.one(["ac 0", "ac 0-3777", "ac 0-7777", "link 0", "link 1", "mq 0-7777", "cell 0010 0-7777", "cell 0300 0-3777"])
        return self.one([f"skips {entry} {self.one(['1', '0-77', '7-20', '12'])}", f"moves {entry}", f"abandon {place}",
                         f"holds {place} {subject}", f"returns {entry} {subject}", f"returns {entry} {self.one(['0', '1', '0 1'])} {subject}"])

    def changed_declaration(self, text):
        kind = self.numbers.randrange(7)
        if kind > 3:
            return text + "".join(self.further_line(text) + "\n" for _ in range(self.one([1, 1, 2])))
        if kind == 0:
            return text + self.one(["read\n", "read 0000-0377\n", "read 0000-7777\n", "profile 8e\n"])
        if kind == 1:
            return text + f"var {self.one([0, 0o10, 0o20, 0o200, 0o210, 0o300]) + self.numbers.randrange(16):04o}\n"
        return self.without_a_line(text) if kind == 2 else self.with_a_digit(text)

    def changed(self, image, declaration, certificate):
        kind = self.numbers.randrange(8)
        if kind == 0:
            image = self.changed_image(image)
        elif kind in (1, 2):
            declaration = self.changed_declaration(declaration)
        if kind > 2 or self.numbers.random() < 0.2:
            certificate = self.changed_certificate(certificate)
        return image, declaration, certificate

    def start(self):
        """A start: any words in the registers and in all cells, except that the cells on the tape have their words."""
        return {"ac": self.numbers.randrange(4096), "link": self.numbers.randrange(2),
                "mq": self.numbers.randrange(4096), "memory": [self.numbers.randrange(4096) for _ in range(4096)]}

    def events(self):
        """A list of events, most of them steps."""
        others = [("printer",), ("punch",), ("continue",)]
        found = []
        for _ in range(self.numbers.randrange(40)):
            found += [("step",)] * self.numbers.randrange(1, 20)
            found.append(self.one([*others, *others, ("key", self.numbers.randrange(256)),
                                   ("reader", self.numbers.randrange(256)), ("switches", self.numbers.randrange(4096))]))
        return found


def event_text(event):
    if event[0] == "switches":
        return f"switches {event[1]:04o}"
    return f"{event[0]} {event[1]:03o}" if len(event) > 1 else event[0]


def verdict(image, declaration, certificate):
    """What the program must say: the line of a verdict, or which part is refused."""
    declared = declaration_of(declaration)
    if declared is None:
        return "declaration"
    claimed = certificate_of(certificate)
    if claimed is None:
        return "certificate"
    failed = (check3 if is_third(certificate) else judge).judge(image, declared, claimed)
    return "no: V{} at {:04o}".format(*failed) if failed else judge.counts(declared)


def said(program, words):
    """What `pdp8` says: its line, or the kind of its fault."""
    ran = subprocess.run([program, *words], capture_output=True, text=True, timeout=120)
    return ran.stdout.rstrip("\n") if ran.stdout else ran.stderr.removeprefix("pdp8: ").split(":")[0]


class Case:
    """A tape, a declaration and a certificate as files."""

    def __init__(self, stem, image, declaration, certificate, events):
        self.files = [stem.with_suffix(kind) for kind in (".bin", ".declaration", ".certificate", ".events")]
        self.tape, self.declaration, self.certificate, self.events = self.files
        self.tape.write_bytes(tape.written(image))
        self.declaration.write_text(declaration)
        self.certificate.write_text(certificate)
        self.events.write_text("".join(event_text(event) + "\n" for event in events))

    def forget(self):
        for file in self.files:
            file.unlink()


def program_of(certificate):
    """The words of the tape and the declaration of the program for which a file has a certificate; the declaration is in a file of its
    own or in comments of the source."""
    source, declared = (certificate.with_suffix(kind) for kind in (".pal", ".declaration"))
    if not declared.exists():
        return labels.program(source.read_bytes())
    profile = "8e" if "profile 8e" in declared.read_text() else "8i"
    return pal.assemble([source.read_bytes()], profile).image, declared.read_text()


def programs(examples):
    """The examples that have a certificate: the words of the tape, the declaration and the certificate."""
    return [(certificate.stem, *program_of(certificate), certificate.read_text()) for certificate in sorted(examples.glob("*.certificate"))]


def main():
    program, examples, folder, count, seed = sys.argv[1:]
    folder, changes = Path(folder), Changes(int(seed))
    known, kinds, differences, clean = programs(Path(examples)), collections.Counter(), [], 0
    for number in range(int(count)):
        name, *parts = changes.one(known)
        image, declaration, certificate = changes.changed(*parts)
        happening = changes.events()
        case = Case(folder / f"{number:06}-{name}", image, declaration, certificate, happening)
        wanted = verdict(image, declaration, certificate)
        got = [said(program, ["check", case.tape, case.declaration, case.certificate])]
        expected = [wanted]
        if wanted.startswith("yes"):
            got.append(said(program, ["watch", case.tape, case.declaration, case.events]))
            expected.append("clean")
            if watch.watch(image, declaration_of(declaration), happening, **changes.start())[0] is None:
                clean += 1
            else:
                differences.append(f"{case.tape.stem}: accepted, and a run from some start violates a rule")
        kinds[re.split(" at |: .* cells", wanted)[0]] += 1
        if got != expected:
            differences.append(f"{case.tape.stem}: {got} where {expected} is wanted")
        else:
            case.forget()
    print(f"{count} cases of {len(known)} programs, {clean} accepted and clean, {len(differences)} differences")
    print(", ".join(f"{kind} {times}" for kind, times in sorted(kinds.items())))
    print("\n".join(differences[:20]))
    if differences:
        print(f"their files stay in {folder}")
    return 1 if differences else 0


if __name__ == "__main__":
    sys.exit(main())
