"""Assembles sources with Debian's palbart and with the program of this repository, and compares the images.

usage: palbart.py PALBART PROGRAM EXAMPLES FOLDER COUNT SEED, where EXAMPLES has sources *.pal, and files are
made in FOLDER. COUNT sources are generated from SEED in the part of the language that both assemblers understand in the same way. Some
sources have a fault, and both assemblers must refuse these. If the two differ on a source, it is kept in FOLDER, and its name is
printed.
"""
import random
import subprocess
import sys
from pathlib import Path

import second_reader

OPERATES = ["NOP", "CLA", "CLL", "CMA", "CML", "RAR", "RTR", "RAL", "RTL", "IAC", "SMA", "SZA", "SPA", "SNA", "SNL",
            "SZL", "SKP", "OSR", "HLT", "CIA", "LAS", "STL", "STA", "GLK", "ION", "IOF", "RSF", "RRB", "RFC", "PSF",
            "PCF", "PPC", "PLS", "KSF", "KCC", "KRS", "KRB", "TSF", "TCF", "TPC", "TLS"]
# palbart always defines these, and does not define CAM.
OPERATES_8E = ["MQL", "MQA", "SWP", "BSW", "KCF", "TFL"]
REFERENCES = ["AND", "TAD", "ISZ", "DCA", "JMS", "JMP"]
FAULTS = ["QNONE", "TAD QNONE+1", "OCTAL;8", "5A", "?", "1=2", "*QNONE", "5+", "*", "QTWICE,1;QTWICE,2",
          "OCTAL;*400;JMP 600", "=5"]


class Source:
    """A source that is being made. All its lines end in the same way; the radix is that of what was written so far."""

    def __init__(self, numbers):
        self.numbers = numbers
        self.profile = numbers.choice(["8i", "8e"])
        self.radix, self.names, self.values, self.zero = 8, set(), {}, {}
        self.statements = []

    def chance(self, share):
        return self.numbers.random() < share

    def number(self, value):
        """A number as it is written now."""
        zeros = "0" * self.numbers.choice([0, 0, 0, 1, 2])
        return zeros + (f"{value:o}" if self.radix == 8 else str(value))

    def name(self):
        """A new symbol, sometimes longer than the six characters that count; none is palbart's own."""
        while True:
            rest = self.numbers.choices("QXYZ0123456789", k=self.numbers.randrange(9))
            name = self.numbers.choice("QWY") + "".join(rest)
            if name[:6] not in self.names:
                self.names.add(name[:6])
                return name

    def gap(self):
        """What comes between two terms."""
        return self.numbers.choice([" ", " ", "  ", "\t", " \t "])

    def away(self, value):
        """The text that adds this number to a sum; nothing for 0."""
        if value == 0:
            return ""
        gap = self.gap() if self.chance(0.1) else ""
        return ("+" if value > 0 else "-") + gap + self.number(abs(value))

    def term(self):
        """A term whose value is known already."""
        if self.values and self.chance(0.3):
            return self.numbers.choice(sorted(self.values))
        return "." if self.chance(0.1) else self.number(self.numbers.randrange(4096))

    def expression(self):
        """Sums first, and then the terms that are combined by OR: in this order both assemblers work from left to right."""
        text = self.numbers.choice(["", "", "", "-", "+"]) + self.term()
        for _ in range(self.numbers.choice([0, 0, 1, 2])):
            text += self.numbers.choice("+-") + self.term()
        for _ in range(self.numbers.choice([0, 0, 0, 1, 2])):
            text += self.gap() + self.term()
        return text

    def operate(self):
        names = OPERATES + (OPERATES_8E if self.profile == "8e" else [])
        return self.gap().join(self.numbers.choices(names, k=self.numbers.choice([1, 1, 2, 3])))

    def address(self, at, tags):
        """An address on page zero or on the page of a location, as text."""
        place = self.numbers.randrange(128)
        kind = self.numbers.choice(["zero", "here", "tag", "tag", "table"])
        if kind == "tag" and tags:
            tag = self.numbers.choice(sorted(tags))
            return tag + self.away(self.numbers.choice([0, 0, (at & 0o7600 | place) - tags[tag]]))
        if kind == "table" and self.zero:
            tag = self.numbers.choice(sorted(self.zero))
            return tag + self.away(place - self.zero[tag])
        if kind == "here":
            return "." + self.away((at & 0o7600 | place) - at)
        return self.number(place) if self.chance(0.5) else self.number(at & 0o7600 | place)

    def reference(self, at, tags):
        text = self.numbers.choice(REFERENCES)
        chosen = self.numbers.choice([[], [], ["I"], ["Z"], ["I", "Z"], ["Z", "I"]])
        if "Z" in chosen:
            # palbart does not refuse Z with another page, so the address is on page zero.
            address = self.number(self.numbers.randrange(128))
        else:
            address = self.address(at, tags) if self.chance(0.95) else ""
        return self.gap().join([text] + chosen + ([address] if address else []))

    def word(self, at, tags):
        kind = self.numbers.choice(["reference", "reference", "operate", "expression"])
        if kind == "reference":
            return self.reference(at, tags)
        return self.operate() if kind == "operate" else self.expression()

    def directives(self):
        """Assignments and changes of the radix."""
        if self.chance(0.1):
            self.radix = 18 - self.radix
            self.statements.append("OCTAL" if self.radix == 8 else "DECIMAL")
        if self.chance(0.1):
            name, text = self.name(), self.expression()
            self.statements.append(name + "=" + text)
            self.values[name] = text

    def block(self, page):
        """Words on one page, some with tags that all words of the page may name."""
        start = page * 128 + self.numbers.randrange(100)
        count = self.numbers.randrange(1, 128 - start % 128)
        tagged = {at: self.name() for at in range(start, start + count) if self.chance(0.2)}
        tags = {name: at for at, name in tagged.items()}
        self.statements.append("*" + self.number(start))
        for at in range(start, start + count):
            self.directives()
            tag = tagged[at] + "," + self.numbers.choice(["", " ", "\t"]) if at in tagged else ""
            if tag and self.chance(0.1):
                tag += self.name() + ","
            if tag and self.chance(0.1):
                self.statements.append(tag)
                tag = ""
            self.statements.append(tag + self.word(at, tags))
        if page == 0:
            self.zero = tags

    def text(self):
        """The statements on lines, which stay short, since palbart cuts lines at 130 columns."""
        end = self.numbers.choice(["\n", "\n", "\r\n"])
        out, line = "", ""
        for statement in self.statements:
            line += self.numbers.choice(["", "", " ", "\t"]) + statement + self.numbers.choice(["", "", " "])
            if self.chance(0.2) and len(line.expandtabs()) < 40:
                line += ";"
            else:
                out += line + self.numbers.choice(["", "", "", "/", "/ a $ sign; and more", "/?\"'"]) + end
                line = ""
        return out + line + end + self.numbers.choice(["$", "$", "$ and what follows"]) + end


def generated(seed):
    """The text of a source, its profile, and whether it has a fault."""
    made = Source(random.Random(seed))
    pages = made.numbers.sample(range(1, 32), made.numbers.randrange(1, 4))
    for page in ([0] if made.chance(0.5) else []) + pages:
        made.block(page)
    faulty = made.chance(0.2)
    if faulty:
        place = made.numbers.randrange(len(made.statements) + 1)
        made.statements.insert(place, made.numbers.choice(FAULTS))
    return made.text().encode(), made.profile, faulty


def image(path):
    try:
        return second_reader.words(path.read_bytes())
    except (OSError, ValueError, StopIteration):
        return None


def of_palbart(palbart, path):
    """The image that palbart makes from a source, or None if it reports an error."""
    made, errors = path.with_suffix(".bin"), path.with_suffix(".err")
    made.unlink(missing_ok=True)
    errors.unlink(missing_ok=True)
    subprocess.run([palbart, "-e", path.name], cwd=path.parent, capture_output=True, timeout=60)
    return None if errors.exists() and b"error" in errors.read_bytes() else image(made)


def of_program(program, path, profile):
    """The image that `pdp8 assemble` makes from it, or None, and what it prints."""
    made = path.with_suffix(".tape")
    ran = subprocess.run([program, "assemble", "--profile", profile, str(made), str(path)], capture_output=True,
                         text=True, timeout=60)
    return (image(made) if ran.returncode == 0 else None), ran.stderr.strip()


def main():
    palbart, program, examples, folder, count, seed = sys.argv[1:]
    folder = Path(folder)
    # Those for the PDP-8/E are named pack and unpack.
    sources = [(path.stem, path.read_bytes(), "8e" if "pack" in path.stem else "8i", False)
               for path in sorted(Path(examples).glob("*.pal"))]
    sources += [(f"generated_{number}", *generated(f"{seed} {number}")) for number in range(int(count))]
    differ, words = [], 0
    for name, text, profile, faulty in sources:
        path = folder / f"{name}.pal"
        path.write_bytes(text)
        theirs, (ours, said) = of_palbart(palbart, path), of_program(program, path, profile)
        if theirs != ours or faulty != (ours is None):
            differ.append(f"{path}: {'has a fault, ' if faulty else ''}profile {profile}, "
                          f"palbart {'refuses' if theirs is None else 'assembles'}, "
                          f"the program {f'says {said}' if ours is None else 'assembles'}")
        words += len(ours or {})
    print(f"{len(sources)} sources, {sum(faulty for *_, faulty in sources)} of them with a fault, {words} words")
    print("\n".join(differ) if differ else "palbart and the program agree on all")
    return int(bool(differ))


if __name__ == "__main__":
    sys.exit(main())
