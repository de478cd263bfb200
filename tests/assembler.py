"""Compares `pdp8 assemble` and `pdp8 list` with the assembler in reference/ on random sources, most of
them with faults: the tape, the listing and the line of the fault must be the same to the byte.

usage: assembler.py PROGRAM FOLDER COUNT SEED. Files are made in FOLDER. If the two assemblers differ on
a source, the parts of this source are kept there.
"""
import random
import subprocess
import sys
from pathlib import Path

sys.path.insert(0, str(Path(__file__).parent.parent / "reference"))
import pal  # noqa: E402
import tape  # noqa: E402

SYMBOLS = ["A", "B", "C", "X1", "ABCDEF", "ABCDEFG", "ABCDEFH", "TAD", "I", "Z", "CLA", "MQL", "BSW", "KCF", "PAUSES",
           "OCTALS", "DECIMA", "DECIMALS", "PAUSE", "OCTAL"]
NUMBERS = ["0", "1", "5", "10", "17", "20", "177", "200", "210", "7777", "400", "00012", "8", "19", "4095", "10000",
           "4096"]
DEFINED = "A=5;B=210;C=20;X1=-3;ABCDEF=177"
PIECES = [b" ", b"  ", b"\t", b",", b"=", b"+", b"-", b"*", b".", b";", b"/", b"$", b"\n", b"\r", b"\r\n",
          b"\r\0\n\x7f\n", b"\n\r", b"\0", b"\x7f", b"\xff", b"\x0c", b"?", b"!", b"5A", b"a", b"\x0b", b"PAUSE",
          b"DECIMAL", b"OCTAL", b"\x8d\x8a", b"I", b"Z", b"TAD", b"8", b"10000"]


class Chance:
    """What is chosen at random."""

    def __init__(self, seed):
        self.numbers = random.Random(seed)

    def one(self, choices):
        return self.numbers.choice(choices)

    def term(self):
        if self.numbers.random() < 0.03:
            return self.one(SYMBOLS + NUMBERS)
        return self.one([self.one(SYMBOLS[:7]), self.one(NUMBERS[:10]), "."])

    def joiner(self):
        return self.one([" ", " ", "+", "-", " + ", " -", "- "])

    def expression(self):
        text = self.one(["", "", "", "-", "+", "- "]) + self.term()
        for _ in range(self.one([0, 0, 1, 1, 2, 3])):
            text += self.joiner() + self.term()
        return text

    def word(self):
        if self.numbers.random() < 0.5:
            return self.expression()
        text = self.one(list(pal.MEMORY_REFERENCES)) + self.one(["", " I", " Z", " I Z", " Z I", " I I"])
        return text + self.one(["", self.joiner() + self.expression()])

    def statement(self):
        kind = self.numbers.randrange(30)
        tags = "".join(self.tag() for _ in range(self.one([0, 0, 0, 0, 0, 0, 1, 2])))
        if kind < 20:
            return tags + self.word()
        if kind < 24:
            return tags + self.one(["Y", "W", "V", self.one(SYMBOLS)]) + self.one(["=", " = "]) + self.expression()
        if kind < 26:
            return tags + "*" + self.expression()
        return tags + self.one(["", "DECIMAL", "OCTAL", "DECIMAL", "PAUSE", "$", "/ a comment; $ ?"])

    def tag(self):
        """A tag, most often a new one."""
        name = self.one(["T", "T", "T", "T", "T", self.one(SYMBOLS[:8])])
        return name + (str(self.numbers.randrange(1000)) if name == "T" else "") + self.one([",", ", ", " ,"])

    def part(self):
        text = self.one([b"", DEFINED.encode() + self.one([b"\n", b"\r\n", b"\r"])])
        for _ in range(self.one([0, 1, 2, 3, 5, 8])):
            text += self.statement().encode() + self.one([b"\n", b"\n", b"\r\n", b"\r", b";"])
        for _ in range(self.one([0, 0, 0, 0, 0, 0, 1, 2, 4])):
            at = self.numbers.randrange(len(text) + 1)
            text = text[:at] + self.one([b"", self.one(PIECES)]) + text[at + self.one([0, 0, 1]):]
        if self.numbers.random() < 0.1:
            text = bytes(byte | 0o200 for byte in text)
        return text

    def parts(self):
        kind = self.numbers.randrange(200)
        if kind == 0:
            return [self.part() for _ in range(self.one([15, 16, 17]))]
        if kind == 1:
            return [self.part() + b" " * self.one([65500, 65536, 65537]), self.part()]
        if kind == 2:
            count = self.one([1023, 1024, 1025])
            return ["".join(f"Q{number}=1\n" for number in range(count)).encode() + self.part()]
        return [self.part() for _ in range(self.one([1, 1, 1, 2, 3]))]


def expected(parts, profile):
    """The tape, the listing, and what each command says about a fault."""
    try:
        program = pal.assemble(parts, profile)
    except pal.Fault as fault:
        said = f"pdp8: source: {fault}\n"
        return b"", "", said, said
    made = tape.written(program.image) if program.image else b""
    return made, program.listing(), "" if made else "pdp8: tape: EmptyImage\n", ""


def of_program(program, folder, names, profile):
    ran = subprocess.run([program, "assemble", "--profile", profile, "out", *names], cwd=folder, capture_output=True)
    made = (folder / "out").read_bytes()
    listed = subprocess.run([program, "list", "--profile", profile, *names], cwd=folder, capture_output=True)
    return made, listed.stdout.decode("latin-1"), ran.stderr.decode("latin-1"), listed.stderr.decode("latin-1")


def main():
    program, folder, count, seed = sys.argv[1:]
    program, folder = str(Path(program).resolve()), Path(folder)
    codes, differ = {}, 0
    for number in range(int(count)):
        chance = Chance(f"{seed} {number}")
        parts, profile = chance.parts(), chance.one(["8i", "8e"])
        names = [f"{number}.{place}.pal" for place in range(1, len(parts) + 1)]
        for name, part in zip(names, parts):
            (folder / name).write_bytes(part)
        wanted, found = expected(parts, profile), of_program(program, folder, names, profile)
        code = wanted[2].split()[2] if wanted[2] else "none"
        codes[code] = codes.get(code, 0) + 1
        if wanted == found:
            for name in names:
                (folder / name).unlink()
        else:
            differ += 1
            print(f"{folder}: {' '.join(names)}, profile {profile}: wanted {wanted[2:]}, found {found[2:]}"
                  f"{', another tape' * (wanted[0] != found[0])}{', another listing' * (wanted[1] != found[1])}")
    print(f"{count} sources, by their faults: " + ", ".join(f"{code} {times}" for code, times in sorted(codes.items())))
    print(f"{differ} differ" if differ else "the same tapes, listings and faults")
    return int(differ > 0)


if __name__ == "__main__":
    sys.exit(main())
