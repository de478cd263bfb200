"""Runs programs with a tape in the reader on SIMH's pdp8 and on the program of this repository, and compares what they
print and what they punch.

usage: tape_readers.py SIMH PROGRAM FOLDER, where the tapes are made in FOLDER.
"""
import random
import re
import subprocess
import sys
from pathlib import Path

LEADER = bytes([0o200] * 16)
RIM = "6014 6011 5357 6016 7106 7006 7510 5374 7006 6011 5367 6016 7420 3776 3376 5357 0000"
COPIER = "7300 6014 6011 5202 6012 6026 6021 5206 1217 7650 5215 6014 5202 7402 5200 7401"
# A program at 0000 that prints a character and halts, and the jump to it that replaces the last word of the loader.
CARD = {at: word for at, word in enumerate([0o7300, 0o1006, 0o6046, 0o6041, 0o5003, 0o7402, 0o301])} | {0o7775: 0o5776}


def tape(at, text):
    """The tape of words from an address on, in the format of the Binary Loader."""
    words = [int(word, 8) for word in text.split()]
    frames = bytes([0o100 + (at >> 6), at & 0o77])
    frames += b"".join(bytes([word >> 6, word & 0o77]) for word in words)
    total = sum(frames) % 4096
    return LEADER + frames + bytes([total >> 6, total & 0o77]) + LEADER


def rim(cells):
    """A RIM tape."""
    return LEADER + b"".join(bytes([0o100 + (at >> 6), at & 0o77, word >> 6, word & 0o77])
                             for at, word in cells.items()) + LEADER


def case(folder, name, start, program, frames):
    """Writes the tapes of a case to the folder."""
    (folder / f"{name}.bin").write_bytes(tape(start, program))
    (folder / f"{name}.frames").write_bytes(frames)
    return name, start


def by_simh(simh, folder, name, start):
    """AC, link and program counter on SIMH, and what it punched."""
    punched = folder / f"{name}.simh"
    punched.unlink(missing_ok=True)
    lines = ["deposit 0-7777 0", f"load {folder}/{name}.bin", f"attach ptr {folder}/{name}.frames",
             f"attach ptp {punched}", f"run {start:o}", "examine AC", "examine L", "examine PC", "detach ptp", "quit"]
    script = folder / f"{name}.ini"
    script.write_text("\n".join(lines) + "\n")
    said = subprocess.run([simh, script], stdin=subprocess.DEVNULL, capture_output=True, timeout=60).stdout.decode("latin-1")
    shown = [re.search(rf"^{register}:\s*([0-7]+)", said, re.MULTILINE).group(1) for register in ("AC", "L", "PC")]
    return [int(value, 8) for value in shown], punched.read_bytes()


def by_program(program, folder, name, start):
    """The same on the program of this repository."""
    punched = folder / f"{name}.punched"
    words = [program, "run", folder / f"{name}.bin", "--start", f"{start:o}", "--steps", "1000000",
             "--reader", folder / f"{name}.frames", "--punch", punched]
    said = subprocess.run(words, stdin=subprocess.DEVNULL, capture_output=True, timeout=60, check=True).stdout.decode()
    found = re.match(r"HALT [0-7]{4} AC=([0-7]{4}) L=([01]) PC=([0-7]{4}) STEPS=", said)
    return [int(value, 8) for value in found.groups()], punched.read_bytes()


def main():
    simh, program, folder = sys.argv[1], sys.argv[2], Path(sys.argv[3])
    numbers = random.Random(8)
    cases = [case(folder, "rim", 0o7756, RIM, rim(CARD))]
    for index in range(20):
        frames = bytes(numbers.randrange(255) for _ in range(numbers.randrange(2000)))
        cases.append(case(folder, f"copier_{index}", 0o200, COPIER, frames + b"\xff\x01\x02"))
    wrong = [name for name, start in cases
             if by_simh(simh, folder, name, start) != by_program(program, folder, name, start)]
    print(f"{len(cases)} tapes in the reader")
    print("\n".join(f"{name} differs" for name in wrong) if wrong else "all as SIMH has them")
    return int(bool(wrong))


if __name__ == "__main__":
    sys.exit(main())
