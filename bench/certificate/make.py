#!/usr/bin/env python3
"""Makes a tape, a declaration and a certificate that `pdp8 check` accepts. The certificate has about the given number of
bytes.

usage: make.py BYTES FOLDER

The program is a row of NOPs with a halt at its end. It changes nothing, so each fact of the certificate may say what the
fact before it says, or less. The facts have sets of words for AC and for cells, and say by how much the words of two
cells differ. The sets grow from fact to fact, and most words in them have no neighbour there, so that the text consists
mostly of ranges. The folder gets the files `tape`, `declaration`, `certificate` and `cut`, which is the certificate
without its end.
"""

import random
import sys
from pathlib import Path

START = 0o200
CELLS = range(0o20, 0o40)
MOST_BYTES = 1_048_576


def octal(number):
    return f"{number:04o}"


def set_text(words):
    """The maximal runs in rising order, joined by commas."""
    runs = []
    for word in sorted(words):
        if runs and word == runs[-1][1] + 1:
            runs[-1][1] = word
        else:
            runs.append([word, word])
    return ",".join(octal(a) if a == b else f"{octal(a)}-{octal(b)}" for a, b in runs)


def two_frames(number, first):
    return bytes([first | number >> 6, number & 0o77])


def tape(words):
    """The frames of a tape for the Binary Loader: a leader, each run with its origin, the checksum and a trailer."""
    frames = b""
    before = None
    for address in sorted(words):
        if before is None or address != before + 1:
            frames += two_frames(address, 0o100)
        frames += two_frames(words[address], 0)
        before = address
    leader = bytes([0o200] * 16)
    return leader + frames + two_frames(sum(frames) % 4096, 0) + leader


def fact_lines(address, ac, sets, values):
    lines = [f"fact {octal(address)} ac {set_text(ac)} link 01 offsets -"]
    lines += [f"cell {octal(cell)} {set_text(sets[cell])}" for cell in CELLS]
    for cell, other in zip(CELLS, CELLS[1:]):
        lines.append(f"equal {octal(cell)} {octal(other)} {octal((values[cell] - values[other]) % 4096)}")
    return lines


def main():
    size, folder = int(sys.argv[1]), Path(sys.argv[2])
    if not 0 < size <= MOST_BYTES:
        sys.exit("make.py: BYTES is from 1 to 1048576")
    folder.mkdir(parents=True, exist_ok=True)
    choose = random.Random(size)
    values = {cell: choose.randrange(4096) for cell in CELLS}
    sets = {cell: {values[cell]} for cell in CELLS}
    for cell in CELLS:
        sets[cell].update(choose.sample(range(4096), 4))
    ac = range(4096)
    lines = ["PDP8-CERTIFICATE 1"]
    length = len(lines[0]) + 1
    address = START
    while True:
        more = fact_lines(address, ac, sets, values)
        more_length = sum(len(line) + 1 for line in more)
        if address > START and length + more_length + len("end\n") > size:
            break
        lines += more
        length += more_length
        address += 1
        sets[choose.choice(CELLS)].add(choose.randrange(4096))
    last = address - 1
    words = {at: 0o7000 for at in range(START, last)}
    words[last] = 0o7402
    words.update(values)
    body = "\n".join(lines) + "\n"
    (folder / "tape").write_bytes(tape(words))
    (folder / "declaration").write_text(
        f"start {octal(START)}\nmain {octal(START)}-{octal(last)}\nstop {octal(last)}\n"
        f"var {octal(CELLS[0])}-{octal(CELLS[-1])}\n"
    )
    (folder / "certificate").write_text(body + "end\n")
    (folder / "cut").write_text(body)


main()
