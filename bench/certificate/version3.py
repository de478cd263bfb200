#!/usr/bin/env python3
"""Makes a tape, a declaration and a certificate of version 3, of some 113 KB, that `pdp8 check` accepts. The program consists of
three copies of tests/style-of-1970/pack.pal, each on a page of its own; the switches decide which copy is executed.

usage: version3.py PDP8 FOLDER

The certificate of each copy is found by PDP8, for a program in which all choices lead to that copy. The three certificates are then
merged, and what they say about the instructions that make the choice is put below a single fact. The folder gets the files `t`, `d`
and `c`, which bench/judge.sh expects.
"""
import re
import subprocess
import sys
import tempfile
from pathlib import Path

TOP = Path(__file__).resolve().parent.parent.parent
sys.path.insert(0, str(TOP / "reference"))
import labels  # noqa: E402
import tape  # noqa: E402

COPIES = (1, 2, 3)
KINDS = {"routine": 0, "fact": 1, "exit": 2}
BELOW = {"cell": 0, "sum": 1, "func": 2}


def renamed(text, copy, names):
    """A text with the names of a copy: the first four letters and one that tells the copies apart."""
    return re.sub(rf"\b({'|'.join(names)})\b", lambda name: name.group(1)[:4] + chr(64 + copy), text)


def source(copies):
    """The program with some of the copies; the choices of the others lead to the first of these."""
    lines = (TOP / "tests" / "style-of-1970" / "pack.pal").read_text().splitlines()
    declared = [line for line in lines if line.startswith("/:") and "start" not in line]
    body = "\n".join(line for line in lines if not line.startswith("/") and line.strip() != "$")
    names = sorted(re.findall(r"^([A-Z][A-Z0-9]*),", body, re.M), key=len, reverse=True)
    found = ["/: start BEGIN", "/: main BEGIN-LEAVE", *(renamed(line, copy, names) for copy in copies for line in declared)]
    found += ["*200", "BEGIN, CLA CLL", " LAS"]
    for copy in COPIES[:-1]:
        found += [" SNA", f" JMP I TO{copy}", " TAD LESS"]
    found += [f"LEAVE, JMP I TO{COPIES[-1]}", "LESS, -1"]
    found += [f"TO{copy}, STAR{chr(64 + (copy if copy in copies else copies[0]))}" for copy in COPIES]
    for copy in copies:
        text = renamed(body, copy, names).replace("*20\n", f"*{0o20 * copy:o}\n").replace("*200\n", f"*{0o200 + 0o200 * copy:o}\n")
        found.append(text.replace("*400\nBUFF", f"*{0o3700 + 0o100 * copy:o}\nBUFF"))
    return "\n".join([*found, "$", ""])


def blocks(text):
    """The lines of a certificate that have others below them, in order, each with these. A key is the kind, the address, the
    offset, a number that tells several of one address apart, and the line."""
    found, several, key = {}, {}, None
    for line in text.splitlines()[1:-1]:
        kind, *rest = line.split()
        if kind in KINDS:
            place = KINDS[kind], rest[0], rest[1] if kind == "exit" else ""
            several[place] = several.get(place, 0) + 1
            key = *place, several[place], line
            found[key] = []
        else:
            found[key].append(line)
    return found


def merged(texts):
    """The certificate that says what each of some certificates says."""
    found = {}
    for text in texts:
        for key, lines in blocks(text).items():
            kept = found.setdefault(key, [])
            kept += [line for line in lines if line not in kept]
    out = ["PDP8-CERTIFICATE 3"]
    for key in sorted(found):
        out += [key[4], *sorted(found[key], key=lambda line: (BELOW[line.split()[0]], line if line.startswith("cell") else ""))]
    return "".join(line + "\n" for line in [*out, "end"])


def main():
    program, folder = sys.argv[1], Path(sys.argv[2])
    folder.mkdir(parents=True, exist_ok=True)
    image, declaration = labels.program(source(COPIES).encode())
    (folder / "t").write_bytes(tape.written(image))
    (folder / "d").write_text(declaration)
    texts = []
    with tempfile.TemporaryDirectory() as work:
        for copy in COPIES:
            (Path(work) / "source.pal").write_text(source((copy,)))
            subprocess.run([program, "guess", "--source", "source.pal", "-o", "certificate"], cwd=work, check=True)
            texts.append((Path(work) / "certificate").read_text())
    (folder / "c").write_text(merged(texts))


main()
