#!/usr/bin/env python3
"""Makes the source and the declaration of a program with the given number of pages, for which `pdp8 guess` finds a
certificate.

usage: make.py PAGES FOLDER

Each page has thirteen loops, one after the other, which clear the same eight cells through a pointer and count them;
then it goes on to the next page. The last page halts. So a program with twice as many pages is twice the same work. The
folder gets the files `source.pal` and `declaration`.
"""

import sys
from pathlib import Path

LOOPS = 13
PAGE = 0o200


def page_lines(page, last):
    """A page of loops; 0020 is the pointer and 0021 the count."""
    begin = page * PAGE
    table, count, following = begin + 0o170, begin + 0o171, begin + 0o172
    lines = [f"*{begin:04o}", "CLA CLL"]
    for _ in range(LOOPS):
        lines += [f"TAD {table:04o}", "DCA 0020", f"TAD {count:04o}", "DCA 0021"]
        lines += ["DCA I 0020", "ISZ 0020", "ISZ 0021", "JMP .-3"]
    lines += ["HLT" if last else f"JMP I {following:04o}"]
    lines += [f"*{table:04o}", "0100", "7770", f"{(page + 1) * PAGE % 4096:04o}"]
    return lines


def main():
    pages, folder = int(sys.argv[1]), Path(sys.argv[2])
    if not 0 < pages <= 31:
        sys.exit("make.py: PAGES is from 1 to 31")
    folder.mkdir(parents=True, exist_ok=True)
    source, bodies = [], []
    for page in range(1, pages + 1):
        source += page_lines(page, page == pages)
        bodies.append(f"{page * PAGE:04o}-{page * PAGE + 8 * LOOPS + 1:04o}")
    end = pages * PAGE + 8 * LOOPS + 1
    (folder / "source.pal").write_text("\n".join(source + ["$"]) + "\n")
    (folder / "declaration").write_text(
        f"start 0200\nmain {' '.join(bodies)}\nvar 0020 0021 0100-0107\nstop {end:04o}\n"
    )


main()
