"""Makes a table of the least nanoseconds for one call, from lines `NAME BODY TIMES ANSWER SPENT` whose
items are separated by tabs."""

import re
import sys

UNITS = {"ns": 1.0, "µs": 1e3, "us": 1e3, "ms": 1e6, "s": 1e9}
BODIES = ("lanes", "plain", "rust")


def nanoseconds(spent):
    number, unit = re.fullmatch(r"([0-9.]+)([a-zµ]+)", spent).groups()
    return float(number) * UNITS[unit]


def main():
    cells = {}
    with open(sys.argv[1], encoding="utf-8") as times_file:
        lines = times_file.readlines()
    for line in lines:
        name, body, times, _, spent = line.rstrip("\n").split("\t")
        row = cells.setdefault(name, {})
        row[body] = min(row.get(body, float("inf")), nanoseconds(spent) / int(times))
    print("| Call | " + " | ".join(BODIES) + " |")
    print("|---|---|---|---|")
    for name, row in cells.items():
        figures = (f"{row[body]:,.0f}" if body in row else "" for body in BODIES)
        print(f"| {name} | " + " | ".join(figures) + " |")


main()
