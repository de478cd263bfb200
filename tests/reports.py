#!/usr/bin/env python3
"""Compares what `report` writes with what the Python in reference/ makes of the same certificate. The gate runs this script.

usage: tests/reports.py PDP8 [NAME..]             compares text and page for the examples and their broken variants
       tests/reports.py PDP8 --pages FILE NAME..  writes the expected pages of these examples to FILE as cases, without their
                                                  heads and the numbers next to the map
       tests/reports.py PDP8 TAPE DECLARATION CERTIFICATE  compares the report of these three files

The Python in reference/ computes what is known, and what is read, written, called and returned to. Only the names of words (from
`dump`) and the lines above the listing (from `check` and `check --why`) come from the program.
"""
import re
import subprocess
import sys
import tempfile
from pathlib import Path

# The day of the last change of the files in the cases.
DAY = "1971-06-30"
ROOT = Path(__file__).parent.parent
sys.path[:0] = [str(ROOT / "reference"), str(ROOT / "tests")]
import check  # noqa: E402
import second_reader  # noqa: E402
import sets  # noqa: E402
import watch  # noqa: E402
from facts import AC, possible, targets  # noqa: E402
from machine import named_cell  # noqa: E402

MOST_RUNS = 16
# An address that links to its line in a page is between these two.
BEGIN, END = "\1", "\2"
ADDRESS = BEGIN + "{:04o}" + END


def shown(members, address="{:04o}"):
    """A set as its first ranges, and how many more words there are. `address` says how the first word of a range is written."""
    runs = list(sets.runs(members))
    text = ",".join(address.format(a) + ("" if a == b else f"-{b:04o}") for a, b in runs[:MOST_RUNS]) or "-"
    more = sum(b - a + 1 for a, b in runs[MOST_RUNS:])
    return text + (f" and {more} more" if more else "")


def holds(members):
    """Which words something may hold."""
    if members == sets.ALL:
        return "any"
    return ("is " if members.bit_count() == 1 else "in ") + shown(members)


def link_text(link):
    return {(0,): "L is 0", (1,): "L is 1", (0, 1): "L any"}[tuple(sorted(link))]


def name_of(name):
    return "AC" if name == AC else f"[{name:04o}]"


def added_text(word):
    return "" if word == 0 else f" + {word:04o}" if word < 0o4000 else f" - {4096 - word:04o}"


def equation_items(fact, above):
    """The equations of a fact, each with the words that the equations and the sets leave for the name on its left."""
    for x, y, k in sorted(fact.equations):
        left = fact.narrowed(x)
        same = above is not None and (x, y, k) in above.equations and above.narrowed(x) == left
        yield f"{name_of(x)} = [{y:04o}]" + added_text(k) + ("" if left == sets.ALL else ", so " + shown(left)), same


def all_of_fact(fact, above, offsets=True):
    """What a fact says, item by item, and for each item whether the fact above says the same."""
    near = above is not None
    items = [("AC " + holds(fact.ac), near and fact.ac == above.ac)]
    if fact.mq != sets.ALL or near and above.mq != sets.ALL:
        items.append(("MQ " + holds(fact.mq), near and fact.mq == above.mq))
    items.append((link_text(fact.link), near and fact.link == above.link))
    for cell, members in sorted(fact.cells.items()):
        items.append((f"{cell:04o} " + holds(members), near and members == above.set_of(cell)))
    for cell, members in sorted(above.cells.items() if near else []):
        if cell not in fact.cells and members != sets.ALL:
            items.append((f"{cell:04o} any", False))
    items += equation_items(fact, above)
    known = above.equations if near else set()
    kept = {(x, y) for x, y, _ in fact.equations}
    items += [(f"{name_of(x)} and [{y:04o}] unrelated", False) for x, y, _ in sorted(known) if (x, y) not in kept]
    if offsets and (fact.offsets - {0} or near and above.offsets - {0}):
        items.append(("return word up by " + ",".join(map(str, sorted(fact.offsets))), near and fact.offsets == above.offsets))
    return items


def of_fact(fact, above, offsets=True):
    """What a fact says that the one above it does not say, item by item."""
    return [item for item, same in all_of_fact(fact, above, offsets) if not same]


class Report:
    def __init__(self, image, declared, certificate, names, refused):
        self.image, self.declared, self.certificate = image, declared, certificate
        self.names, self.refused = names, refused
        self.judge = check.Judge(image, declared, certificate)
        self.known = {}
        for at, fact in certificate.facts.items():
            for cell, members in fact.cells.items():
                if cell in declared.variables:
                    words, places = self.known.get(cell, (0, set()))
                    self.known[cell] = words | members, places | {at}

    def kind(self, at):
        if at in self.declared.routines:
            return "entry", at
        owner = self.judge.owner(at)
        if owner is not False:
            return "body", owner
        if at in self.declared.variables:
            return "variable", None
        return ("other", None) if at in self.image else ("unset", None)

    def is_refused_at(self, at):
        return self.refused is not None and self.refused[1] == at

    def is_quiet(self, at):
        free = at not in self.image and at not in self.certificate.facts and at not in self.known and not self.is_refused_at(at)
        return free and self.kind(at)[0] == "variable"

    def access(self, at, fact):
        """What the words at an address may do."""
        place = self.judge.place(self.judge.owner(at))
        words = possible(fact, at, place)
        items, count = [], words.bit_count()
        if at in self.declared.variables or count > 64:
            items.append("may be any word" if words == sets.ALL else "may be " + shown(words))
        if count > 64:
            return items
        did = dict.fromkeys(("reads", "writes", "calls", "jumps to", "returns to"), 0)
        for word in sets.words(words):
            did["writes"] |= self.judge.cells_written(fact, at, word, place)
            if word < 0o6000 and word & 0o400:
                self.indirect(at, fact, word, place, did)
        return items + [name + " " + ("any" if cells == sets.ALL else shown(cells, ADDRESS)) for name, cells in did.items() if cells]

    def indirect(self, at, fact, word, place, did):
        cell, reached = named_cell(word, at), targets(fact, at, word, place)[1]
        if word >> 9 < 3:
            did["reads"] |= sets.one(cell) | reached
        if word >> 9 == 4:
            did["calls"] |= reached
        if word >> 9 == 5 and cell in self.declared.routines:
            after = {(site + 1 + offset) % 4096 for site in sets.words(place.sites) for offset in fact.offsets}
            did["returns to"] |= sets.of(after)
        elif word >> 9 == 5:
            did["jumps to"] |= reached

    def items(self, at):
        """Everything that is said about an address."""
        declared, facts = self.declared, self.certificate.facts
        marks = (("start", at == declared.start), ("stop", at in declared.stops), ("pause", at in declared.pauses),
                 ("entry", at in declared.routines))
        items = [name for name, holds_here in marks if holds_here]
        kind = self.kind(at)
        if at in facts:
            items += self.of_fact(facts[at], self.above(at)) + self.access(at, facts[at])
        elif kind[0] == "body":
            items.append("no fact" if self.refused else "never reached")
        elif kind[0] == "variable":
            items += self.variable(at)
        return items

    of_fact = staticmethod(of_fact)

    def above(self, at):
        """The fact on the line above, if it is in the same body."""
        near = at > 0 and self.kind(at - 1) == self.kind(at)
        return self.certificate.facts.get(at - 1) if near else None

    def mark(self, at):
        """The mark at the address of a no."""
        return [f"HERE {self.refused[0]} FAILS"] if self.is_refused_at(at) else []

    def variable(self, cell):
        if cell not in self.known:
            return ["any word"]
        words, places = self.known[cell]
        unknown = sets.of(set(self.certificate.facts) - places)
        return ["holds " + ("any word" if words == sets.ALL else shown(words)) + (" where it is known" if unknown else "")]

    def heading(self, at, last):
        kind, owner = self.kind(at)
        if kind == "entry":
            return self.routine(at)
        if last == (kind, owner) or (kind == "body" and last == ("entry", owner)):
            return []
        body = "main" if owner is None else f"body of routine {owner:04o}"
        return ["", {"body": body, "variable": "variables", "other": "other words of the tape",
                     "unset": "nothing is declared here"}[kind]]

    def routine(self, entry):
        line, offsets = self.certificate.routines.get(entry), sorted(self.declared.offsets(entry))
        items = [f"routine {entry:04o}"]
        if line is None:
            items.append("nothing is claimed about it")
        else:
            items += [f"rank {line.rank}", f"called from {shown(line.sites, ADDRESS)}", f"may write {may_write(line)}"]
        items.append("returns by " + (",".join(f"{offset:o}" for offset in offsets) or "-"))
        exits = sorted((offset, fact) for (of, offset), fact in self.certificate.exits.items() if of == entry)
        return ["", "; ".join(items)] + [line_of(f"return by {offset:o}", of_fact(fact, None, False))
                                         for offset, fact in exits]

    def listing(self):
        lines, last, at = [], None, 0
        while at < 4096:
            kind = self.kind(at)
            if kind[0] != "unset" or at in self.certificate.facts or self.is_refused_at(at):
                lines += self.heading(at, last)
                last, end = kind, at
                if self.is_quiet(at):
                    while end < 4095 and self.is_quiet(end + 1):
                        end += 1
                    lines.append(line_of(f"{at:04o}" if at == end else f"{at:04o}-{end:04o}", ["any word"]))
                else:
                    word = f"{self.image[at]:04o}" if at in self.image else "----"
                    if at in self.image and (kind[0] == "body" or at in self.certificate.facts):
                        word += " " + self.names[at]
                    lines.append(line_of(f"{at:04o} {word}", self.items(at) + self.mark(at)))
                at = end
            at += 1
        return re.sub(f"[{BEGIN}{END}]", "", "".join(line + "\n" for line in lines))


def line_of(front, items):
    if not items:
        return front
    return front + " " * max(2, 25 - len(front)) + "; ".join(items)


def ran(*words):
    return subprocess.run([str(word) for word in words], capture_output=True, text=True).stdout


def may_write(line):
    """What a routine may write according to its line."""
    return {0: "nothing", sets.ALL: "any cell"}.get(line.writes) or shown(line.writes, ADDRESS)


def wanted(pdp8, tape, declaration, certificate, kind=None):
    """What a report should say, as plain text or as a page."""
    image = second_reader.words(tape.read_bytes())
    declared = watch.declaration(declaration.read_bytes())
    claims = check.parse(certificate.read_text("ascii"))
    verdict = ran(pdp8, "check", tape, declaration, certificate)
    words = verdict.split()
    refused = (words[1], int(words[3], 8)) if words[0] == "no:" else None
    front = ran(pdp8, "check", tape, declaration, certificate, "--why") if refused else verdict
    if refused:
        lines = front.splitlines(keepends=True)
        front = "".join(line for line in lines if not line.startswith(("fact ", "cell ", "equal ")))
    profile = declared.profile or "8i"
    names = {int(line[:4], 8): line[10:] for line in ran(pdp8, "dump", tape, "--profile", profile).splitlines()}
    report = (kind or Report)(image, declared, claims, names, refused)
    return report.page(front, (tape, declaration, certificate)) if kind else front + report.listing()


def differs(name, want, found):
    """Names the first line in which a report differs from what it should be."""
    if found == want:
        return 0
    pairs = zip(want.splitlines() + ["(end)"], found.splitlines() + ["(end)"])
    print(name, *next((pair for pair in pairs if pair[0] != pair[1]), ("lengths",)), sep="\n  ")
    return 1


def faults_of_page(page):
    """What is wrong with a page by itself."""
    names, places = re.findall(r"href=#(\w+)", page), re.findall(r" id=(\w+)", page)
    if len(set(places)) < len(places) or set(names) - set(places):
        yield f"links: {sorted(set(names) - set(places))}, twice {sorted(it for it in set(places) if places.count(it) > 1)}"
    if re.search(r"<script|<link|<img|src=|https?:", page):
        yield "it is not complete by itself"


def examples(pdp8, names, room):
    """Each example and its variant: a name, the tape, the declaration and the certificate, which has version 1 or 2."""
    for source in sorted((ROOT / "examples").glob("*.pal")):
        of = source.stem.removesuffix("-broken")
        certificate, declaration = (ROOT / "examples" / f"{of}.{kind}" for kind in ("certificate", "declaration"))
        if names and source.stem not in names or not certificate.exists():
            continue
        if certificate.read_text("ascii").startswith("PDP8-CERTIFICATE 3"):
            continue
        tape = Path(room) / f"{source.stem}.bin"
        profile = "8e" if "profile 8e" in declaration.read_text() else "8i"
        ran(pdp8, "assemble", "--profile", profile, "-o", tape, source)
        yield source.stem, tape, declaration, certificate


def without_head(page):
    """A page as the cases have it."""
    lines = page.partition("<body>\n")[2].splitlines(keepends=True)
    return "".join(line for line in lines if not line.startswith("<text"))


def cases_of(pdp8, loads):
    """The cases of the pages of these loads."""
    from report_pages import Page
    for name, tape, declaration, certificate in loads:
        want = wanted(pdp8, tape, declaration, certificate, Page)
        files = tape, declaration, certificate
        for file in files:
            want = want.replace(f"{file}, sum", f"{file.name}, sum")
        want = re.sub(r"changed [-0-9]{10}", f"changed {DAY}", want)
        names = " ".join(file.name for file in files)
        yield f"```console\n$ touch -d {DAY}T12:00Z {names}; pdp8 report {names} - | sed '1,/<body>/d' | grep -v '^<text'\n{without_head(want)}```\n\n"


def compared(pdp8, loads):
    """Compares reports with what they should be, and says how many are wrong."""
    from report_pages import Page
    count = wrong = 0
    for name, tape, declaration, certificate in loads:
        count += 1
        page = ran(pdp8, "report", tape, declaration, certificate, "-")
        wrong += differs(name, wanted(pdp8, tape, declaration, certificate), ran(pdp8, "report", tape, declaration, certificate, "-", "--text"))
        wrong += differs(name + ", page", wanted(pdp8, tape, declaration, certificate, Page), page)
        for fault in faults_of_page(page):
            wrong += 1
            print(f"{name}, page: {fault}")
    print(f"reports: {count} as text and as pages, {wrong} wrong")
    return int(wrong > 0)


def main():
    pdp8, *names = sys.argv[1:]
    with tempfile.TemporaryDirectory() as room:
        if names[:1] == ["--pages"]:
            cases = cases_of(pdp8, examples(pdp8, names[2:], room))
            return 0 if Path(names[1]).write_text("".join(cases)) else 1
        if len(names) == 3 and Path(names[0]).exists():
            return compared(pdp8, [(names[0], *map(Path, names))])
        return compared(pdp8, examples(pdp8, names, room))


if __name__ == "__main__":
    sys.exit(main())
