"""Compares the verdicts of `pdp8 check` with those of reference/check3.py on the certificates of version 3 in a folder, each of them
changed in one place at a time: a line is left out, or a set (which may be that of a sum) loses its first or its last word. If both say
yes, random runs are watched, and none of them may violate a rule.

usage: forged.py PROGRAM EXAMPLES FOLDER SEED [accepted] [PART OF], where files are made in FOLDER, and EXAMPLES has the certificates.
With PART and OF, only every OF-th change is tried, beginning with number PART. With the word accepted, the reference, which is slow,
judges only the certificates that the program accepts: this finds every wrong yes, but no wrong no.
"""
import collections
import re
import sys
from pathlib import Path

sys.path.insert(0, str(Path(__file__).parent.parent / "reference"))
import check as judge  # noqa: E402
import sets  # noqa: E402
import verdicts  # noqa: E402
import watch  # noqa: E402

# How many runs are watched if a changed certificate is accepted.
RUNS = 3


def without_each_line(text):
    """The texts without one of the lines."""
    lines = text.splitlines(True)
    return [("a line left out", "".join(lines[:at] + lines[at + 1:])) for at in range(len(lines))]


def with_each_set_smaller(text):
    """The texts with a set that lacks its first or its last word."""
    for found in verdicts.SET.finditer(text):
        members = judge.set_of(found.group())
        words = list(sets.words(members))
        kind = "a sum narrower" if text.rfind("\nsum ", 0, found.start()) == text.rfind("\n", 0, found.start()) else "a set smaller"
        for word in sorted({words[0], words[-1]} if words else ()):
            yield kind, text[:found.start()] + judge.set_text(members & ~sets.one(word)) + text[found.end():]


def main():
    program, examples, folder, seed, *rest = sys.argv[1:]
    only_accepted = rest[:1] == ["accepted"]
    part, of = map(int, rest[only_accepted:] or (0, 1))
    changes, kinds, different, clean = verdicts.Changes(int(seed)), collections.Counter(), [], 0
    known = [case for case in verdicts.programs(Path(examples)) if verdicts.is_third(case[3])]
    every = [(case, *change) for case in known for change in (*without_each_line(case[3]), *with_each_set_smaller(case[3]))]
    for number, ((name, image, declaration, _), kind, text) in list(enumerate(every))[part::of]:
        case = verdicts.Case(Path(folder) / f"{number:06}-{name}", image, declaration, text, [])
        got = verdicts.said(program, ["check", case.tape, case.declaration, case.certificate])
        if only_accepted and not got.startswith("yes"):
            kinds[kind, "not accepted"] += 1
            case.forget()
            continue
        wanted = verdicts.verdict(image, declaration, text)
        kinds[kind, re.split(" at |: .* cells", wanted)[0].split(" ")[0]] += 1
        broken = wanted.startswith("yes") and any(
            watch.watch(image, verdicts.declaration_of(declaration), changes.events(), **changes.start())[0] for _ in range(RUNS))
        clean += wanted.startswith("yes") and not broken
        if got != wanted or broken:
            different.append(f"{case.tape.stem}: {kind}: {got} where {wanted} is wanted" + ", and a run violates a rule" * broken)
        else:
            case.forget()
    print(f"{sum(kinds.values())} changes of {len(known)} certificates, {clean} accepted and clean, {len(different)} differences")
    print(", ".join(f"{kind} {said} {times}" for (kind, said), times in sorted(kinds.items())))
    print("\n".join(different[:20]))
    return int(bool(different))


if __name__ == "__main__":
    sys.exit(main())
