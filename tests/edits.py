"""Checks that each wrong edit can be applied, without trying it, because rt reports an edit that cannot be applied only at the end of its
run. Also checks that the gate does not have too many edits.

usage: tests/edits.py [--root DIR]   names each edit that cannot be applied, and each number that is too large, with exit
                                     status 1 if there is any; counts the edits of each crate

An edit is a file with a line 'file: PATH' and pairs of lines 'old: TEXT' and 'new: TEXT'. Each old text occurs exactly once in
the file as the pairs before it have changed it, and the new text differs from it. The name of an edit consists of lower-case letters,
digits and _, and no other edit of the crate has the same name.

The edits of crates/NAME/must-fail/ are tried by the gate. There may be 8 of them in a crate and 110 in all, since each costs
10 to 60 seconds of a processor, and the first edit of a crate costs its whole proof once more. Those of crates/NAME/more-edits/, of which
there may be any number, are tried by tests/more_edits.py."""
import os
import re
import sys

GATE, MORE = "must-fail", "more-edits"
# How many edits the gate may have, in a crate and in all.
MOST_IN_A_CRATE, MOST = 8, 110


def edits_in(root, crate, folder):
    """The names of the edits of a crate in one of its two folders."""
    at = f"{root}/crates/{crate}/{folder}"
    return [it for it in sorted(os.listdir(at)) if not it.endswith(".md")] if os.path.isdir(at) else []


def why_not(folder, edit):
    """The reason why an edit cannot be applied to the crate in this folder, or nothing."""
    if not re.fullmatch(r"[a-z0-9_]+\.edit", os.path.basename(edit)):
        return "its name must consist of lower-case letters, digits and _"
    path, old, texts = None, None, {}
    with open(edit, encoding="utf-8") as file:
        lines = file.read().split("\n")
    for line in lines:
        if line.startswith("file: "):
            path = line[len("file: ") :].strip()
            if not os.path.isfile(f"{folder}/{path}"):
                return f"there is no file {path}"
        elif line.startswith("old: "):
            old = line[len("old: ") :]
        elif line.startswith("new:"):
            if not path or not old:
                return "a 'new:' line comes before any 'file:' or 'old:' line"
            if path not in texts:
                with open(f"{folder}/{path}", encoding="utf-8") as file:
                    texts[path] = file.read()
            new = line[len("new:") :].removeprefix(" ")
            if texts[path].count(old) != 1:
                return f"an 'old:' text occurs {texts[path].count(old)} times in {path}"
            if old == new:
                return "an edit changes nothing"
            texts[path], old = texts[path].replace(old, new), None
    return None if texts else "it has no 'old:' and 'new:' pair"


def unfit(root, crates, folder):
    """Names each edit of these crates, in one of their two folders, that cannot be applied, and says why."""
    for crate in crates:
        for name in edits_in(root, crate, folder):
            path = f"crates/{crate}/{folder}/{name}"
            why = why_not(f"{root}/crates/{crate}", f"{root}/{path}")
            if why:
                yield f"{path}: {why}"


def twins(root, crates):
    """Names each edit whose name an edit in the other folder of the crate has, too."""
    for crate in crates:
        for name in sorted({*edits_in(root, crate, GATE)} & {*edits_in(root, crate, MORE)}):
            yield f"crates/{crate}/{MORE}/{name}: {GATE}/ has one of this name too"


def passed_budgets(counts):
    """The numbers that are too large, from the number of edits that the gate has for each crate."""
    for crate, count in counts.items():
        if count > MOST_IN_A_CRATE:
            yield f"crates/{crate}/{GATE} has {count} edits, and a crate may have {MOST_IN_A_CRATE}: move some to {MORE}/"
    if sum(counts.values()) > MOST:
        yield f"the gate has {sum(counts.values())} edits, and may have {MOST}: move some to the {MORE}/ of their crates"


def counts_of(root, crates, folder):
    """How many edits the crates have in one of their two folders, for those that have any."""
    counts = {crate: len(edits_in(root, crate, folder)) for crate in crates}
    return {crate: count for crate, count in counts.items() if count}


def told(counts):
    return f"{sum(counts.values())} ({', '.join(f'{crate} {count}' for crate, count in counts.items())})"


def main(words):
    root = words[1] if words[:1] == ["--root"] else os.path.dirname(os.path.dirname(os.path.abspath(__file__)))
    crates = sorted(os.listdir(f"{root}/crates"))
    of_gate, more = (counts_of(root, crates, folder) for folder in (GATE, MORE))
    faults = [*unfit(root, crates, GATE), *unfit(root, crates, MORE), *twins(root, crates), *passed_budgets(of_gate)]
    for it in faults:
        print(it)
    print(f"edits: the gate has {told(of_gate)}; make edits tries {told(more)}; {len(faults)} faults")
    return 1 if faults else 0


if __name__ == "__main__":
    sys.exit(main(sys.argv[1:]))
