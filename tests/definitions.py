"""Makes docs/DEFINITIONS.md from the comments in the specs/ of the crates, and checks that the page is up to date.

usage: tests/definitions.py                          names each difference; exit status 1 if there is one
       tests/definitions.py --write                  makes the page
       tests/definitions.py --all                    prints the same for all definitions that public contracts reach
       tests/definitions.py --compare BEFORE AFTER   the definitions that public contracts reach: which were lost or added
                                                     from one folder to the other, and which have another text
       tests/definitions.py --behind CRATE::NAME..   each module with the definitions behind these names: those that the
                                                     definitions of this name use, directly or not, and these definitions
                                                     themselves, or those that the contracts of the public functions of
                                                     this name use

The page has the definitions on which a yes rests, each with its comment and its formula. A public contract consists of the clauses of a
public function, or of the ghost items of a public type or trait, except invariants. It reaches the definitions that it names, and those
that these definitions name in turn. It must not reach a module in specs/inside/, or a module whose first comment says that it serves
private contracts.

Each definition that a public contract reaches must have a comment that says more than its name: the lines right above it, without a
blank line between, or the first comment of a module that has no other definition. A comment above one definition does not count for
the next ones.

The crates are in the order and under the headings of crates.txt, each with the first sentence of its src/lib.rt. The modules of a
crate are in the order in which its Lib.antt names them, except that each comes after those that it uses."""
import os
import re
import sys
import textwrap

from clauses import matched
from rattle_sources import crates_of, functions_of, modules_of

ROOT = os.path.dirname(os.path.dirname(os.path.abspath(__file__)))
PAGE = "docs/DEFINITIONS.md"
WIDTH = 120
# These say how a value is stored, which is not a contract for callers.
INSIDE = ("invariant", "inverse")
# A comment that consists of these words and of those of the name says nothing.
SMALL = "a all an and are as at be by each for from has have in is it its no not of on one or that the this to what which with"

# What a yes says: `IsSafe` of a program and its declaration, which bytes are the text of a declaration or a tape, and what a tape puts
# into memory.
YES = ("policy::IsSafe", "declaration::Declares", "bin_tape::IsTape", "peripherals::image_of")

OWN = """\
Contracts also use definitions of the toolchain: numbers, lists, options and results with their tests (`IfOk`, `IfErr`, `IfSome`), \
`bit_and` and `bit_or` for operations bit by bit, `codes` for the bytes of a text, `decimal` and `lines`; and, for sources and \
sinks, `Appends` (the given bytes are added to the known bytes) and `Consumes` (the known bytes begin with the given ones, which are \
then removed). A name that is taken from `specs.declared` of a crate is that of a public type in the crate's `src/`. A name that \
occurs in several modules may mean something different in each of them.
"""

FRONT = """\
# The definitions on which a yes rests, in reading order

This page is for readers who want to know exactly what a yes of `pdp8` means. A yes says that a program is safe: no run violates its \
declaration. The definitions below say what that means, and nothing else does. The prover ensures that the code complies with them. \
Whether they describe a PDP-8, a tape and a safe program correctly, only a reader can judge. So each definition is here, under its \
module, with its comment and its formula. Each crate comes after those that it uses, and so does each module of a crate. The last \
definition, `IsSafe`, is what a yes says.

The words of the answer itself, and how it is written, are defined in `diagnostics` and `command_parts`: \
[THEOREM](THEOREM.md#what-must-be-believed) lists these definitions.

""" + OWN + """
`python3 tests/definitions.py --all` prints a page like this one with all definitions that the contract of some public function, \
type or trait reaches, and `--behind CRATE::NAME` lists the definitions that a name uses. What neither of them prints need not be \
believed; this is everything under `proofs/`, and the definitions that only private contracts cite. `tests/definitions.py --write` \
makes this page, and `make test` fails if it is out of date.
"""

FRONT_OF_ALL = """\
# The definitions, in reading order

This page is for readers who want to know exactly what is promised about the code. The promises are stated with these definitions: \
those that the contract of a public function, type or trait reaches.

""" + OWN


class Definitions:
    """The definitions of all crates, each by crate, module and name."""

    def __init__(self, root):
        self.root = root
        self.folders = crates_of(root)
        self.modules = {crate: modules_of(folder) for crate, folder in self.folders.items()}
        # What a name of a module belongs to: a constructor to its type, and each definition to itself.
        self.owners = {}
        for crate, modules in self.modules.items():
            for module in modules.values():
                for it in module.definitions.values():
                    self.owners.update({(crate, module.name, part): (crate, module.name, it.name) for part in it.parts})
                self.owners.update({(crate, module.name, it): (crate, module.name, it) for it in module.definitions})

    def definition(self, key):
        return self.modules[key[0]][key[1]].definitions[key[2]]

    def named(self, text, imports, own=None, bound=()):
        """The definitions that a text names, except bound names. Imports and the module itself say what names mean."""
        here = {}
        for name, path in imports:
            if path[0] == "Rattle" and len(path) > 3 and path[2] == "specs":
                here[name] = path[1], path[3:]
        for said in re.findall(r"[\w']+(?:\.[\w']+)*", text):
            first, *rest = said.split(".")
            if first in bound:
                continue
            if first in here:
                crate, path = here[first]
                for whole in (path, (*path, *rest[:1])):
                    key = crate, ".".join(whole[:-1]), whole[-1]
                    if key in self.owners:
                        yield self.owners[key]
            elif own and (*own, first) in self.owners:
                yield self.owners[(*own, first)]

    def used(self, key):
        """The definitions that a definition names, one equation or field after another; fields are bound in those below."""
        module, text, above = self.modules[key[0]][key[1]], self.definition(key).text, set()
        for part in re.split(rf"\n(?= *{re.escape(key[2])}\b|\s+pub [\w']+ :)", text):
            yield from self.named(part, module.imports, key[:2], above | bound_in(part, key[2]))
            if re.match(r" *pub record", text):
                above |= bound_in(part) | {*re.findall(r"^\s+pub ([\w']+) :", part)}

    def cited(self, function):
        """The definitions that the contract of a function names."""
        parameters = set(re.findall(r"(\w+):", function.head))
        for text in [it[2] for it in function.clauses if it[1] not in INSIDE]:
            yield from self.named(text, function.imports, None, parameters | bound_in(text))

    def closed(self, ahead, why, found):
        """Adds these definitions, and all that they name, to those that were found, each with the reason."""
        ahead = list(ahead)
        while ahead:
            key = ahead.pop()
            if key not in found:
                found[key] = why
                ahead += self.used(key)

    def reached(self):
        """Each definition that a public contract reaches, with a function whose contract does."""
        found = {}
        for crate, folder in self.folders.items():
            for function in functions_of(crate, folder):
                self.closed(self.cited(function), f"{crate}::{function.name}", found)
        return found

    def behind(self, names):
        """The definitions behind these names."""
        found = {}
        for name in names:
            crate, _, rest = name.partition("::")
            modules, folder = self.modules.get(crate, {}), self.folders.get(crate)
            ahead = [(crate, it.name, rest) for it in modules.values() if rest in it.definitions]
            called = [it for it in functions_of(crate, folder) if it.name == rest] if folder else []
            if not ahead and not called:
                raise KeyError(name)
            self.closed(ahead + [key for it in called for key in self.cited(it)], name, found)
        return found


def bound_in(text, name=None):
    """The names that a clause, or an equation or a field of a definition, binds itself."""
    groups = re.findall(r"λ ([\w' ]+)\.", text) + re.findall(r"\(([\w' ]+) :", text)
    left = re.match(rf" *{re.escape(name)} ([^=]*?)=(?!=)", text) if name else None
    groups += re.findall(r"[\w']+", left[1]) if left else []
    return {it for group in groups for it in group.split() if it[:1].islower() or it == "_"}


def crates_in_order(root):
    """The headings of crates.txt, each with the names of its crates."""
    found = []
    with open(f"{root}/crates.txt", encoding="utf-8") as file:
        for part in re.split(r"\n\s*\n", file.read()):
            heading = re.match(r"# (.*)", part)
            found.append((heading[1] if heading else "", re.findall(r"^(\w+):", part, re.M)))
    return found


def sentence_of(folder):
    """The first sentence that a crate says about itself."""
    with open(f"{folder}/src/lib.rt", encoding="utf-8") as file:
        said = " ".join(it[3:].strip() for it in file if it.startswith("//!"))
    first = re.match(r".*?\.(?=\s|$)", said)
    return first[0] if first else ""


def in_order(crate, modules):
    """The modules of a crate, each after those that it uses."""
    found, begun = [], set()

    def take(module):
        if module.name in begun:
            return
        begun.add(module.name)
        used = [".".join(path) + "." for _, path in module.imports]
        for other in modules.values():
            if any(it.startswith(f"Rattle.{crate}.specs.{other.name}.") for it in used):
                take(other)
        found.append(module)

    for module in modules.values():
        take(module)
    return found


def comment_of(module, definition):
    """The comment of a definition, or nothing."""
    return definition.comment or (module.first if len(module.definitions) == 1 else "")


def said_by(text):
    """The words of a name or a comment, in lower case, each without an s at its end."""
    return {it.lower().rstrip("s") for it in re.findall(r"[a-z0-9]+|[A-Z]+[a-z0-9]*", text)}


def says_nothing(name, comment):
    """Whether a comment says no more than the name below it; whatever is between backquotes says something."""
    return "`" not in comment and not said_by(comment) - said_by(name) - said_by(SMALL)


def wrapped(text, indent=""):
    """The text in lines that fit a screen; none begins with a mark that Markdown takes for a list or a heading."""
    held = re.sub(r" (?=([-+*#>]|\d+[.)])( |$))", "\0", text)
    lines = textwrap.wrap(held, WIDTH, subsequent_indent=indent, break_long_words=False, break_on_hyphens=False)
    return "\n".join(lines).replace("\0", " ")


def shown(module, definition):
    """A definition: its name, its comment and its formula."""
    formula = definition.text.strip()
    return wrapped(f"**`{definition.name}`** {comment_of(module, definition) or 'no comment'}") + f"\n\n```antt\n{formula}\n```"


def page(definitions, reached, front):
    """The text of the page of these definitions."""
    parts = [re.sub(r"[^\n]+", lambda it: wrapped(it[0]), front).strip()]
    for heading, crates in crates_in_order(definitions.root):
        used = [it for it in crates if any(key[0] == it for key in reached)]
        parts += [f"## {heading}"] if used else []
        for crate in used:
            parts += [f"### {crate}", wrapped(sentence_of(definitions.folders[crate]))]
            for module in in_order(crate, definitions.modules[crate]):
                taken = [it for it in module.definitions.values() if (crate, module.name, it.name) in reached]
                if taken:
                    file = f"crates/{crate}/specs/{module.name.replace('.', '/')}.antt"
                    parts += [f"#### [{module.name}](../{file})", wrapped(module.first), *(shown(module, it) for it in taken)]
    return "\n\n".join(it for it in parts if it) + "\n"


def page_of_yes(definitions):
    """The text of the page of the definitions that a yes rests on."""
    return page(definitions, definitions.behind(YES), FRONT)


def lacking(definitions, reached):
    """The definitions that are reached and have no comment, or one that says nothing."""
    for key in sorted(reached):
        if says_nothing(key[2], comment_of(definitions.modules[key[0]][key[1]], definitions.definition(key))):
            yield key


def differences(definitions, reached):
    """What is wrong with the definitions and with the page."""
    known = {it for _, crates in crates_in_order(definitions.root) for it in crates}
    for crate in sorted({it[0] for it in reached} - known):
        yield f"crates.txt has no crate {crate}"
    for key in sorted(reached):
        if definitions.modules[key[0]][key[1]].is_private:
            yield f"{key[0]}, {key[1]} serves private contracts, but {reached[key]} reaches {key[2]}"
    for key in lacking(definitions, reached):
        yield f"{key[0]}, {key[1]}: {key[2]}, which {reached[key]} reaches, has no comment that says more than its name"
    if not os.path.isfile(f"{definitions.root}/{PAGE}"):
        yield f"there is no {PAGE}: tests/definitions.py --write makes it"
        return
    with open(f"{definitions.root}/{PAGE}", encoding="utf-8") as file:
        if file.read() != page_of_yes(definitions):
            yield f"{PAGE} is out of date: tests/definitions.py --write makes it again"


def texts(root):
    """The definitions that public contracts reach: crate, name, and the lines of each."""
    definitions = Definitions(root)
    for key in sorted(definitions.reached()):
        lines = definitions.definition(key).text.split("\n")
        yield key[0], key[2], [" ".join(it.split()) for it in lines if it.strip() and it.strip() != "--"]


def compared(before, after):
    """What changed in the definitions, one text for each."""
    for old, new in matched(list(texts(before)), list(texts(after))):
        if new is None or old is None:
            yield f"{'LOST' if new is None else 'added'} {'::'.join((old or new)[:2])}"
        elif old[2] != new[2]:
            gone = [f"    - {it}" for it in old[2] if it not in new[2]]
            come = [f"    + {it}" for it in new[2] if it not in old[2]]
            yield "\n".join([f"CHANGED {new[0]}::{new[1]}", *gone, *come])


def told_behind(definitions, names):
    """A line for each module with definitions behind these names: how many there are, how many lines it has, and which."""
    found = definitions.behind(names)
    lines_of_all = 0
    crates = [crate for _, crates in crates_in_order(definitions.root) for crate in crates if crate in definitions.modules]
    modules = [(crate, it) for crate in crates for it in in_order(crate, definitions.modules[crate])]
    shown = [(crate, it) for crate, it in modules if any(key[:2] == (crate, it.name) for key in found)]
    for crate, module in shown:
        taken = [it for it in module.definitions if (crate, module.name, it) in found]
        file = f"crates/{crate}/specs/{module.name.replace('.', '/')}.antt"
        with open(f"{definitions.root}/{file}", encoding="utf-8") as text:
            count = len(text.readlines())
        lines_of_all += count
        yield wrapped(f"{crate} {module.name}: {len(taken)} of {len(module.definitions)} definitions, in {count} lines: {' '.join(taken)}", "    ")
    yield f"behind {' '.join(names)}: {len(found)} definitions in {len(shown)} modules of {lines_of_all} lines"


def main(words):
    if words[:1] == ["--compare"] and len(words) == 3:
        print("\n".join(sorted(compared(*words[1:]))))
        return 0
    if words[:1] == ["--behind"] and len(words) > 1:
        try:
            print("\n".join(told_behind(Definitions(ROOT), words[1:])))
        except KeyError as error:
            print(f"there is no definition and no public function {error.args[0]}", file=sys.stderr)
            return 1
        return 0
    if words == ["--all"]:
        definitions = Definitions(ROOT)
        print(page(definitions, definitions.reached(), FRONT_OF_ALL), end="")
        return 0
    if words not in ([], ["--write"]):
        print(__doc__, file=sys.stderr)
        return 2
    definitions = Definitions(ROOT)
    reached = definitions.reached()
    if words:
        with open(f"{ROOT}/{PAGE}", "w", encoding="utf-8") as file:
            file.write(page_of_yes(definitions))
    found = list(differences(definitions, reached))
    print("".join(f"{it}\n" for it in found), end="")
    print(f"definitions: {len(definitions.behind(YES))} behind a yes, {len(reached)} in all public contracts, {len(found)} differences")
    return 1 if found else 0


if __name__ == "__main__":
    sys.exit(main(sys.argv[1:]))
