"""Reads the sources of the crates as far as the other scripts in this folder need them: the public functions with their contracts
in src/, and the definitions in specs/. It expects the layout that rt fmt makes, and understands only the part of the language
that occurs in this repository."""
import os
import re

WORD = r"[^\W\d][\w']*"
TOKENS = re.compile(
    rf"""(?P<comment>//[^\n]*|/\*.*?\*/)|(?P<text>b?"(?:[^"\\]|\\.)*"|b?'(?:[^'\\]|\\[^']+)')"""
    rf"""|(?P<sign>->|=>|::)|(?P<word>'?{WORD}|\d\w*)|(?P<space>\s+)|(?P<other>.)""",
    re.S,
)
OPENS, CLOSES = "([{", ")]}"


def folded(text):
    """The text without comments, with one space for each run of white space."""
    parts = [" " if it.lastgroup == "comment" else it[0] for it in TOKENS.finditer(text)]
    return re.sub(r"\s+", " ", "".join(parts)).strip()


class Function:
    """A public function: its name without the crate, the words between its name and its clauses, and the clauses."""

    def __init__(self, crate, name, head, clauses, imports):
        self.crate, self.name, self.head, self.clauses, self.imports = crate, name, head, clauses, imports


class Item:
    """An item of a module: kind, name, whether it is public, and its parts."""

    def __init__(self, kind, name, is_public, **parts):
        self.kind, self.name, self.is_public = kind, name, is_public
        self.__dict__.update(parts)


class Reader:
    """Reads the items of one file."""

    def __init__(self, text):
        self.text = text
        self.tokens = [it for it in TOKENS.finditer(text) if it.lastgroup not in ("comment", "space")]
        self.at = 0

    def now(self, ahead=0):
        at = self.at + ahead
        return self.tokens[at][0] if at < len(self.tokens) else ""

    def skip_group(self):
        """Skips a bracket and everything up to the one that closes it."""
        depth = 0
        while self.at < len(self.tokens):
            token = self.now()
            depth += (token in OPENS and token != "") - (token in CLOSES and token != "")
            self.at += 1
            if depth == 0:
                return

    def group(self):
        """Returns the text within the brackets that open here, and skips them."""
        start = self.tokens[self.at].end()
        self.skip_group()
        return self.text[start : self.tokens[self.at - 1].start()]

    def until(self, *ends):
        """The text up to one of these tokens outside brackets, without the token."""
        start = self.at
        while self.at < len(self.tokens) and self.now() not in ends:
            if self.now() in OPENS:
                self.skip_group()
            else:
                self.at += 1
        if start == self.at:
            return ""
        return self.text[self.tokens[start].start() : self.tokens[self.at - 1].end()]

    def items(self, end=""):
        """The items up to a closing brace or the end of the file."""
        found = []
        while self.at < len(self.tokens) and self.now() != end:
            item = self.item()
            if item:
                found.append(item)
        return found

    def attributes(self):
        """Skips attributes, and says whether they restrict the item to tests."""
        is_test = False
        while self.now() == "#":
            self.at += 1
            self.at += self.now() == "!"
            said = folded(self.group())
            is_test = is_test or said in ("cfg(test)", "test")
        return is_test

    def item(self):
        is_test = self.attributes()
        is_public = self.now() == "pub" and self.now(1) != "("
        if self.now() == "pub":
            self.at += 1
            if self.now() == "(":
                self.skip_group()
        while self.now() in ("unsafe", "const", "extern") and self.now(1) in ("fn", "unsafe", "impl", "trait"):
            self.at += 1
        read = getattr(self, f"read_{self.now()}", None) if self.now().isidentifier() else None
        found = read(is_public) if read else self.read_other()
        return None if is_test else found

    def read_other(self):
        self.until(";", "{")
        if self.now() == "{":
            self.skip_group()
            self.at += self.now() == ";"
        else:
            self.at += 1

    def read_mod(self, is_public):
        name = self.now(1)
        self.at += 2
        inner = None
        if self.now() == "{":
            self.at += 1
            inner = self.items("}")
        self.at += 1
        return Item("mod", name, is_public, inner=inner)

    def read_use(self, is_public):
        self.at += 1
        said = folded(self.until(";"))
        self.at += 1
        return Item("use", "", is_public, names=list(used_names(said)))

    def read_ghost(self, is_public):
        self.at += 1
        if self.now() == "use":
            self.at += 1
            said = folded(self.until(";"))
            self.at += 1
            return Item("ghost use", "", False, names=list(used_names(said.replace(".", "::"))))
        name = self.now()
        self.at += 1
        said = folded(self.until(";"))
        self.at += 1
        return Item("ghost", name, True, text=said.removeprefix("=").removeprefix(":").strip().strip("{}").strip())

    def read_type(self, is_public):
        self.until(";")
        self.at += 1

    read_static = read_const = read_type

    def read_struct(self, is_public):
        kind, name = self.now(), self.now(1)
        self.until(";", "{")
        if self.now() == "{":
            self.skip_group()
        else:
            self.at += 1
        return Item(kind, name, is_public)

    read_enum = read_struct

    def read_trait(self, is_public):
        name = self.now(1)
        self.until("{")
        self.at += 1
        inner = self.items("}")
        self.at += 1
        return Item("trait", name, is_public, inner=inner)

    def read_impl(self, is_public):
        self.at += 1
        head = folded(self.until("{"))
        self.at += 1
        inner = self.items("}")
        self.at += 1
        head = re.split(r"\bwhere\b", without_parameters(head))[0].strip()
        trait, _, of = head.rpartition(" for ")
        name = re.sub(r"<.*", "", of).lstrip("&").strip()
        return Item("impl", name, True, trait=trait.strip(), inner=inner)

    def read_fn(self, is_public):
        name = self.now(1)
        self.at += 2
        start = self.at
        depth = 0
        while not (self.now() == "(" and depth == 0):
            depth += (self.now() == "<") - (self.now() == ">")
            if self.now() in OPENS:
                self.skip_group()
            else:
                self.at += 1
        self.skip_group()
        last, clauses = self.at, []
        while self.now() not in ("{", ";"):
            if self.now() in ("requires", "ensures", "where"):
                kind = self.now()
                self.at += 1
                if kind == "where":
                    self.until("{", ";", "requires", "ensures")
                    last = self.at
                    continue
                name_of = self.text[self.tokens[self.at].start() : self.tokens[self.at].end()] if self.now() != "{" else ""
                self.until("{")
                clauses.append((kind, name_of, folded(self.group())))
                self.at += self.now() == ","
            elif self.now() in OPENS:
                self.skip_group()
                last = self.at
            else:
                self.at += 1
                last = self.at
        head = folded(self.text[self.tokens[start].start() : self.tokens[last - 1].end()])
        if self.now() == "{":
            self.skip_group()
        else:
            self.at += 1
        return Item("fn", name, is_public, head=head, clauses=clauses)


def without_parameters(head):
    """The head of an impl without the parameters in angle brackets with which it begins."""
    if not head.startswith("<"):
        return head
    depth = 0
    for at, mark in enumerate(head):
        depth += (mark == "<") - (mark == ">" and head[at - 1] != "-")
        if depth == 0:
            return head[at + 1 :].strip()
    return head


def used_names(said, front=()):
    """Each name that a use imports, as (the name here, its path)."""
    said = said.strip()
    path, brace, names = said.partition("{")
    if brace:
        front = (*front, *[it.strip() for it in path.split("::") if it.strip()])
        depth, part = 0, ""
        for mark in names.rstrip()[:-1] + ",":
            depth += (mark == "{") - (mark == "}")
            if mark == "," and depth == 0:
                if part.strip():
                    yield from used_names(part, front)
                part = ""
            else:
                part += mark
        return
    path, _, other = said.partition(" as ")
    path = (*front, *[it.strip() for it in path.split("::")])
    if path[-1] == "self":
        path = path[:-1]
    yield other.strip() or path[-1], path


def read_module(folder, name, path, is_open):
    """The items of a module and of those below it, as (path, whether callers can name it, items)."""
    file = next(it for it in (f"{folder}/{name}.rt", f"{folder}/{name}/mod.rt") if os.path.isfile(it))
    with open(file, encoding="utf-8") as it:
        items = Reader(it.read()).items()
    below = folder if name in ("lib", "main", "mod") else f"{folder}/{name}"
    yield from spread(items, below, path, is_open)


def spread(items, below, path, is_open):
    yield path, is_open, items
    for item in items:
        if item.kind == "mod":
            inner = (*path, item.name)
            if item.inner is None:
                yield from read_module(below, item.name, inner, is_open and item.is_public)
            else:
                yield from spread(item.inner, f"{below}/{item.name}", inner, is_open and item.is_public)


def imports_of(items):
    return [it for item in items if item.kind == "ghost use" for it in item.names]


def functions_of(crate, folder):
    """The public functions of a crate: those that a crate above can name, methods of its public types and traits, and
    the clauses and ghost items of impls for such a type."""
    modules = list(read_module(f"{folder}/src", "lib", (), True))
    uses = [it for _, _, items in modules for item in items if item.kind == "use" and item.is_public for it in item.names]
    handed_on = {it for name, path in uses for it in (name, path[-1])}
    types = set()
    for path, is_open, items in modules:
        for item in items:
            if item.kind in ("struct", "enum", "trait") and item.is_public and (is_open or item.name in handed_on):
                types.add(item.name)
    for path, is_open, items in modules:
        above = imports_of(items)
        for item in items:
            if item.kind == "fn" and item.is_public and (is_open or item.name in handed_on):
                yield Function(crate, item.name, item.head, item.clauses, above)
            elif item.kind == "trait" and item.name in types:
                yield from members(crate, item.name, item.inner, above, lambda it: True)
            elif item.kind == "impl" and item.name in types:
                owner = f"{item.name} as {item.trait}" if item.trait else item.name
                is_shown = (lambda it: True) if item.trait else (lambda it: it.is_public)
                yield from members(crate, owner, item.inner, above, is_shown)


def members(crate, owner, items, above, is_shown):
    imports = above + imports_of(items)
    said = [("ghost", it.name, it.text) for it in items if it.kind == "ghost"]
    if said:
        yield Function(crate, owner, "", said, imports)
    for it in items:
        if it.kind == "fn" and is_shown(it):
            yield Function(crate, f"{owner}::{it.name}", it.head, it.clauses, imports)


def crates_of(root):
    """The libraries below a folder, by name: each folder with src/lib.rt."""
    top = f"{root}/crates" if os.path.isdir(f"{root}/crates") else root
    names = sorted(it for it in os.listdir(top) if os.path.isfile(f"{top}/{it}/src/lib.rt"))
    return {it: f"{top}/{it}" for it in names}


class Definition:
    """A definition of specs/: its name, its text, the comment right above it and the names that come with it."""

    def __init__(self, name, text, comment, parts):
        self.name, self.text, self.comment, self.parts = name, text, comment, parts


class Module:
    """A file of specs/: its name below specs/, its first comment, what it takes from others and its definitions."""

    def __init__(self, name, file):
        self.name = name
        with open(file, encoding="utf-8") as it:
            lines = it.read().split("\n")
        ahead = next((n for n, it in enumerate(lines) if not it.startswith("--")), 0)
        self.first = " ".join(it[2:].strip() for it in lines[:ahead])
        self.imports, self.definitions = [], {}
        comment, now = [], None
        for line in lines:
            if line.startswith("use "):
                self.imports += used_names(line[len("use ") :].replace(".", "::"))
            begins = re.match(r" *(?:(?:abbrev|unfoldable|opaque) pub|pub (?:record|data)) ([^\s:({]+)", line)
            is_comment = line.lstrip().startswith("--")
            if is_comment:
                comment.append(line.strip()[2:].strip())
            else:
                if begins:
                    now = Definition(begins[1], "", " ".join(comment), set())
                    self.definitions[now.name] = now
                comment = []
            if now and not is_comment and not line.startswith("use "):
                now.text += re.sub(r"--.*", "", line) + "\n"
        for it in self.definitions.values():
            if re.match(r" *pub data", it.text):
                it.parts = {*re.findall(r"^\s+(?:pub )?([^\s:(]+)\s*:", it.text, re.M)}

    @property
    def is_private(self):
        """Whether it serves only private contracts: it is in specs/inside/, or its first comment says so."""
        return self.name.startswith("inside.") or "private contracts" in self.first


def modules_of(folder):
    """The modules in specs/ of a crate by name, such as Words or inside.Steps, in the order in which Lib.antt names them."""
    found = {}
    for at, _, files in os.walk(f"{folder}/specs"):
        inside = os.path.relpath(at, f"{folder}/specs")
        for file in files:
            name = file.removesuffix(".antt")
            if file.endswith(".antt") and name != "Lib":
                path = name if inside == "." else f"{inside}/{name}".replace("/", ".")
                found[path] = Module(path, f"{at}/{file}")
    order = []
    if os.path.isfile(f"{folder}/specs/Lib.antt"):
        with open(f"{folder}/specs/Lib.antt", encoding="utf-8") as it:
            order = re.findall(r"^(?:pub )?mod (\S+)", it.read(), re.M)
    place = {name: at for at, name in enumerate(order)}
    return dict(sorted(found.items(), key=lambda it: (place.get(it[0], len(order)), it[0])))
