"""A second assembler of PAL III, written from the language's description alone, for comparing.

`assemble(parts, profile)` takes the parts of a source as bytes and gives a `Program`, or raises a
`Fault` with its code, part and line. It is made to be read beside docs/PAL.md and is slow.
"""
import re
from dataclasses import dataclass

MEMORY_REFERENCES = {"AND": 0o0000, "TAD": 0o1000, "ISZ": 0o2000, "DCA": 0o3000, "JMS": 0o4000, "JMP": 0o5000}

PERMANENT = MEMORY_REFERENCES | {
    "I": 0o0400, "Z": 0o0000,
    "NOP": 0o7000, "CLA": 0o7200, "CLL": 0o7100, "CMA": 0o7040, "CML": 0o7020, "RAR": 0o7010, "RTR": 0o7012,
    "RAL": 0o7004, "RTL": 0o7006, "IAC": 0o7001, "SMA": 0o7500, "SZA": 0o7440, "SPA": 0o7510, "SNA": 0o7450,
    "SNL": 0o7420, "SZL": 0o7430, "SKP": 0o7410, "OSR": 0o7404, "HLT": 0o7402, "CIA": 0o7041, "LAS": 0o7604,
    "STL": 0o7120, "STA": 0o7240, "GLK": 0o7204,
    "ION": 0o6001, "IOF": 0o6002, "RSF": 0o6011, "RRB": 0o6012, "RFC": 0o6014, "PSF": 0o6021, "PCF": 0o6022,
    "PPC": 0o6024, "PLS": 0o6026, "KSF": 0o6031, "KCC": 0o6032, "KRS": 0o6034, "KRB": 0o6036, "TSF": 0o6041,
    "TCF": 0o6042, "TPC": 0o6044, "TLS": 0o6046,
}
PERMANENT_8E = PERMANENT | {
    "MQL": 0o7421, "MQA": 0o7501, "SWP": 0o7521, "CAM": 0o7621, "BSW": 0o7002, "KCF": 0o6030, "TFL": 0o6040,
}
DIRECTIVES = ("DECIMA", "OCTAL", "PAUSE")
IGNORED = (0, 0o14, 0o177)


class Fault(Exception):
    """The fault of a source: its code, its part and the line in it."""

    def __init__(self, code, part, line):
        super().__init__(f"{code} {part} {line}")
        self.code, self.part, self.line = code, part, line


@dataclass
class Statement:
    """What one statement is: its tags, its form, the name that is assigned, and the terms.

    A term is a pair: what joins it to those before it (one of space, plus and minus), and its text.
    A first term without a sign is joined by an empty text.
    """
    part: int
    line: int
    tags: list
    form: str
    name: str
    terms: list


@dataclass
class Word:
    """A word to be assembled: where it stands, its terms and the values of its numbers."""
    statement: Statement
    location: int
    values: list


class Program:
    """An assembled source."""

    def __init__(self, image, symbols, lines):
        self.image, self.symbols, self.lines = image, symbols, lines

    def listing(self):
        """The listing as text."""
        out = []
        for text, words in self.lines:
            if words:
                out.append(f"{words[0][0]:04o}  {words[0][1]:04o}  {text}")
                out += [f"{at:04o}  {word:04o}" for at, word in words[1:]]
            else:
                out.append(" " * 12 + text if text else "")
        out.append("")
        out += [f"{name:6}  {value:04o}" for name, value in self.symbols.items()]
        return "".join(line + "\n" for line in out)


def lines_of(part):
    """The lines of a part, without channel 8 and the ignored bytes."""
    lines, line, after_return = [], "", False
    for byte in part:
        code = byte & 0o177
        if code in IGNORED or (code == 0o12 and after_return):
            continue
        after_return = code == 0o15
        if code in (0o12, 0o15):
            lines.append(line)
            line = ""
        else:
            line += chr(code)
    return lines + [line] if line else lines


def six(symbol):
    return symbol[:6]


def is_name(token):
    return re.fullmatch(r"[A-Z][A-Z0-9]*", token) is not None


def expression(tokens):
    """The terms of an expression; a ValueError where it has no form."""
    terms, joiner = [], ""
    if tokens[:1] and tokens[0] in "+-":
        joiner, tokens = tokens[0], tokens[1:]
    while True:
        if not tokens or not re.fullmatch(r"[A-Z][A-Z0-9]*|[0-9]+|\.", tokens[0]) or six(tokens[0]) in DIRECTIVES:
            raise ValueError("no term")
        terms.append((joiner, six(tokens[0]) if tokens[0][0].isalpha() else tokens[0]))
        tokens = tokens[1:]
        if not tokens:
            return terms
        if tokens[0] not in " +-":
            raise ValueError("no joiner")
        joiner, tokens = tokens[0], tokens[1:]


def statement(part, line, text):
    """The statement that a text spells; a ValueError where it has no form."""
    text = re.sub(r" *([,=+-]) *", r"\1", re.sub(r"[ \t]+", " ", text).strip(" "))
    tokens = re.findall(r"[A-Z0-9]+|.", text, re.S)
    tags = []
    while len(tokens) > 1 and tokens[1] == "," and is_name(tokens[0]):
        tags.append(six(tokens[0]))
        tokens = tokens[2:]
    if not tokens:
        form, name, terms = "nothing", "", []
    elif len(tokens) == 1 and six(tokens[0]) in DIRECTIVES:
        form, name, terms = six(tokens[0]), "", []
    elif tokens[0] == "*":
        form, name, terms = "origin", "", expression(tokens[1:])
    elif len(tokens) > 1 and tokens[1] == "=" and is_name(tokens[0]):
        form, name, terms = "assign", six(tokens[0]), expression(tokens[2:])
    else:
        form, name, terms = "word", "", expression(tokens)
    return Statement(part, line, tags, form, name, terms)


def cut(part, number):
    """The statements of a part, the lines that are listed, and whether the program ends in it."""
    statements, listed = [], []
    for at, line in enumerate(lines_of(part), 1):
        code = line.split("/")[0]
        dollar = "$" in code
        code = code.split("$")[0]
        place = 0
        for text in code.split(";"):
            try:
                found = statement(number, at, text)
            except ValueError:
                raise Fault("IC", number, at) from None
            statements.append(found)
            if found.form == "PAUSE":
                end = place + len(text.rstrip(" \t"))
                return statements, listed + [line[:end].lstrip(" \t")], False
            place += len(text) + 1
        listed.append((line[:len(code) + 1] if dollar else line).lstrip(" \t"))
        if dollar:
            return statements, listed, True
    return statements, listed, False


class Assembler:
    """The state in which statements are taken in their order."""

    def __init__(self, permanent, last):
        self.permanent, self.last = permanent, last
        self.symbols, self.words = {}, []
        self.location, self.radix = 0o200, 8

    def known(self, name):
        return self.permanent.get(name, self.symbols.get(name))

    def give(self, name, value, code, where):
        """Gives a symbol a value; `code` is the fault where it has another."""
        if name in DIRECTIVES or self.known(name) not in (None, value):
            raise Fault(code, where.part, where.line)
        if self.known(name) is None:
            if len(self.symbols) == 1024:
                raise Fault("ST", where.part, where.line)
            self.symbols[name] = value

    def numbers(self, where):
        """The values of the terms, None for a symbol."""
        values = []
        for _, term in where.terms:
            if not term.isdigit():
                values.append(self.location if term == "." else None)
                continue
            if self.radix == 8 and re.search("[89]", term):
                raise Fault("IC", where.part, where.line)
            values.append(int(term, self.radix))
            if values[-1] > 0o7777:
                raise Fault("NB", where.part, where.line)
        return values

    def value(self, where, values, first=0):
        """The value of the terms from a place on."""
        total = 0
        for (joiner, term), value in list(zip(where.terms, values))[first:]:
            if value is None:
                value = self.known(term)
                if value is None:
                    raise Fault("UA", where.part, where.line)
            total = total + value if joiner == "+" else total - value if joiner == "-" else total | value
            total %= 4096
        return total

    def take(self, where):
        """Takes one statement."""
        values = self.numbers(where)
        for tag in where.tags:
            self.give(tag, self.location, "DT", where)
        if where.form == "origin":
            self.location = self.value(where, values)
        elif where.form == "assign":
            self.give(where.name, self.value(where, values), "RD", where)
        elif where.form == "word":
            self.words.append(Word(where, self.location, values))
            self.location = (self.location + 1) % 4096
        elif where.form == "PAUSE" and where.part == self.last:
            raise Fault("PA", where.part, where.line)
        elif where.form in ("DECIMA", "OCTAL"):
            self.radix = 10 if where.form == "DECIMA" else 8

    def encode(self, word):
        """The value of a word."""
        where, terms = word.statement, word.statement.terms
        if terms[0][0] or terms[0][1] not in MEMORY_REFERENCES:
            return self.value(where, word.values)
        chosen, at = set(), 1
        while at < len(terms) and terms[at][0] == " " and terms[at][1] in {"I", "Z"} - chosen:
            chosen.add(terms[at][1])
            at += 1
        address = self.value(where, word.values, at)
        code = MEMORY_REFERENCES[terms[0][1]] | (0o400 if "I" in chosen else 0)
        if address < 0o200:
            return code | address
        if "Z" in chosen or address & 0o7600 != word.location & 0o7600:
            raise Fault("IR", where.part, where.line)
        return code | 0o200 | address & 0o177


def assemble(parts, profile="8i"):
    """The program of a source's parts."""
    if not 1 <= len(parts) <= 16:
        raise Fault("TL", 0, 0)
    for number, part in enumerate(parts, 1):
        if len(part) > 65536:
            raise Fault("TL", number, 0)
    state = Assembler(PERMANENT_8E if profile == "8e" else PERMANENT, len(parts))
    listed = []
    for number, part in enumerate(parts, 1):
        statements, lines, ended = cut(part, number)
        listed += [(number, at, text) for at, text in enumerate(lines, 1)]
        for where in statements:
            state.take(where)
        if ended:
            break
    image, words = {}, {}
    for word in state.words:
        image[word.location] = state.encode(word)
        words.setdefault((word.statement.part, word.statement.line), []).append((word.location, image[word.location]))
    return Program(image, state.symbols, [(text, words.get((number, at), [])) for number, at, text in listed])
