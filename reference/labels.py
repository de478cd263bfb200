"""The declaration in the comments of a source, in numbers, written from docs/DECLARATIONS.md alone."""
import re

import pal

ADDRESS = r"(?:[A-Z][A-Z0-9]*(?:[+-][0-7]{1,4}(?![0-7]))?|[0-7]{1,4})"


def address(written, symbols):
    name, sign, number = re.fullmatch(r"([A-Z0-9]+)(?:([+-])([0-7]+))?", written).groups()
    value = symbols[name[:6]] if name[0].isalpha() else int(name, 8)
    return value + (int(number, 8) * (-1 if sign == "-" else 1) if sign else 0)


def placed(word, symbols):
    """A word in numbers."""
    if not re.search("[A-Z]", word):
        return word
    ends = re.fullmatch(rf"({ADDRESS})(?:-({ADDRESS}))?", word).groups()
    return "-".join(f"{address(end, symbols):04o}" for end in ends if end)


def program(source):
    """The image of a source and the text of the declaration in its comments."""
    lines = [line.split("/:")[1].split("/")[0].split() for line in source.decode("latin-1").splitlines() if "/:" in line]
    profile = next((words[1] for words in lines if words[:1] == ["profile"]), "8i")
    assembled = pal.assemble([source], profile)
    return assembled.image, "".join(
        " ".join(words[:1] + [placed(word, assembled.symbols) for word in words[1:]]) + "\n" for words in lines)
