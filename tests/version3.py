"""Tests how the Python in reference/ treats version 3 of certificates: the programs of version3/ with their
certificates, variants of these programs in which one word is changed, certificates in which one line is changed, and
texts that have faults. Prints nothing if all is well.
"""
import sys
from pathlib import Path

import twins

HERE = Path(__file__).parent
sys.path.insert(0, str(HERE.parent / "reference"))
import check3  # noqa: E402
import labels  # noqa: E402
import watch  # noqa: E402

# The verdict on the certificate of each program for the variant with one other word.
TWINS = {"command": "V4 at 0207", "line": "V4 at 0215", "lookup": "V4 at 0210", "modes": "V4 at 0222",
         "moves": "V4 at 0222", "number": "V4 at 0210", "packed": "V4 at 0214", "puts": "V4 at 0221", "ring": "V4 at 0224", "shift": "V4 at 0201",
         "states": "V4 at 0225", "tell": "V4 at 0214", "tens": "V4 at 0206"}

# A program, a text in its certificate, the text that replaces it, and the verdict then.
CHANGES = [
    ("tell", "routine 0213 rank 01 sites 0202,0206 writes 0225,0233\n", "", "V7 at 0202"),
    ("tell", "0213 rank 01", "0213 rank 00", "V7 at 0220"),
    ("tell", "sites 0202,0206", "sites 0202", "V9 at 0206"),
    ("tell", "writes 0225,0233", "writes 0225", "V6 at 0216"),
    ("tell", "writes 0225,0233", "writes 0233", "V8 at 0220"),
    ("tell", "fact 0200 sites - ac 0000-7777", "fact 0200 sites - ac 0000-7776", "V1 at 0200"),
    ("tell", "fact 0200 sites - ac 0000-7777 mq 0000-7777 link 01", "fact 0200 sites - ac 0000-7777 mq 0000-7777 link 0",
     "V1 at 0200"),
    ("tell", "fact 0201 sites - ac 0000 mq 0000-7777 link 0 offsets -", "fact 0201 sites - ac 0000 mq 0000-7777 link 0 offsets 00",
     "V2 at 0201"),
    ("tell", "fact 0201 sites - ac 0000 mq 0000-7777", "fact 0201 sites - ac 0000 mq 0000-7776", "V4 at 0200"),
    ("tell", "fact 0214 sites 0202 ac 0000 mq 0000-7777 link 0 offsets 00",
     "fact 0214 sites 0206 ac 0000 mq 0000-7777 link 0 offsets 00", "V10 at 0202"),
    ("tell", "fact 0214 sites 0202 ac 0000 mq 0000-7777 link 0 offsets 00",
     "fact 0214 sites 0202 ac 0000 mq 0000-7777 link 0 offsets 01", "V10 at 0202"),
    ("tell", "exit 0213 02 sites 0206 ac 0000 mq 0000-7777 link 0\n", "", "V12 at 0224"),
    ("tell", "exit 0213 02 sites 0206", "exit 0213 02 sites 0202", "V11 at 0202"),
    ("tell", "exit 0213 02 sites 0206 ac 0000", "exit 0213 02 sites 0206 ac 0001", "V11 at 0206"),
    ("tell", "exit 0213 02 sites 0206 ac 0000 mq 0000-7777 link 0", "exit 0213 02 sites 0206 ac 0000 mq 0000-7777 link 1",
     "V11 at 0206"),
    ("tens", "sum 0225 0012 0226 in 0000-0065,7766-7777", "sum 0225 0012 0226 in 0000-0064,7766-7777", "V4 at 0211"),
    ("tens", "sum 0225 0012 0226 in 0000-0065,7766-7777", "sum 0225 0012 0226 in 0000-0065,7767-7777", "yes"),
    ("tens", "sum 0225 0012 0226 in 0000-0065,7766-7777\n", "", "V4 at 0212"),
    ("tens", "cell 0226 0001-0006\nsum 0225 0012 0226", "cell 0226 0001-0006\nsum 0225 0013 0226", "V4 at 0212"),
    ("tens", "sum AC - 0226 in 0000\n", "", "V4 at 0216"),
    ("tens", "sum AC - 0226 in 0000", "sum AC - 0226 in 0001", "V4 at 0215"),
    ("tens", "sum 0226 - 0227 in 7400\n", "", "V5 at 0220"),
    ("tens", "sum 0226 - 0227 in 7400", "sum 0226 - 0227 in 7401", "V4 at 0217"),
    ("tens", "cell 0226 0000-0005", "cell 0226 0000-0004", "V4 at 0211"),
    ("line", "sum AC + 0243 in 0000-0010\n", "", "V4 at 0230"),
    ("line", "sum AC + 0243 in 0000-0010", "sum AC + 0243 in 0000-0007", "V4 at 0227"),
    ("line", "sum AC - 0243 + 0244 in 0000\n", "", "V4 at 0231"),
    ("line", "sum AC - 0243 + 0244 in 0000", "sum AC - 0243 + 0244 in 0001", "V4 at 0230"),
    ("lookup", "sum AC - [0236+0000] in 0000\n", "", "V4 at 0211"),
    ("lookup", "sum AC - [0236+0000] in 0000", "sum AC - [0236+0001] in 0000", "V4 at 0210"),
    ("lookup", "sum AC - [0236+0000] in 0000", "sum AC + [0236+0000] in 0000", "V4 at 0210"),
    ("lookup", "sum AC - [0236+0000] in 0000", "sum AC - [0236+0000] in 0001", "V4 at 0210"),
    ("lookup", "sum AC - [0236+0000] in 0000", "sum 0237 - [0236+0000] in 0000", "V4 at 0210"),
    ("command", "func 0230 0000 link 01 AND 0370\n", "", "V4 at 0210"),
    ("command", "func 0230 0000 link 01 AND 0370", "func 0230 0000 link 01 AND 0371", "V4 at 0207"),
    ("command", "func 0230 0000 link 01 AND 0370", "func 0230 0001 link 01 AND 0370", "V4 at 0207"),
    ("command", "func 0230 0000 link 01 AND 0370", "func 0230 0000 link 0 AND 0370", "V4 at 0207"),
    ("command", "func 0230 0000 link 01 AND 0370", "func 0230 0000 link 01 AND 0370 7000", "yes"),
    ("command", "func 0230 0000 link 01 AND 0370", "func 0230 0000 link 01 AND 0370 7001", "V4 at 0207"),
]

FACT = "fact {} sites - ac 0000 mq 0000 link 0 offsets {}"
TEXTS = [
    ("", "Version"), ("PDP8-CERTIFICATE 3", "Version"), ("PDP8-CERTIFICATE 4\nend\n", "Version"),
    ("PDP8-CERTIFICATE 3\n", "BadLine 2"), ("PDP8-CERTIFICATE 3\nend", "BadLine 2"),
    ("PDP8-CERTIFICATE 3\nend\n", "good"), ("PDP8-CERTIFICATE 3\nend\nend\n", "BadLine 3"),
]
LINES = [
    ([FACT.format("0200", "-")] * 2, "good"), ([FACT.format("0201", "-"), FACT.format("0200", "-")], "Order 3"),
    ([FACT.format("0200", "00,01")], "BadLine 2"), ([FACT.format("0200", "00-01,05,77")], "good"),
    ([FACT.format("0200", "0")], "BadLine 2"), ([FACT.format("0200", "100")], "BadLine 2"), (["cell 0200 0000"], "BadLine 2"),
    (["exit 0200 00 sites 0200 ac 0000 mq 0000 link 0"] * 2, "good"),
    (["exit 0200 0 sites 0200 ac 0000 mq 0000 link 0"], "BadLine 2"),
    (["exit 0200 00 sites 0200 ac 0000 mq 0000 link 0", FACT.format("0200", "-")], "Order 3"),
    (["routine 0200 rank 00 sites - writes -"] * 2, "Order 3"),
]
BELOW = [
    ("cell 0200 -", "BadLine 3"), ("cell 0200 0000,0001", "BadLine 3"), ("cell 0201 0000;cell 0200 0000", "Order 4"),
    ("cell 0200 0000;cell 0200 0000", "Order 4"), ("sum AC - 0200 in 0000;cell 0200 0000", "Order 4"),
    ("sum AC + 0200 in 0000;sum AC + 0200 - 0201 in 0000;sum AC - 0200 in 0000;sum AC - 0200 + 0201 in 0000;"
     "sum AC + [0200+0000] in 0000;sum AC - [0200+0000] in 0000;sum AC + [0200+0001] in 0000;sum 0200 + 0201 in 0000;"
     "sum 0200 0002 0201 in 0000;sum 0200 - 0201 in 0000;sum 0200 - [0201+0000] in 0000", "good"),
    ("sum AC - 0200 in 0000;sum AC + 0200 in 0000", "Order 4"), ("sum 0200 - 0201 in 0000;sum AC - 0200 in 0000", "Order 4"),
    ("sum AC - 0200 in 0000;sum AC - 0200 in 0001", "Order 4"), ("sum AC - 0200 0000", "BadLine 3"),
    ("sum AC in 0000", "BadLine 3"), ("sum 0200 in 0000", "BadLine 3"), ("sum AC - 0200 in -", "BadLine 3"),
    ("sum AC - AC in 0000", "BadLine 3"), ("sum 0200 - AC in 0000", "BadLine 3"), ("sum AC - 0200 + 0200 in 0000", "BadLine 3"),
    ("sum AC + 0201 - 0200 in 0000", "BadLine 3"), ("sum AC + 0200 + 0201 in 0000", "BadLine 3"),
    ("sum AC 0002 0200 + 0201 in 0000", "BadLine 3"), ("sum AC 0002 0200 in 0000", "good"), ("sum AC 0000 0200 in 0000", "BadLine 3"),
    ("sum AC 0001 0200 in 0000", "BadLine 3"), ("sum AC 7777 0200 in 0000", "BadLine 3"), ("sum 0200 0002 AC in 0000", "BadLine 3"),
    ("sum 0201 - 0200 in 0000", "BadLine 3"), ("sum 0201 + 0200 in 0000", "BadLine 3"), ("sum 0201 0002 0200 in 0000", "good"),
    ("sum 0200 - 0200 in 0000", "BadLine 3"), ("sum 0200 - 0201 + 0202 in 0000", "BadLine 3"),
    ("sum 0200 - [0200+0000] in 0000", "BadLine 3"), ("sum [0200+0000] - 0201 in 0000", "BadLine 3"),
    ("sum AC 0002 [0200+0000] in 0000", "BadLine 3"), ("sum AC - 0201 + [0200+0000] in 0000", "BadLine 3"),
    ("sum AC - [0200-0000] in 0000", "BadLine 3"), ("sum AC - [0200+0000] in 0001,0000", "BadLine 3"),
    ("func 0200 0000 link 01 7012 AND 0077 TAD 7777", "good"), ("func 0200 0000 link 01", "BadLine 3"),
    ("func 0200 0000 link 01 7014", "BadLine 3"), ("func 0200 0000 link 01 7400", "BadLine 3"),
    ("func 0200 0000 link 01" + " 7001" * 17, "BadLine 3"), ("func 0200 0000 link 0 7001;sum AC - 0200 in 0000", "Order 4"),
    (";".join(f"cell {cell:04o} 0000" for cell in range(64)), "good"),
    (";".join(f"cell {cell:04o} 0000" for cell in range(65)), "TooMany"),
    (";".join(f"sum AC - {cell:04o} in 0000" for cell in range(32)), "good"),
    (";".join(f"sum AC - {cell:04o} in 0000" for cell in range(33)), "TooMany"),
    (";".join(f"func {cell:04o} 0000 link 0 7001" for cell in range(5)), "TooMany"),
]


def program_of(source):
    image, text = labels.program(source)
    return image, watch.declaration(text.encode())


def program(name):
    return program_of((HERE / "version3" / f"{name}.pal").read_bytes())


def judged(image, declared, text):
    try:
        failed = check3.judge(image, declared, check3.read(text))
    except check3.Fault as fault:
        return str(fault)
    return "V{} at {:04o}".format(*failed) if failed else "yes"


def read(text):
    try:
        return "good" if check3.text(check3.read(text)) == text else "another spelling"
    except check3.Fault as fault:
        return str(fault)


def cases():
    sources = twins.twins(HERE / "version3")
    whole = {name: (HERE / "version3" / f"{name}.certificate").read_text() for name in TWINS}
    for name, said in TWINS.items():
        image, declared = program(name)
        yield name, judged(image, declared, whole[name]), "yes"
        twin, _ = program_of(sources[name + "-broken"])
        yield name, sum(twin.get(at) != word for at, word in image.items()) + abs(len(twin) - len(image)), 1
        yield name + "-broken", judged(twin, declared, whole[name]), said
        yield name, read(whole[name]), "good"
    for name, old, new, said in CHANGES:
        changed = whole[name].replace(old, new, 1)
        yield (name, old, new), judged(*program(name), changed) if changed != whole[name] else "no such line", said
    texts = TEXTS + [("\n".join(["PDP8-CERTIFICATE 3", *lines, "end", ""]), said) for lines, said in LINES]
    texts += [("\n".join(["PDP8-CERTIFICATE 3", FACT.format("0200", "-"), *below.split(";"), "end", ""]), said) for below, said in BELOW]
    for text, said in texts:
        yield text[:200], read(text), said


def main():
    wrong = [f"{name}: wanted {said}, found {found}" for name, found, said in cases() if found != said]
    print("\n".join(wrong), end="\n" * bool(wrong))
    return int(bool(wrong))


if __name__ == "__main__":
    sys.exit(main())
