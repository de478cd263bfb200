"""Tries the Python in this folder on cases whose answers were worked out apart from it: sources and their words or
faults, steps, declarations, watched runs, and certificates with the first condition that fails. Says nothing where all
is well.
"""
import sys
from pathlib import Path

sys.path[:0] = [str(Path(__file__).parent), str(Path(__file__).parent.parent / "tests")]
import check  # noqa: E402
import machine  # noqa: E402
import pal  # noqa: E402
import second_reader  # noqa: E402
import sets  # noqa: E402
import tape  # noqa: E402
import watch  # noqa: E402

TOP = Path(__file__).parent.parent
HELLO = second_reader.words(tape.written(pal.assemble([(TOP / "examples" / "hello.pal").read_bytes()]).image))
HELLO_DECLARED = (TOP / "examples" / "hello.declaration").read_text()
HELLO_CERTIFICATE = (TOP / "tests" / "cases" / "programs" / "hello.certificate").read_text()
ANY = "ac 0000-7777 link 01"

SOURCES = [
    ("TAD 600", "IR 1 1"), ("*10;TAD 20;$", "0010:1020"), ("TAD Z 300", "IR 1 1"), ("X,1\nX,2\n", "DT 1 2"),
    ("A=1;A=2", "RD 1 1"), ("TAD Q", "UA 1 1"), ("8", "IC 1 1"), ("?", "IC 1 1"), ("10000", "NB 1 1"),
    ("PAUSE", "PA 1 1"),
    ("DECIMAL;-10;OCTAL;10;300 5;1 2+1;$", "0200:7766 0201:0010 0202:0305 0203:0004"), ("TA\xffD 5;$", "0200:1005"),
    ("* 200", "IC 1 1"), ("* -1;5", "7777:0005"), ("TAD I+5;TAD+5;TAD -7770", "0200:1405 0201:1005 0202:1010"),
    ("-TAD 5", "0200:7005"), ("DECIMALS;10", "0200:0012"), ("OCTALS", "UA 1 1"), ("*400;TAD I I 10", "0400:1610"),
    ("5A", "IC 1 1"), ("DECIMAL,", "DT 1 1"), ("OCTAL=1", "RD 1 1"), ("TAD=1000", ""), ("TAD=1001", "RD 1 1"),
    ("*400;I,5", "0400:0005"), ("I,5", "DT 1 1"), ("A,*300;A", "0300:0200"), ("PAUSE$", "PA 1 1"), ("MQL", "UA 1 1"),
    ("\n".join(f"A{number}=1" for number in range(1025)), "ST 1 1025"), ("/" + " " * 65536, "TL 1 0"),
]

DECLARATIONS = [
    ("", "NoStart"), (HELLO_DECLARED + "start 200\n", "TwoStarts 6"), ("main 9", "BadLine 1"),
    ("start 0200\nmain 200\nsub 10 body 300 returns 0\n", "EntryInAutoIndex 0010"),
    ("start 0200\nmain 200\nsub 300 body 200 returns 0\n", "Overlap 0200"), ("start 201\nmain 200", "StartNotInMain"),
    ("start 200\nmain 200\nstop 204", "HaltNotInBody 0204"), ("profile 8e\nstart 0\nprofile 8e", "TwoProfiles 3"),
]
TINY = "start 200\nmain 200\n"
DECLARATIONS += [(TINY + line, f"Misplaced {at}") for line, at in (
    ("skips 300 1", "0300"), ("moves 300", "0300"), ("returns 300 ac 0", "0300"), ("abandon 200 201", "0201"),
    ("holds 200 204 ac 0", "0204"), ("moves 400\nskips 377 1", "0377"))]
DECLARATIONS += [(line, "BadLine 1") for line in (
    "skips 300", "skips 300 100", "skips 300 70-100", "moves", "abandon", "abandon 200-201", "holds ac 0", "holds 200 ac",
    "holds 200", "holds 200 link", "holds 200 link 2", "holds 200 link 00", "holds 200 link 0 1", "holds 200 cell 5",
    "holds 200-201 ac 0", "holds 200 mq 5-4", "returns ac 0", "returns 300 100 ac 0", "returns 300 0-1 ac 0")]
DECLARATIONS += [("skips 1 1\n" * 65, "TooMany"), ("holds 1 ac 1\nreturns 1 ac 1\n" * 128 + "holds 1 ac 1", "TooMany"),
                 ("skips 1 1\n" * 64, "NoStart"), ("holds 1 ac 1\nreturns 1 ac 1\n" * 128, "NoStart")]

# The line of HELLO's certificate that is left out, and what is said then.
LEFT_OUT = {2: "V7 at 0207", 3: "V1 at 0200", 4: "V4 at 0200", 5: "V4 at 0201", 6: "V4 at 0202", 7: "V4 at 0202",
            8: "V4 at 0204", 10: "V4 at 0205", 12: "yes", 13: "yes", 14: "V4 at 0206", 16: "yes", 17: "yes",
            18: "V11 at 0207", 20: "yes", 21: "yes", 22: "V4 at 0210", 24: "yes", 25: "V4 at 0211", 26: "V4 at 0211",
            27: "V4 at 0210", 28: "V4 at 0212", 29: "V10 at 0207", 30: "V4 at 0215", 31: "V4 at 0215", 32: "V4 at 0217",
            33: "V4 at 0220", 34: "V12 at 0221"}

# Which set loses its greatest word (None is AC), and what is said then.
LOST = [((0o200, None), "V1 at 0200"), ((0o206, 0o10), "V4 at 0211"), ((0o206, 0o224), "V4 at 0211"),
        ((0o207, None), "V4 at 0206"), ((0o207, 0o10), "V4 at 0206"), ((0o210, 0o10), "V11 at 0207"),
        ((0o210, 0o224), "V11 at 0207"), ((0o211, 0o10), "yes"), ((0o211, 0o224), "V4 at 0210"),
        ((0o215, None), "V10 at 0207"), ((0o216, None), "V4 at 0215"), ((0o220, None), "V4 at 0217")]


def words(start, text):
    return {start + place: int(word, 8) for place, word in enumerate(text.split())}


def steps(count):
    return [("step",)] * count


def assembled(source):
    try:
        image = pal.assemble([source.encode("latin-1")]).image
        return " ".join(f"{at:04o}:{word:04o}" for at, word in sorted(image.items()))
    except pal.Fault as fault:
        return str(fault)


def declared(text):
    try:
        return watch.declaration(text.encode())
    except watch.BadDeclaration as fault:
        return str(fault)


def watched(image, text, events):
    broken, _ = watch.watch(image, declared(text), events)
    return broken


def judged(image, text, certificate):
    taken = check.parse(certificate) if isinstance(certificate, str) else certificate
    failed = check.judge(image, declared(text), taken)
    return "V{} at {:04o}".format(*failed) if failed else "yes"


def facts(addresses, offsets="-"):
    return "".join(f"fact {at:04o} {ANY} offsets {offsets}\n" for at in addresses)


def lost(at, cell):
    """HELLO's certificate with a set that has lost its greatest word."""
    taken = check.parse(HELLO_CERTIFICATE)
    fact = taken.facts[at]
    if cell is None:
        fact.ac &= ~sets.one(fact.ac.bit_length() - 1)
    else:
        fact.cells[cell] &= ~sets.one(fact.cells[cell].bit_length() - 1)
    return taken


def watched_cases():
    rounds = [("step",), ("printer",), ("punch",)] * 46
    yield watched(HELLO, HELLO_DECLARED, rounds), None
    yield watched(HELLO, HELLO_DECLARED + "read 0010 0222-0231\n", rounds), None
    yield watched(HELLO, HELLO_DECLARED + "read 0010 0222-0230\n", rounds), (114, 7)
    yield watched(HELLO, HELLO_DECLARED + "read\n", rounds), (6, 7)
    overflow = words(0o200, "7200 1207 3010 3410 2210 5203 7402 0277 7773")
    yield watched(overflow, "start 0200\nmain 0200-0206\nvar 0010 0210 0300-0303\nstop 0206", steps(30)), (15, 2)
    waiting = words(0o200, "6041 5200 7402")
    yield watched(waiting, "start 0200\nmain 0200-0202\nstop 0202", steps(1000)), None


# What is added to HELLO's declaration, the first event that breaks rule 8, and the first condition that fails.
ASSERTED = [("holds 0206 ac 0\nreturns 0214 0 ac 0", None, "yes"), ("holds 0207 ac 305", (21, 8), "V16 at 0207"),
            ("returns 0214 0 ac 1", (33, 8), "V16 at 0214"), ("returns 0214 ac 0", None, "yes"),
            ("holds 0206 cell 0224 7773-7777", None, "yes"), ("holds 0206 cell 224 7774-7777", (18, 8), "V16 at 0206"),
            ("holds 0206 0207 link 0", None, "yes"), ("holds 0206 link 1", (18, 8), "V16 at 0206"),
            ("holds 0200 ac 0", None, "V16 at 0200"), ("returns 0214 1 ac 1", None, "yes")]


def moving(word="3210"):
    """A routine that stores the word in AC in its entry, before which the return address was added."""
    image = words(0o200, "7200 4210 7402") | words(0o210, f"0000 1210 {word} 5610 0210")
    return image, "start 200\nmain 200-202\nsub 210 body 211-213 returns 0\nstop 202\n"


def moving_certificate(ac):
    return ("PDP8-CERTIFICATE 1\nroutine 0210 rank 00 sites 0201 writes -\n" + facts((0o200,)) +
            "fact 0201 ac 0000 link 01 offsets -\nfact 0202 ac 0000 link 01 offsets -\nfact 0211 ac 0000 link 01 offsets 0\n"
            f"fact 0212 ac {ac} link 01 offsets 0\nfact 0213 ac 0000 link 01 offsets 0\nexit 0210 0 ac 0000 link 01\nend\n")


def leaving():
    """A routine, two calls deep, that jumps to 0202 in main's body."""
    image = words(0o200, "4210 7402 7402") | words(0o210, "0000 4220 5610") | words(0o220, "0000 5202")
    return image, ("start 200\nmain 200-202\nsub 210 body 211-212 returns 0\nsub 220 body 221 returns\nstop 201 202\n")


LEAVING_CERTIFICATE = ("PDP8-CERTIFICATE 1\nroutine 0210 rank 01 sites 0200 writes 0220\n"
                       "routine 0220 rank 00 sites 0211 writes -\n" + f"fact 0200 {ANY} offsets -\nfact 0202 {ANY} offsets -\n"
                       f"fact 0211 {ANY} offsets 0\nfact 0221 {ANY} offsets 0\nend\n")
FALLING = words(0o200, "4207 7402") | words(0o207, "0000 7000 7402")
FALLS = "start 200\nmain 200 201 211\nsub 207 body 210 returns\nabandon 211\nstop 201 211\n"
FALLING_CERTIFICATE = ("PDP8-CERTIFICATE 1\nroutine 0207 rank 00 sites 0200 writes -\n"
                       f"fact 0200 {ANY} offsets -\nfact 0210 {ANY} offsets 0\nfact 0211 {ANY} offsets -\nend\n")


def further_cases():
    rounds = [("step",), ("printer",), ("punch",)] * 46
    for more, broken, said in ASSERTED:
        yield watched(HELLO, HELLO_DECLARED + more, rounds), broken
        yield judged(HELLO, HELLO_DECLARED + more, HELLO_CERTIFICATE), said
    image, text = moving()
    yield watched(image, text, steps(9)), (3, 2)
    yield watched(image, text + "moves 210", steps(9)), None
    yield watched(moving("3614")[0], text + "moves 210", steps(9)), (3, 2)
    yield judged(image, text, moving_certificate("0202")), "V14 at 0212"
    for ac, said in (("0202", "yes"), ("0202-0203", "V4 at 0212"), ("0202-0301", "V4 at 0212"), ("0202-0302", "V14 at 0212"),
                     ("0201-0202", "V14 at 0212")):
        yield judged(image, text + "moves 210", moving_certificate(ac)), said
    yield judged(moving("3614")[0], text + "moves 210", moving_certificate("0202")), "V14 at 0212"
    image, text = leaving()
    yield watched(image, text, steps(9)), (3, 1)
    yield watched(image, text + "abandon 202", steps(9)), None
    yield judged(image, text, LEAVING_CERTIFICATE), "V4 at 0221"
    yield judged(image, text + "abandon 202", LEAVING_CERTIFICATE), "yes"
    yield watched(FALLING, FALLS, steps(9)), (2, 1)
    yield judged(FALLING, FALLS, FALLING_CERTIFICATE), "V4 at 0210"
    far = words(0o200, "4220") | {0o212: 0o7402} | words(0o220, "0000" + " 2220" * 9 + " 5620")
    text = "start 200\nmain 200 212\nsub 220 body 221-232 returns 1\nstop 212\n"
    yield watched(far, text, steps(20)), (10, 4)
    yield watched(far, text + "skips 220 10 12-77", steps(20)), (10, 4)
    yield watched(far, text + "skips 220 11", steps(20)), None


def step_cases():
    world = machine.run(machine.World(HELLO), [("step",), ("printer",), ("punch",)] * 46)
    yield world.summary(), "HALT 0212 AC=0000 L=0 PC=0213 STEPS=46\nPRINTED 000 310 305 314 314 317\n"
    yield machine.group1(0o7005, 0o7777, 0), (1, 0)
    yield machine.group1(0o7002, 0o1234, 0), (0o3412, 0)
    mq = words(0o200, "7621 7001 7421 7501 7402")
    yield machine.run(machine.World(mq, profile="8e"), steps(9)).summary(), "HALT 0204 AC=0001 L=0 PC=0205 STEPS=5\n"
    yield machine.run(machine.World(mq), steps(9)).summary(), "UNSUPPORTED 0200 AC=0000 L=0 PC=0200 STEPS=0\n"
    world = machine.run(machine.World({0o17: 0o7777, 0o200: 0o3417}, ac=5), steps(1))
    yield (world.memory[0o17], world.memory[0]), (0, 5)
    world = machine.run(machine.World({0o17: 0o16, 0o200: 0o3417}, ac=5), steps(1))
    yield world.memory[0o17], 5


def mutual():
    """Two routines that call each other: the image, and the declaration."""
    image = words(0o200, "4210 7402") | words(0o210, "0000 4220 5610") | words(0o220, "0000 6031 5620 6032 4210 5620")
    return image, ("start 0200\nmain 0200-0201\nsub 0210 body 0211-0212 returns 0\n"
                   "sub 0220 body 0221-0225 returns 0\nstop 0201\n")


def mutual_certificate(first, second):
    return (f"PDP8-CERTIFICATE 1\nroutine 0210 rank {first} sites 0200,0224 writes 0220\n"
            f"routine 0220 rank {second} sites 0211 writes -\n" + facts((0o200, 0o201)) +
            facts((0o211, 0o212, 0o221, 0o222, 0o223, 0o224, 0o225), "0") +
            f"exit 0210 0 {ANY}\nexit 0220 0 {ANY}\nend\n")


def judged_cases():
    lines = HELLO_CERTIFICATE.splitlines(keepends=True)
    yield judged(HELLO, HELLO_DECLARED, HELLO_CERTIFICATE), "yes"
    yield judged(HELLO, HELLO_DECLARED + "read 0010 0222-0230\n", HELLO_CERTIFICATE), "V15 at 0206"
    yield judged(HELLO, HELLO_DECLARED, HELLO_CERTIFICATE.replace("sites 0207", "sites -")), "V9 at 0207"
    for line, said in LEFT_OUT.items():
        yield judged(HELLO, HELLO_DECLARED, "".join(lines[:line - 1] + lines[line:])), said
    for (at, cell), said in LOST:
        yield judged(HELLO, HELLO_DECLARED, lost(at, cell)), said
    image, text = mutual()
    yield watched(image, text, [("key", 0o301)] + steps(20)), (11, 4)
    yield judged(image, text, mutual_certificate("01", "00")), "V7 at 0224"
    yield judged(image, text, mutual_certificate("00", "01")), "V7 at 0211"
    wraps = {0o7777: 0o4020, 0: 0o7402, 0o20: 0, 0o21: 0o5420}
    yield judged(wraps, "start 7777\nmain 7777 0000\nsub 0020 body 0021 returns 0\nstop 0000",
                 "PDP8-CERTIFICATE 1\nroutine 0020 rank 00 sites 7777 writes -\n" + facts((0,)) + facts((0o21,), "0") +
                 facts((0o7777,)) + f"exit 0020 0 {ANY}\nend\n"), "V9 at 7777"


def main():
    cases = [(assembled(source), wanted) for source, wanted in SOURCES]
    cases += [(declared(text), wanted) for text, wanted in DECLARATIONS]
    cases += [*step_cases(), *watched_cases(), *judged_cases(), *further_cases()]
    cases.append((check.text(check.parse(HELLO_CERTIFICATE)), HELLO_CERTIFICATE))
    cases.append((len(tape.written(HELLO)), 88))
    wrong = [f"wanted {wanted}, found {found}" for found, wanted in cases if found != wanted]
    print("\n".join(wrong), end="\n" * bool(wrong))
    return int(bool(wrong))


if __name__ == "__main__":
    sys.exit(main())
