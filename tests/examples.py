"""Checks the files of examples/ with other programs: Debian's palbart and SIMH, and the Python in reference/.

usage: examples.py PALBART SIMH EXAMPLES FOLDER [PROGRAM]. Files are made in FOLDER. Each source is assembled with palbart.
The Python in reference/ runs the tape with its events, watches it under its declaration and checks it with its certificate.
The outputs must be NAME.run, NAME.watch and NAME.check; for DEC's loader `rim`, which violates its declaration, only the last
two. If SIMH is given, it runs the tape with the same keys, frames and switches: AC, link and program counter at each halt,
the memory at the end, and the output must be the same. PROGRAM is a built `pdp8`; the results of its commands are compared,
too, as far as it has these commands.
"""
import re
import subprocess
import sys
from pathlib import Path

sys.path.insert(0, str(Path(__file__).parent.parent / "reference"))
import check as judge  # noqa: E402
import machine  # noqa: E402
import palbart as assembler  # noqa: E402
import watch  # noqa: E402


def halts(world, happening):
    """The commands for SIMH that make the same happen, and AC, link and program counter at each halt. SIMH runs to its
    next halt by itself, so switches are set while it is halted."""
    told, found, begin = [], [], "run 200"
    for event in happening:
        running = world.halted_at is None
        world.apply(event)
        if event[0] == "switches":
            told.append(f"deposit SR {event[1]:o}")
        elif running and world.halted_at is not None:
            told += [begin, "examine AC,L,PC"]
            found.append((world.ac, world.link, world.pc))
            begin = "cont"
    return told, found


def keys_taken(happening):
    """The keys that the program takes: the last one of several keys without a step between them."""
    left = [event for event in happening if event[0] in ("key", "step")]
    return bytes(now[1] for now, after in zip(left, left[1:] + [("step",)]) if now[0] == "key" and after[0] == "step")


def of_simh(simh, folder, name, told, happening):
    """AC, link and program counter at each halt, the bytes that were printed, those that were punched, and the memory
    at the end. Keys come from SIMH's standard input, frames from a file."""
    (folder / f"{name}.frames").write_bytes(bytes(event[1] for event in happening if event[0] == "reader") or b"\0")
    (folder / f"{name}.punched").write_bytes(b"")
    lines = ["set tto 8b", "set tti 8b", "deposit 0-7777 0", f"attach ptr {name}.frames", f"attach ptp {name}.punched",
             f"load {name}.bin", *told, "detach all", "examine 0-7777", "quit"]
    (folder / f"{name}.ini").write_text("\n".join(lines) + "\n")
    keys = keys_taken(happening)
    ran = subprocess.run([simh, f"{name}.ini"], cwd=folder, input=keys, capture_output=True, timeout=60)
    text = ran.stdout.decode("latin-1")
    shown = re.findall(r"^AC:\s*(\d+)\s+^L:\s*(\d)\s+^PC:\s*(\d+)", text, re.M)
    registers = [tuple(int(number, 8) for number in halt) for halt in shown]
    printed = [byte for byte in ran.stdout if byte == 0 or byte > 127]
    memory = [int(word, 8) for word in re.findall(r"^\d+:\s*(\d+)", text, re.M)]
    return registers, printed, list((folder / f"{name}.punched").read_bytes()), memory


def compare_with_simh(simh, folder, name, world, happening):
    """What differs between SIMH and reference. The examples print only nulls and bytes above 177, which never occur
    in what SIMH itself prints."""
    told, registers = halts(world, happening)
    theirs, printed, punched, memory = of_simh(simh, folder, name, told, happening)
    if registers != theirs:
        return [f"at the halts {registers}, SIMH {theirs}"]
    if memory != world.memory:
        return ["another memory on SIMH"]
    # At the last halt the printer of SIMH has not finished its last byte.
    if printed not in (world.printed, world.printed[:-1]) or punched != world.punched:
        return [f"printed {world.printed}, punched {world.punched}, SIMH {printed} and {punched}"]
    return []


def compare_broken(simh, folder, name, world, happening):
    """For a run that consists of steps only: whether SIMH, after the same number of steps, is at the address of the illegal step."""
    if any(event[0] != "step" for event in happening):
        return []
    lines = ["deposit 0-7777 0", f"load {name}.bin", "deposit PC 200", f"step {len(happening)}", "examine PC", "quit"]
    (folder / f"{name}.ini").write_text("\n".join(lines) + "\n")
    ran = subprocess.run([simh, f"{name}.ini"], cwd=folder, stdin=subprocess.DEVNULL, capture_output=True, timeout=60)
    theirs = int(re.search(r"^PC:\s*(\d+)", ran.stdout.decode("latin-1"), re.M).group(1), 8)
    return [] if theirs == world.pc else [f"is at {world.pc:04o}, SIMH at {theirs:04o}"]


def compare_program(program, words, wanted):
    """What a built `pdp8` says that differs from what it should say. A command that it does not have is left out."""
    ran = subprocess.run([program, *words], capture_output=True, text=True, timeout=60)
    if ran.returncode == 2 or ran.stdout == wanted:
        return []
    return [f"{program} {words[0]} says {ran.stdout}{ran.stderr}"]


class Example:
    """An example or its broken variant, with its files."""

    def __init__(self, name, examples, folder, palbart):
        self.name, self.stem = name, name.removesuffix("-broken")
        self.examples, self.folder = examples, folder
        self.declaration, self.events, self.certificate = (examples / f"{self.stem}.{kind}"
                                                           for kind in ("declaration", "events", "certificate"))
        self.profile = watch.declaration(self.declaration.read_bytes()).profile
        (folder / f"{name}.pal").write_bytes((examples / f"{name}.pal").read_bytes())
        self.image = assembler.of_palbart(palbart, folder / f"{name}.pal")
        self.tape = folder / f"{name}.bin"

    def expected(self, kind):
        return (self.examples / f"{self.name}.{kind}").read_text()

    def wrong(self, simh, program):
        """What is not as it should be."""
        if self.image is None:
            return ["palbart refuses it"]
        happening = machine.events(self.events.read_bytes())
        declared = watch.declaration(self.declaration.read_bytes())
        broken, world = watch.watch(self.image, declared, happening)
        failed = judge.judge(self.image, declared, judge.parse(self.certificate.read_text()))
        verdicts = {"watch": "broken: event {} rule {}".format(*broken) if broken else "clean",
                    "check": "no: V{} at {:04o}".format(*failed) if failed else judge.counts(declared)}
        wrong = [f"{kind} is not {said}" for kind, said in verdicts.items() if said + "\n" != self.expected(kind)]
        if program:
            for kind, file in (("watch", self.events), ("check", self.certificate)):
                wrong += compare_program(program, [kind, self.tape, self.declaration, file], self.expected(kind))
        if program and self.name == "rim":
            words = ["check", self.tape, self.declaration, self.certificate, "--why"]
            wrong += compare_program(program, words, self.expected("why"))
        if self.name != self.stem or self.name == "rim":
            return wrong + (compare_broken(simh, self.folder, self.name, world, happening[:broken[0]]) if simh else [])
        summary = machine.run(machine.World(self.image, declared.start, self.profile), happening).summary()
        wrong += [f"run is not {summary}"] if summary != self.expected("run") else []
        if program:
            words = ["run", self.tape, "--profile", self.profile, "--events", self.events]
            wrong += compare_program(program, words, self.expected("run"))
        if simh:
            world = machine.World(self.image, profile=self.profile)
            wrong += compare_with_simh(simh, self.folder, self.name, world, happening)
        return wrong


def main():
    palbart, simh, examples, folder = sys.argv[1:5]
    program = sys.argv[5] if len(sys.argv) > 5 else None
    examples, folder = Path(examples), Path(folder)
    names = sorted(path.stem for path in examples.glob("*.pal"))
    wrong = [f"{name}: {text}" for name in names
             for text in Example(name, examples, folder, palbart).wrong(simh, program)]
    print(f"{len(names)} examples" + (" with SIMH" if simh else "") + (f" and {program}" if program else ""))
    print("\n".join(wrong) if wrong else "all as expected")
    return int(bool(wrong))


if __name__ == "__main__":
    sys.exit(main())
