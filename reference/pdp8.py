#!/usr/bin/env python3
"""A second program with the commands assemble, list, run, watch, guess and check, for comparing. It is slow and says
little of bad words; its texts are those of the program pdp8.

usage: pdp8.py assemble [--profile P] OUT SOURCE..      pdp8.py list [--profile P] SOURCE..
       pdp8.py run TAPE [--profile P] [--start A] [--events FILE]
       pdp8.py watch TAPE DECLARATION EVENTS           pdp8.py guess TAPE DECLARATION OUT
       pdp8.py check TAPE DECLARATION CERTIFICATE
"""
import argparse
import sys
from pathlib import Path

sys.path[:0] = [str(Path(__file__).parent), str(Path(__file__).parent.parent / "tests")]
import check  # noqa: E402
import check3  # noqa: E402
import guess  # noqa: E402
import machine  # noqa: E402
import pal  # noqa: E402
import second_reader  # noqa: E402
import tape  # noqa: E402
import watch  # noqa: E402


def read(name):
    return Path(name).read_bytes()


def refused(kind, fault):
    sys.stderr.write(f"pdp8: {kind}: {fault}\n")
    return 1


def assemble(words):
    Path(words.out).write_bytes(b"")
    program = pal.assemble([read(name) for name in words.source], words.profile)
    if not program.image:
        return refused("tape", "EmptyImage")
    Path(words.out).write_bytes(tape.written(program.image))
    return 0


def listing(words):
    sys.stdout.write(pal.assemble([read(name) for name in words.source], words.profile).listing())
    return 0


def run(words):
    world = machine.World(second_reader.words(read(words.tape)), int(words.start, 8), words.profile)
    if words.events:
        machine.run(world, machine.events(read(words.events)))
    else:
        for _ in range(100000):
            machine.run(world, [("step",), ("printer",), ("punch",)])
            if world.stuck or world.halted_at is not None:
                break
    sys.stdout.write(world.summary())
    return int(world.stuck)


def watched(words):
    image = second_reader.words(read(words.tape))
    declared = watch.declaration(read(words.declaration))
    broken, _ = watch.watch(image, declared, machine.events(read(words.events)))
    print("broken: event {} rule {}".format(*broken) if broken else "clean")
    return int(broken is not None)


def guessed(words):
    image, declared = second_reader.words(read(words.tape)), watch.declaration(read(words.declaration))
    Path(words.out).write_text(check.text(guess.guess(image, declared)))
    return 0


def checked(words):
    image, declared = second_reader.words(read(words.tape)), watch.declaration(read(words.declaration))
    text = read(words.certificate).decode("latin-1")
    if text.startswith("PDP8-CERTIFICATE 3\n"):
        failed = check3.judge(image, declared, check3.read(text))
    else:
        failed = check.judge(image, declared, check.parse(text))
    print("no: V{} at {:04o}".format(*failed) if failed else check.counts(declared))
    return int(failed is not None)


def main():
    parser = argparse.ArgumentParser(prog="pdp8.py")
    commands = parser.add_subparsers(required=True)
    for name, does, places in (("assemble", assemble, ["out", "source"]), ("list", listing, ["source"]),
                               ("run", run, ["tape"]), ("watch", watched, ["tape", "declaration", "events"]),
                               ("guess", guessed, ["tape", "declaration", "out"]),
                               ("check", checked, ["tape", "declaration", "certificate"])):
        command = commands.add_parser(name)
        command.set_defaults(does=does)
        for place in places:
            command.add_argument(place, nargs="+" if place == "source" else None)
        if name in ("assemble", "list", "run"):
            command.add_argument("--profile", choices=("8i", "8e"), default="8i")
        if name == "run":
            command.add_argument("--start", default="200")
            command.add_argument("--events")
    words = parser.parse_args()
    try:
        return words.does(words)
    except pal.Fault as fault:
        return refused("source", fault)
    except watch.BadDeclaration as fault:
        return refused("declaration", fault)
    except machine.BadEvents as fault:
        return refused("events", fault)
    except check3.Fault as fault:
        return refused("certificate", fault)
    except guess.Stuck as fault:
        return refused("guess", f"Stuck {fault}")


if __name__ == "__main__":
    sys.exit(main())
