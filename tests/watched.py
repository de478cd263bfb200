"""Uses the watcher in reference/ to watch those programs of a folder for which `pdp8 verify --source` says yes, each in many runs
with random events from a random start: no run may violate a rule. Keys, frames and switches are often words of the tape, so that
comparisons in the programs are true now and then.

usage: watched.py PROGRAM FOLDER RUNS STEPS SEED
"""
import random
import subprocess
import sys
from pathlib import Path

sys.path.insert(0, str(Path(__file__).parent.parent / "reference"))
import labels  # noqa: E402
import watch  # noqa: E402


class Chance:
    """What is chosen at random for a program."""

    def __init__(self, image, seed):
        self.numbers = random.Random(seed)
        words = sorted(set(image.values()))
        self.words = words + [-word % 4096 for word in words]

    def word(self):
        """A word, most often one of the tape or its negative."""
        if self.numbers.random() < 0.7:
            return self.numbers.choice(self.words)
        return self.numbers.randrange(4096)

    def key(self):
        """A key, often a printed character."""
        if self.numbers.random() < 0.5:
            return 0o240 + self.numbers.randrange(0o100)
        return self.word() % 256

    def event(self, eager):
        """An event; the larger `eager` is, the more often a key is struck or a frame is read."""
        share = self.numbers.random()
        if share >= eager:
            return ("step",)
        kind = self.numbers.randrange(8)
        if kind < 3:
            return ("key", self.key())
        if kind < 4:
            return ("reader", self.key())
        return [("printer",), ("punch",), ("continue",), ("switches", self.word())][kind - 4]

    def events(self, steps):
        """The events of a run."""
        eager = self.numbers.choice([0.05, 0.2, 0.4])
        return [self.event(eager) for _ in range(steps)]

    def start(self):
        """The registers and the cells at the start; cells on the tape get its words."""
        fill = self.numbers.choice([0, 0o7777, None])
        words = [fill] * 4096 if fill is not None else self.numbers.choices(range(4096), k=4096)
        return {"ac": self.numbers.randrange(4096), "link": self.numbers.randrange(2), "mq": self.numbers.randrange(4096), "memory": words}


def broken(image, declared, runs, steps, seed):
    """The number of the first run that violates a rule, with the event and the rule, or None."""
    chance = Chance(image, seed)
    for run in range(runs):
        found, _ = watch.watch(image, declared, chance.events(steps), **chance.start())
        if found:
            return (run, *found)
    return None


def main():
    program, folder, runs, steps, seed = sys.argv[1:]
    failed = 0
    for source in sorted(Path(folder).glob("*.pal")):
        said = subprocess.run([program, "verify", "--source", source], stdout=subprocess.PIPE, stderr=subprocess.STDOUT, text=True,
                              check=False).stdout
        if said.startswith("yes"):
            image, declaration = labels.program(source.read_bytes())
            found = broken(image, watch.declaration(declaration.encode()), int(runs), int(steps), int(seed))
            print(f"{source.stem}: {'clean' if found is None else f'broken: run {found[0]} event {found[1]} rule {found[2]}'}", flush=True)
            failed += found is not None
    return 1 if failed else 0


if __name__ == "__main__":
    sys.exit(main())
