#!/usr/bin/env python3
"""Has pdp8 write sources of random tapes and of those of examples/, and assembles each again.

This script writes tapes of random images. An image is sparse, dense or full, consists of code or of characters only, or is that of an
example in which words were changed; the first one is full of the instruction with the longest name, so that only octal words are short
enough. From the source that `pdp8 source` writes for a tape, `pdp8 assemble` must make that tape again, to
the byte; no line of the source may have more than 80 columns. If palbart is installed, it must assemble the source to the same words.
palbart does not know CAM, which is therefore defined for it.

usage: tests/written_sources.py [PDP8 [COUNT [SEED]]]    PDP8 is the built program, or else the one that the variable PDP8
                                                         names; PALBART names a palbart, otherwise /usr/bin/palbart is tried;
                                                         exit status 1 if anything differs
"""
import os
import random
import subprocess
import sys
import tempfile
from pathlib import Path

import palbart
import second_reader

EXAMPLES = Path(__file__).resolve().parent.parent / 'examples'
OPERATES = [0o7000 | bits for bits in range(0o1000)]
DEVICES = [0o6011, 0o6012, 0o6014, 0o6016, 0o6021, 0o6022, 0o6024, 0o6026, 0o6031, 0o6032, 0o6034, 0o6036, 0o6041, 0o6042, 0o6044, 0o6046,
           0o6001, 0o6002, 0o6030, 0o6040, 0o6007]
LONGEST = {at: 0o7373 for at in range(4096)}


def tape_of(image):
    """The tape of an image, written as docs/FORMATS.md says."""
    frames = bytearray()
    for at in sorted(image):
        if at == 0 or at - 1 not in image:
            frames += bytes([0o100 + (at >> 6), at & 0o77])
        frames += bytes([image[at] >> 6, image[at] & 0o77])
    total = sum(frames) % 4096
    return bytes([0o200] * 16) + bytes(frames) + bytes([total >> 6, total & 0o77]) + bytes([0o200] * 16)


def code_word(chance):
    """An instruction that is likely in a program, as a word."""
    kind = chance.random()
    if kind < 0.6:
        return chance.randrange(0o6000)
    return chance.choice(DEVICES) if kind < 0.75 else chance.choice(OPERATES)


def image_of(chance, examples):
    """A random image, and the address that is given as the start of its program."""
    kind = chance.choice(['sparse', 'dense', 'full', 'code', 'characters', 'example', 'example', 'runs'])
    if kind == 'example':
        image = dict(chance.choice(examples))
        for at in chance.sample(sorted(image), min(len(image), chance.choice([0, 1, 3, 10]))):
            image[at] = chance.randrange(4096)
        return image, chance.choice([0o200, 0o200, chance.choice(sorted(image))])
    if kind == 'runs':
        image = {}
        for _ in range(chance.randrange(1, 40)):
            first = chance.randrange(4096)
            image.update({(first + by) % 4096: code_word(chance) for by in range(chance.randrange(1, 60))})
        return image, chance.choice(sorted(image))
    share = {'sparse': 0.02, 'dense': 0.9, 'full': 1, 'code': chance.random(), 'characters': 0.5}[kind]
    cells = [at for at in range(4096) if chance.random() < share] or [0o200]
    make = {'code': lambda: code_word(chance), 'characters': lambda: chance.choice([0, 0o200]) + chance.randrange(0o200)}
    image = {at: make.get(kind, lambda: chance.randrange(4096))() for at in cells}
    return image, chance.choice([chance.choice(cells), chance.randrange(4096)])


def columns(line):
    return len(line.expandtabs(8))


def words_of_palbart(palbart_at, source, profile):
    """The words that palbart reads in a source, or None if it refuses the source."""
    copy = source.with_name('palbart.pal')
    copy.write_text(('CAM=7621\n' if profile == '8e' else '') + source.read_text())
    return palbart.of_palbart(palbart_at, copy)


def faults(program, palbart_at, folder, image, start, profile):
    """What is wrong with the source of an image."""
    tape, source, again = folder / 'made.bin', folder / 'made.pal', folder / 'again.bin'
    tape.write_bytes(tape_of(image))
    ran = subprocess.run([program, 'source', tape, source, '--start', f'{start:o}', '--profile', profile], capture_output=True, text=True)
    if ran.returncode or ran.stdout or ran.stderr:
        yield f'source ends with {ran.returncode}: {ran.stdout}{ran.stderr}'
        return
    ran = subprocess.run([program, 'assemble', again, source, '--profile', profile], capture_output=True, text=True)
    if ran.returncode or again.read_bytes() != tape.read_bytes():
        yield f'assemble makes another tape: {ran.stderr}'
    wide = [line for line in source.read_text().splitlines() if columns(line) > 80]
    yield from (f'a line of {columns(line)} columns: {line}' for line in wide)
    if palbart_at and words_of_palbart(palbart_at, source, profile) != image:
        yield 'palbart reads other words'


def main():
    program = os.path.abspath(sys.argv[1] if len(sys.argv) > 1 else os.environ['PDP8'])
    count, seed = int((sys.argv[2:] or [1000])[0]), (sys.argv[3:] or ['1'])[0]
    palbart_at = os.environ.get('PALBART', '/usr/bin/palbart')
    palbart_at = palbart_at if os.access(palbart_at, os.X_OK) else None
    chance, wrong, words = random.Random(seed), [], 0
    with tempfile.TemporaryDirectory() as name:
        folder = Path(name)
        examples = []
        for path in sorted(EXAMPLES.glob('*.pal')):
            made = subprocess.run([program, 'assemble', '-', path, '--profile', '8e' if 'pack' in path.stem else '8i'], capture_output=True, check=True)
            examples.append(second_reader.words(made.stdout))
        for number in range(count):
            image, start = image_of(chance, examples) if number else (LONGEST, 0o200)
            profile = chance.choice(['8i', '8e'])
            words += len(image)
            for fault in faults(program, palbart_at, folder, image, start, profile):
                kept = Path(tempfile.gettempdir()) / f'written_{seed}_{number}.bin'
                kept.write_bytes(tape_of(image))
                wrong.append(f'{kept} --start {start:o} --profile {profile}: {fault}')
    print(f'{count} tapes of {words} words, {"with" if palbart_at else "without"} palbart')
    print('\n'.join(wrong) if wrong else 'each source is read back')
    sys.exit(1 if wrong else 0)


if __name__ == '__main__':
    main()
