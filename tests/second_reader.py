"""A second reader of BIN tapes, written from the loader's description alone.

usage: second_reader.py TAPE, which prints the address and the value of each word on the tape, by
ascending address, like the first two columns of `pdp8 dump`. If it refuses the tape, the exit
status is 1.
"""
import sys


def words(frames):
    """The image of a tape: a dictionary from addresses to words."""
    frames = iter(frames)
    image, origin, total, pending = {}, None, 0, None
    for frame in frames:
        if frame == 0o377:
            while next(frames) != 0o377:
                pass
        elif frame == 0o300 or (frame == 0o200 and origin is None):
            continue
        elif frame == 0o200:
            if pending is None or pending != total % 4096:
                raise ValueError("checksum")
            return image
        elif frame < 0o200 and not (origin is None and frame < 0o100):
            second = next(frames)
            if second > 0o77:
                raise ValueError("second frame")
            if pending is not None:
                image[origin] = pending
                total += (pending >> 6) + (pending & 0o77)
                origin = (origin + 1) % 4096
                pending = None
            if frame >= 0o100:
                origin = (frame & 0o77) << 6 | second
                total += frame + second
            else:
                pending = frame << 6 | second
        else:
            raise ValueError("frame")
    raise ValueError("no trailer")


if __name__ == "__main__":
    try:
        with open(sys.argv[1], "rb") as tape:
            for address, word in sorted(words(tape.read()).items()):
                print(f"{address:04o} {word:04o}")
    except (ValueError, StopIteration) as fault:
        sys.exit(f"refused: {fault}")
