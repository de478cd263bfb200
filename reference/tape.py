"""The Binary Loader's tape of an image."""

LEADER = bytes([0o200] * 16)


def written(image):
    """The tape of an image that is not empty: a dictionary from addresses to words."""
    frames, after = b"", None
    for at, word in sorted(image.items()):
        if at != after:
            frames += bytes([0o100 | at >> 6, at & 0o77])
        frames += bytes([word >> 6, word & 0o77])
        after = at + 1
    total = sum(frames) % 4096
    return LEADER + frames + bytes([total >> 6, total & 0o77]) + LEADER
