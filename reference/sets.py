"""Sets of words as numbers of 4096 bits: bit w is set where w is in the set."""
ALL = (1 << 4096) - 1


def one(word):
    return 1 << word


def span(first, last):
    return (1 << last + 1) - (1 << first)


def of(words):
    return sum(1 << word for word in set(words))


def words(members):
    """The words of a set, rising."""
    while members:
        low = members & -members
        yield low.bit_length() - 1
        members ^= low


def only(members):
    """The word of a set with one word, else None."""
    return members.bit_length() - 1 if members and members & members - 1 == 0 else None


def shift(members, by):
    by %= 4096
    return (members << by | members >> 4096 - by) & ALL


def sums(left, right):
    """All sums, and the carries that occur."""
    if not left or not right:
        return 0, set()
    found = 0
    for word in words(right):
        found |= shift(left, word)
        if found == ALL:
            break
    least = sum((members & -members).bit_length() - 1 for members in (left, right))
    most = left.bit_length() + right.bit_length() - 2
    return found, {carry for carry, occurs in ((0, least < 4096), (1, most >= 4096)) if occurs}


def ands(left, right):
    """{a and b}: which words have the bits of a member of each side, counted by supersets and then taken apart."""
    mask = only(right)
    if mask is not None:
        return of(word & mask for word in words(left))
    counts = [above(members) for members in (left, right)]
    both = [a * b for a, b in zip(*counts)]
    for bit in (1 << place for place in range(12)):
        for word in range(4096):
            if not word & bit:
                both[word] -= both[word | bit]
    return of(word for word in range(4096) if both[word])


def above(members):
    """For each word how many members have all its bits."""
    count = [members >> word & 1 for word in range(4096)]
    for bit in (1 << place for place in range(12)):
        for word in range(4096):
            if not word & bit:
                count[word] += count[word | bit]
    return count


def complements(members):
    return of(word ^ 0o7777 for word in words(members))


def ors(left, right):
    return complements(ands(complements(left), complements(right)))


def or_any(members, mask):
    """{a or m} for all parts m of a mask."""
    for bit in (1 << place for place in range(12) if mask >> place & 1):
        clear = of(word for word in range(4096) if not word & bit)
        members |= (members & clear) << bit
    return members


def runs(members):
    """The maximal runs of a set, rising."""
    low = 0
    while members:
        skipped = (members & -members).bit_length() - 1
        members, low = members >> skipped, low + skipped
        length = (~members & members + 1).bit_length() - 1
        yield low, low + length - 1
        members, low = members >> length, low + length


def totals(left, right):
    """The sums that carry nothing, and those that carry, less 10000."""
    if left.bit_count() < right.bit_count():
        left, right = right, left
    found = 0
    for first, last in runs(right):
        part, done, length = left, 1, last - first + 1
        while done < length:
            step = min(done, length - done)
            part |= part << step
            done += step
        found |= part << first
    return found & ALL, found >> 4096


def added(left, right):
    """All sums modulo 10000."""
    low, high = totals(left, right)
    return low | high


def complement(members):
    """All -x - 1, which is each word with its bits complemented."""
    return int(format(members, "04096b")[::-1], 2)


def negated(members):
    return shift(complement(members), 1)


def subtracted(left, right):
    """All differences modulo 10000."""
    return added(left, negated(right))


def times(factor, members):
    """All products with a factor."""
    if factor in (1, 0o7777):
        return members if factor == 1 else negated(members)
    return of(factor * word % 4096 for word in words(members))


def divided(factor, members, among):
    """The words of a set whose products with a factor are members."""
    if factor in (1, 0o7777):
        return (members if factor == 1 else negated(members)) & among
    return of(word for word in words(among) if members >> factor * word % 4096 & 1)


def union(several):
    found = 0
    for members in several:
        found |= members
    return found
