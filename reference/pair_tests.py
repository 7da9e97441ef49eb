"""Counts the pair tests that weaving makes in one chunk of 1,024 rules: for the search as it is built, and for one that
starts over after each merge. Both find the same pairs, so the second count is worked out from the pairs that the first finds.

  python3 reference/pair_tests.py
"""


def mergeable(a, b):
    """Equal care words, and values that differ in one place; all decisions are equal here."""
    return a[0] == b[0] and bin(a[1] ^ b[1]).count("1") == 1


def counts(values, width):
    """The pair tests as built, those of starting over, and the entries that are left."""
    full = (1 << width) - 1
    entries = [(full, v) for v in values]
    row = done = built = over = 0
    while True:
        pair = None
        for i, a in enumerate(entries):
            if i < done and i < row:
                later = range(row, row + 1)
            elif i < done and row < i:
                later = range(0)
            else:
                later = range(i + 1, len(entries))
            for j in later:
                built += 1
                if mergeable(a, entries[j]):
                    pair = (i, j)
                    break
            if pair:
                break
        n = len(entries)
        if not pair:
            return built, over + n * (n - 1) // 2, n
        i, j = pair
        over += sum(n - 1 - k for k in range(i)) + j - i
        a, b = entries[i], entries[j]
        entries[i] = (a[0] ^ (a[1] ^ b[1]), a[1] & b[1])
        del entries[j]
        row = i
        done = done - 1 if j < done else max(done, i)


def even(v):
    return bin(v).count("1") % 2 == 0


def parity_order(values):
    """Those with an even number of 1s first, the others in reverse."""
    values = list(values)
    return [v for v in values if even(v)] + [v for v in reversed(values) if not even(v)]


def lonely(n, width):
    """n values of which no two differ in one place, nor one and a value below 2^(width-2): all with an even number of 1s,
    and 1s at places 1 and 2."""
    return [3 << (width - 2) | v for v in range(1 << (width - 2)) if even(v)][:n]


if __name__ == "__main__":
    for name, values, width in (
        ("448 that never merge, then 576 that do", lonely(448, 13) + parity_order(range(576)), 13),
        ("512 that never merge, then 512 that do", lonely(512, 13) + parity_order(range(512)), 13),
        ("all 1,024 values, by parity", parity_order(range(1024)), 10),
        ("none mergeable", lonely(1024, 13), 13),
    ):
        built, over, left = counts(values, width)
        print(f"{name}: {built} as built, {over} starting over, {left} entries left")
