"""ranges.py: writes a case with the model's answer for every range of the fields of 1 to 6 bits to standard output. That is the file
crates/cases/data/every_range.txt.

Before a case is written, its answer is tried in ways that are not the model's: every number of the field is held against the prefixes'
words, and fewer prefixes are searched for. Here a prefix is the first and the last number that match it.
"""
import itertools

import answers
import model

LARGEST = 6  # bits of the fields
ROOM = 10  # places of the results, which is what the largest of these fields takes at most
CARE, VALUE = 9999, 8888  # what the results hold before a call; no such word is a prefix's
BY_SETS = 3  # up to this many bits every set of prefixes is tried

REMARK = """\
# Every range of the fields of 1 to 6 bits, 2,793 in all: by the bits of the field, then by low, then by high. Each call is lent 10
# places, and those past the count keep what they held. The file is what `python3 reference/ranges.py` writes. Before it writes a case it
# checks the answer by searches that are not the model's way: each number of the range matches exactly one of the prefixes, every other
# number matches none, and no fewer prefixes cover exactly the range, even if they may overlap.
"""


def ranges():
    """Every range, as the bits of its field, low and high."""
    for bits in range(1, LARGEST + 1):
        for low in range(2**bits):
            for high in range(low, 2**bits):
                yield bits, low, high


def prefixes(bits):
    """Every prefix of a field: with so many stars, each block of numbers that starts at a multiple of its length."""
    for stars in range(bits + 1):
        for first in range(0, 2**bits, 2**stars):
            yield first, first + 2**stars - 1


def fewest(bits, low, high):
    """The length of the shortest list of prefixes, overlapping or not, that covers the range and no other number. Up to some number
    all are covered; a step takes any prefix that has the next one, and goes on after that prefix's last. Every list that covers the
    range has a prefix for each step, and each time another one: so none is shorter than the fewest steps."""
    usable = [(first, last) for first, last in prefixes(bits) if low <= first and last <= high]
    reached, steps = {low}, 0
    while high + 1 not in reached:
        reached = {last + 1 for first, last in usable for number in reached if first <= number <= last}
        steps += 1
    return steps


def some_set_covers(bits, low, high, size):
    """Some set of so many prefixes of the field, whichever they are, has the numbers of the range together and no others."""
    wanted = set(range(low, high + 1))
    numbers = [set(range(first, last + 1)) for first, last in prefixes(bits)]
    return any(set().union(*chosen) == wanted for chosen in itertools.combinations(numbers, size))


def try_answer(bits, low, high):
    """The words that the model puts into the results, against the range and against fewer prefixes."""
    care, value = [CARE] * ROOM, [VALUE] * ROOM
    count = model.range_prefixes(bits, low, high, care, value)
    assert care[count:] == [CARE] * (ROOM - count) and value[count:] == [VALUE] * (ROOM - count)
    words = list(zip(care, value))[:count]
    firsts = [v for _, v in words]
    assert all(a < b for a, b in zip(firsts, firsts[1:]))
    assert all((v, v + 2**bits - 1 - c) in prefixes(bits) for c, v in words)
    for number in range(2**bits):
        assert sum(1 for c, v in words if number & c == v) == (1 if low <= number <= high else 0)
    assert fewest(bits, low, high) == count == model.range_prefix_count(bits, low, high)
    if bits <= BY_SETS:
        assert some_set_covers(bits, low, high, count)
        assert not any(some_set_covers(bits, low, high, size) for size in range(count))


def main():
    print(REMARK, end="")
    for bits, low, high in ranges():
        try_answer(bits, low, high)
        results = "care [%d times %d] value [%d times %d]" % (ROOM, CARE, ROOM, VALUE)
        case = "range_prefixes bits %d low %d high %d %s" % (bits, low, high, results)
        print("%s\n= %s" % (case, answers.answer(case)))


if __name__ == "__main__":
    main()
