"""The worked examples of the rules, held against the model, and the model's shorter ways against walks over every header and over
every prefix of a field. Prints how many hold; `python3 examples.py [DIR]` also holds the model's bench program to each folder of
DIR that has old.img, new.img and stdout."""
import os
import sys

import cases
import model
from model import Refused


def words(rules):
    """The rules of a list written with patterns: a care word, a value word and a decision each."""
    return [(model.care_word(p), model.value_word(p), d) for p, d in rules]


def slices(rules):
    """A list written with patterns, as the three slices."""
    return model.slices_of(words(rules))


def woven(width, rules):
    mark = (9 + 8 * model.HALF, 7 + 6 * model.HALF, 5)
    out = model.slices_of([mark] * (len(rules) + 1))
    counts = model.weave(width, *slices(rules), *out)
    after = model.words_and_decisions(*out)
    assert after[counts[0] :] == [(0, 0, 0)] * (len(rules) - counts[0]) + [mark]
    return [(model.pattern(width, c, v), d) for c, v, d in after[: counts[0]]], counts


def pruned(width, rules):
    """What pruning leaves of a list written with patterns, each rule with its header, in results with a place more than it takes."""
    mark, left = (9 + 8 * model.HALF, 7 + 6 * model.HALF, 5), 4 + 3 * model.HALF
    out, header = model.slices_of([mark] * (len(rules) + 1)), model.halves_of([left] * (len(rules) + 1))
    kept, dropped = model.prune(width, *slices(rules), *out, header)
    after, headers = model.words_and_decisions(*out), model.words_of(header)
    assert after[kept:] == [(0, 0, 0)] * dropped + [mark] and headers[kept:] == [0] * dropped + [left]
    return [(model.pattern(width, c, v), d) for c, v, d in after[:kept]], headers[:kept]


def needed(width, rules):
    """For each rule of a list written with patterns, and for the position behind them, the lowest header that needs it, or None."""
    return [model.needed_at(width, *slices(rules), k) for k in range(len(rules) + 1)]


def prune_refusal(width, rules, cares, values, decisions, headers):
    """The refusal of pruning with results of so many numbers, none of which it changes; None where it is taken."""
    before = [9] * cares, [8] * values, [7] * decisions, [6] * headers
    results = [slice[:] for slice in before]
    found = refusal(model.prune, width, *slices(rules), *results)
    assert found is None or results == list(before)
    return found


def cut(width, rules):
    sizes = [0] * len(rules)
    return model.runs(width, *slices(rules), sizes), sizes


def refusal(call, *arguments):
    try:
        call(*arguments)
    except Refused as refused:
        return refused.number, refused.list, refused.rule
    return None


def runs_found(room, call, *arguments):
    """The runs that a comparison puts into results with so many places, and where the next one starts."""
    first, last, old, new = [0] * 2 * room, [0] * 2 * room, [0] * room, [0] * room
    count, more = call(*arguments, first, last, old, new)
    return list(zip(model.words_of(first), model.words_of(last), old, new))[:count], more


def compared(width, old, new, start=0, room=10):
    return runs_found(room, model.compare, width, slices(old), slices(new), start)


def outcomes(width, old, old_default, new, new_default, start=0, room=10):
    return runs_found(room, model.compare_outcomes, width, slices(old), old_default, slices(new), new_default, start)


def prefixes(bits, low, high):
    """The prefixes of a range, as patterns, in results with a place more than they take."""
    count = model.range_prefix_count(bits, low, high)
    care, value = [9999] * (count + 1), [8888] * (count + 1)
    assert model.range_prefixes(bits, low, high, care, value) == count and (care[count], value[count]) == (9999, 8888)
    return [model.pattern(bits, c, v) for c, v in zip(care[:count], value[:count])]


def range_refusal(bits, low, high, cares, values):
    """The refusal of a range with results of so many places, none of which it changes; None where it is taken."""
    care, value = [9999] * cares, [8888] * values
    found = refusal(model.range_prefixes, bits, low, high, care, value)
    assert found is None or (care, value) == ([9999] * cares, [8888] * values)
    return found


def ranges(bits):
    """Every range of a field."""
    return [(low, high) for low in range(2**bits) for high in range(low, 2**bits)]


def all_seven(*patterns):
    return [(p, 7) for p in patterns]


def examples():
    none = model.NO_MATCH
    yield model.distance_text("0001", "1101") == 2 and model.distance_text("0*01", "01*1") == 0
    yield model.moved([3, 1, 2], "0*1") == "10*"
    rules = [("000*", 1), ("001*", 1), ("0000", 2), ("0***", 2), ("1***", 1)]
    yield woven(4, rules) == ([("00**", 1), ("0***", 2), ("1***", 1)], (3, 1, 1))
    rules = [("0*", 1), ("*0", 2)]
    yield woven(2, rules) == (rules, (2, 0, 0)) and cut(2, rules) == (2, [1, 1])
    yield refusal(model.prefix_swap, 2, *slices(rules)) == (8, 1, 2)
    yield woven(2, rules + [("00", 3)]) == (rules, (2, 1, 0)) and cut(2, rules + [("00", 3)])[0] == 2
    yield woven(2, all_seven("00", "01", "11"))[0] == all_seven("0*", "11")
    yield woven(2, all_seven("00", "01", "10", "11")) == (all_seven("**"), (1, 0, 3))
    yield woven(2, [("1*", 1), ("00", 2)])[0] == [("00", 2), ("1*", 1)]
    yield woven(5, []) == ([], (0, 0, 0)) and model.lookup(5, [], [], [], 3) is None
    nested = slices([("00*", 7), ("0**", 7), ("***", 8)])
    yield [model.lookup(3, *nested, header) for header in (0, 2, 4)] == [(1, 7), (2, 7), (3, 8)]
    yield model.prefix_swap(4, [], [], []).order() == [1, 2, 3, 4]
    rules = [("00*", 7), ("0**", 7), ("***", 8)]
    yield pruned(3, rules) == (rules[1:], [0, 4]) and needed(3, rules) == [None, 2, 4, None]
    crossed = [("00*", 7), ("*0*", 8), ("0**", 7), ("***", 8)]
    yield pruned(3, crossed) == (crossed[2:], [0, 4]) and needed(3, crossed) == [0, None, 2, 6, None]
    yield pruned(3, crossed[:3]) == (crossed[:3], [0, 4, 2])
    yield pruned(2, [("0*", 1), ("0*", 1)]) == ([("0*", 1)], [0]) and needed(2, [("0*", 1), ("0*", 1)]) == [None] * 3
    yield pruned(2, [("0*", 1), ("1*", 2), ("**", 3)]) == ([("0*", 1), ("1*", 2)], [0, 2])
    yield pruned(2, [("00", 7), ("01", 7), ("10", 7), ("11", 7), ("**", 7)])[0] == all_seven("00", "01", "10", "11")
    yield pruned(2, [("0*", 1), ("*0", 2), ("00", 3)]) == ([("0*", 1), ("*0", 2)], [0, 2])
    yield pruned(5, []) == ([], []) and needed(5, []) == [None]
    for width in (1, 64, 65, 104, 128):
        last, stars = ("*" * (width - 1) + "1", 5), ("*" * width, 6)
        yield pruned(width, [last, stars]) == ([last, stars], [1, 0]) and pruned(width, [stars, last]) == ([stars], [0])
        yield pruned(width, [last, ("*" * width, 5)]) == ([("*" * width, 5)], [0])
    yield [prune_refusal(3, rules, *sizes) for sizes in ((6, 6, 3, 6), (8, 8, 4, 8))] == [None] * 2
    for sizes in (4, 6, 3, 6), (6, 5, 3, 6), (6, 6, 4, 6), (6, 6, 3, 5), (6, 6, 3, 8), (4, 4, 2, 6), (6, 6, 3, 3):
        yield prune_refusal(3, rules, *sizes) == (2, 0, 0)
    yield prune_refusal(3, rules, 4, 4, 2, 4) == (7, 0, 0) and prune_refusal(3, [("0**", none)], 4, 5, 0, 1) == (5, 1, 1)
    old, new = [("0**", 1)], [("00*", 1), ("1*1", 1)]
    runs = [(2, 3, 1, none), (5, 5, none, 1), (7, 7, none, 1)]
    yield compared(3, old, new) == (runs, None) and compared(3, old, new, room=1) == (runs[:1], 5)
    yield compared(3, old, new, start=3)[0][0] == (3, 3, 1, none)
    yield refusal(compared, 3, old, new, 8) == (6, 0, 0)
    yield compared(2, [("00", 1), ("01", 1)], []) == ([(0, 1, 1, none)], None)
    for width in (64, 128):
        yield compared(width, [("*" * width, 1)], []) == ([(0, 2**width - 1, 1, none)], None)
        last = [("*" * (width - 1) + "1", 5)]
        yield compared(width, last, last) == ([], None)
    yield outcomes(3, old, None, new, None) == (runs, None) and outcomes(3, old, 1, new, 1) == ([], None)
    yield outcomes(3, old, 1, new, None) == ([(2, 4, 1, none), (6, 6, 1, none)], None)
    yield outcomes(3, old, None, new, 1) == ([(4, 7, none, 1)], None)
    yield outcomes(3, old, 2, new, 2, room=1) == ([(2, 3, 1, 2)], 5) and outcomes(3, old, 1, new, None, start=4, room=1)[1] == 6
    left, right = [("0*", 1)], [("*1", 2)]
    yield outcomes(2, left, None, right, None)[0] == [(0, 0, 1, none), (1, 1, 1, 2), (3, 3, none, 2)]
    yield outcomes(2, left, None, right, 1)[0] == [(1, 1, 1, 2), (2, 2, none, 1), (3, 3, none, 2)]
    yield outcomes(2, left, 2, right, 1)[0] == [(1, 1, 1, 2), (2, 2, 2, 1)] and outcomes(2, left, 1, right, 2)[0] == [(0, 3, 1, 2)]
    yield outcomes(128, [], 7, [("*" * 128, 7)], None) == ([], None) and outcomes(128, [], 7, [], 7) == ([], None)
    yield outcomes(128, [], 7, [], 8) == ([(0, 2**128 - 1, 7, 8)], None)
    yield refusal(outcomes, 3, [("0**", none)], none, new, none) == (5, 1, 1)
    yield refusal(outcomes, 3, old, none, new, none, 8, 0) == (5, 1, 0)
    yield refusal(outcomes, 3, old, 1, new, none, 8, 0) == (5, 2, 0)
    yield refusal(outcomes, 3, old, 65534, new, None, 8, 0) == (6, 0, 0)
    yield refusal(model.invert, model.Swap([1, 1] + [0] * 126, 2)) == (9, 0, 0)
    yield refusal(model.check_list, 3, [2, 0], [1, 0], [0]) == (4, 1, 1)
    yield refusal(model.check_list, 0, [], [], []) == refusal(model.check_list, 129, [], [], []) == (1, 0, 0)
    yield refusal(model.check_list, 65, [], [], []) is refusal(model.check_list, 128, [], [], []) is None
    yield refusal(model.check_list, 8, *model.slices_of([(0, 0, 0)] * 1024)) is None
    yield refusal(model.check_list, 8, *model.slices_of([(0, 0, 0)] * 1025)) == (3, 1, 0)
    image = bytes([1, 3, 1, 0, 12, 0, 0, 0, 1, 0, 1, 0, 4] + [0] * 15 + [1, 0])
    out = [7] * 31
    yield model.write(1, 3, [1], [1], *slices([("0**", 1)]), out) == 30 and bytes(out) == image + b"\7"
    yield refusal(model.check_image, image) is None
    yield refusal(model.check_image, image + b"\0") == (10, 0, 0) and refusal(model.check_image, image[:-1]) == (10, 1, 0)
    for format in (1, 2):
        other = image_of(format, 3, [[("00*", 1), ("1*1", 1)]])
        yield model.bench(image, other) == "width 3\n2 3 1 none\n5 5 none 1\n7 7 none 1\nruns 3\n"
        yield runs_found(10, model.compare_first_outcomes, image, None, other, 1, 0) == ([(4, 7, none, 1)], None)
        yield runs_found(10, model.compare_list_outcomes, image, 1, 1, other, 1, 1, 0) == ([], None)
        rule = [("0**", 1)]
        yield refusal(model.check_image, image_of(format, 3, [[]])) == (24, 1, 0)
        yield refusal(model.check_image, image_of(format, 3, [[], rule])) == (24, 1, 0)
        yield refusal(model.check_image, image_of(format, 3, [rule, []])) == (24, 2, 0)
        yield refusal(model.write, format, 3, [1, 0], [1, 2], *slices(rule), [0] * 99) == (24, 2, 0)
        yield model.bench(image, image_of(format, 3, [[]])) == "refused 24\n"
    wide = bytes([2, 65, 1, 0, 12, 0, 0, 0, 1, 0, 1, 0] + [0] * 8 + [1] + [0] * 23 + [1, 0])
    yield image_of(2, 65, [[("0" + "*" * 64, 1)]]) == wide and len(wide) == 46 and refusal(model.check_image, wide) is None
    yield refusal(model.check_image, b"\1" + wide[1:]) == (1, 0, 0) and refusal(model.check_image, b"\3" + wide[1:]) == (11, 0, 0)
    yield prefixes(3, 1, 5) == ["001", "01*", "10*"] and model.range_prefix_count(16, 1, 65534) == 30
    yield prefixes(1, 0, 0) == ["0"] and prefixes(1, 1, 1) == ["1"] and prefixes(1, 0, 1) == ["*"]
    yield prefixes(3, 1, 6) == ["001", "01*", "10*", "110"] and prefixes(3, 0, 6) == ["0**", "10*", "110"]
    yield prefixes(3, 2, 5) == ["01*", "10*"] and prefixes(3, 3, 4) == ["011", "100"] and prefixes(3, 4, 7) == ["1**"]
    yield prefixes(16, 1024, 65535) == ["0" * k + "1" + "*" * (15 - k) for k in range(5, -1, -1)]
    for bits in range(1, 17):
        last, half = 2**bits - 1, 2 ** (bits - 1)
        yield prefixes(bits, 0, last) == ["*" * bits] and prefixes(bits, half, last) == ["1" + "*" * (bits - 1)]
        yield prefixes(bits, 0, 0) == ["0" * bits] and prefixes(bits, last, last) == ["1" * bits]
        yield prefixes(bits, last // 3, last // 3) == [("01" * bits)[:bits]]
        yield refusal(model.range_prefix_count, bits, last, last + 1) == refusal(model.range_prefix_count, bits, 1, 0) == (20, 0, 0)
    for bits in range(2, 17):
        last = 2**bits - 1
        yield model.range_prefix_count(bits, 1, last - 1) == 2 * bits - 2
        yield model.range_prefix_count(bits, 0, last - 1) == model.range_prefix_count(bits, 1, last) == bits
    for bits in range(1, 9):
        yield max(model.range_prefix_count(bits, *ends) for ends in ranges(bits)) == max(2 * bits - 2, 1)
    for bits in (0, 17, 2**32 - 1):
        yield refusal(model.range_prefix_count, bits, 1, 0) == range_refusal(bits, 1, 0, 0, 1) == (1, 0, 0)
    yield range_refusal(3, 5, 4, 0, 1) == range_refusal(3, 5, 8, 0, 1) == range_refusal(3, 8, 8, 0, 0) == (20, 0, 0)
    yield range_refusal(3, 1, 5, 0, 1) == range_refusal(3, 1, 5, 3, 2) == range_refusal(3, 1, 5, 4, 5) == (2, 0, 0)
    yield [range_refusal(3, 1, 5, room, room) for room in range(5)] == [(7, 0, 0)] * 3 + [None] * 2


def headers(width):
    return [model.bits(width, h) for h in range(2**width)]


def answers(width, rules):
    return [model.answer(rules, header) for header in headers(width)]


def walks():
    """Random lists of small widths: what the model says against what every header says."""
    make = cases.Maker(1)
    any_miss = lambda: make.pick(make.decision(), model.NO_MATCH)
    for _ in range(300):
        width = make.random.randint(1, 6)
        lists = [model.rules_of(width, *make.list_of(width, make.some(8))) for _ in range(2)]
        old, new = lists
        for misses in [(model.NO_MATCH, model.NO_MATCH), (any_miss(), any_miss())]:
            sides = list(zip(lists, misses))
            by_headers = list(joined(model.stretches_by_headers(width, *sides)))
            yield list(joined(model.stretches_by_places(width, *sides, 0))) == by_headers
            yield list(joined(model.differences(width, *sides, 0))) == by_headers
            closed = [(rules + [("*" * width, miss)], None) for rules, miss in sides]  # a last rule of stars leaves no miss
            yield list(model.differences(width, *closed, 0)) == list(model.differences(width, *sides, 0))
        yield answers(width, woven(width, old)[0]) == answers(width, old) and sum(woven(width, old)[1]) == len(old)
        for a, _ in old:
            for b, _ in new:
                both = [(model.matches(a, h), model.matches(b, h)) for h in headers(width)]
                yield model.covers_text(a, b) == all(of_a for of_a, of_b in both if of_b)
                yield (model.distance_text(a, b) == 0) == any(of_a and of_b for of_a, of_b in both)


def first_change(before, after):
    """The first header for which two tables of answers differ, or None."""
    return next((h for h, (a, b) in enumerate(zip(before, after)) if a != b), None)


def kept_by_tables(width, rules):
    """What pruning has to leave, by tables of every header's answer: from the last rule to the first."""
    left = rules
    for k in reversed(range(len(rules))):
        shorter = left[:k] + left[k + 1 :]
        if answers(width, shorter) == answers(width, left):
            left = shorter
    return left


def pruning_walks():
    """Random lists up to width 8, by tables of every header's answer: what pruning leaves answers as the list does, the header beside each
    kept rule is the first for which the answer changes without it, and pruning once more leaves all. The model's two ways agree on every
    rule of the list."""
    make = cases.Maker(3)
    for _ in range(500):
        width = make.random.randint(1, 8)
        rules = model.rules_of(width, *make.pick(make.list_of, make.prunable_list)(width, make.some(10)))
        kept, headers = pruned(width, rules)
        table = answers(width, kept)
        yield kept == kept_by_tables(width, rules) and table == answers(width, rules)
        yield headers == [first_change(table, answers(width, kept[:k] + kept[k + 1 :])) for k in range(len(kept))]
        yield pruned(width, kept) == (kept, headers) and None not in headers
        for k in range(len(rules)):
            yield model.lowest_by_blocks(rules, k) == model.lowest_by_headers(width, rules, k)


def wide_pruning_walks():
    """Random lists of any width: the header of each rule against the first run of differences of the list and the list without it."""
    make = cases.Maker(4)
    for _ in range(300):
        width = make.width()
        rules = model.rules_of(width, *make.pick(make.list_of, make.prunable_list, make.prefix_list)(width, make.some(6)))
        for k in range(len(rules)):
            sides = (rules, model.NO_MATCH), (rules[:k] + rules[k + 1 :], model.NO_MATCH)
            run = next(model.differences(width, *sides, 0), None)
            yield model.lowest_by_blocks(rules, k) == (None if run is None else run[0])


def every_prefix(field):
    """All prefixes of a field, each with its next shorter one; that of the whole field is None."""
    yield "*" * field, None
    for stars in range(1, field + 1):
        for number in range(2 ** (field - stars)):
            shorter = model.bits(field, number << stars)[: field - stars] + "*" * stars
            for digit in "01":
                yield shorter.replace("*", digit, 1), shorter


def prefix_walks():
    """All prefixes of a field that lie within a range and have no shorter one that does, against what the model says: every range of
    small fields, and some of the largest field."""
    make = cases.Maker(2)
    small = [(bits, ranges(bits)) for bits in range(1, 7)]
    largest = [(16, [(1, 65534), (0, 65535)] + [make.range_in(16) for _ in range(4)])]
    for bits, some in small + largest:
        all = [(model.first_number(prefix), model.last_number(prefix), prefix, shorter) for prefix, shorter in every_prefix(bits)]
        for low, high in some:
            inside = {prefix: shorter for first, last, prefix, shorter in all if low <= first and last <= high}
            kept = [prefix for prefix, shorter in inside.items() if shorter not in inside]
            yield prefixes(bits, low, high) == sorted(kept, key=model.first_number)


def joined(stretches):
    """The headers on which the answers differ, one by one."""
    for first, last, a, b in stretches:
        if a != b:
            for header in range(first, last + 1):
                yield header, a, b


def image_of(format, width, lists):
    flat = [rule for rules in lists for rule in rules]
    return model.image_bytes(format, width, [len(rules) for rules in lists], range(1, len(lists) + 1), words(flat))


def bytes_of(path):
    if not os.path.exists(path):
        return b""
    with open(path, "rb") as file:
        return file.read()


def folders(top):
    for name in sorted(os.listdir(top)):
        folder = os.path.join(top, name)
        if os.path.isdir(folder):
            text = model.bench(bytes_of(os.path.join(folder, "old.img")), bytes_of(os.path.join(folder, "new.img")))
            held = text.encode() == bytes_of(os.path.join(folder, "stdout"))
            print(name, "holds" if held else "DIFFERS", flush=True)
            yield held


if __name__ == "__main__":
    held = list(examples()) + list(walks()) + list(pruning_walks()) + list(wide_pruning_walks()) + list(prefix_walks())
    if len(sys.argv) > 1:
        held += folders(sys.argv[1])
    print("%d hold, %d do not" % (held.count(True), held.count(False)))
