"""Random cases, good and damaged, in the form of docs/CASES.md, with the answers of the model beside them.

    cases.py SEED COUNT [--small] [KIND..]

writes COUNT cases to standard output. The kinds are those of KINDS below, or the name of a library for all of its kinds, and all
of them where none is named. The same seed gives the same cases. With --small a case has at most 1,000 bytes.

A list is held as it is lent: its three slices, with two numbers to a care word and to a value word.
"""
import random
import sys

import answers
import model
from answers import list_said, numbers_said, rules_said
from model import HALF, WIDEST, Swap, slices_of, words_and_decisions

MOST_BYTES = 65600  # of a slice of bytes in a case
BAD_WIDTHS = [0, 129, 130, 192, 255, 256, 2**31, 2**32 - 1]
BAD_FIELDS = [0, 0, 17, 17, 18, 31, 32, 33, 64, 255, 256, 65536, 2**31, 2**32 - 1]
KNOWN_PORTS = [(1024, 65535), (0, 1023), (137, 139), (6881, 6889), (20, 21)]  # ranges that access lists have


# What is handed in, as text. ---------------------------------------------------------------------------------------------


def swap_text(swap):
    places = swap.places[:]
    while places and places[-1] == 0:
        places.pop()
    return "swap %d %s" % (swap.width, numbers_said(places))


def default_text(default):
    """The default of a side; `none` where there is none."""
    return "none" if default is None else str(default)


def five_fields_text(slices, one_by_one=False):
    """Five-field rules, ten numbers each; or slice by slice, as they have to be where they are not equally long."""
    if one_by_one or len(set(len(slice) for slice in slices)) > 1:
        return " ".join("%s %s" % (name, numbers_said(slice)) for name, slice in zip(answers.FIELDS + ["decision"], slices))
    return "[%s]" % ", ".join(" ".join(str(number) for number in rule) for rule in zip(*slices))


def marks(first, length):
    """What a result slice holds before a call: numbers that all differ, or one number where it is long."""
    if length == 0:
        return "[]"
    return "[%d to %d]" % (first, first + length - 1) if length <= 12 else "[%d times %d]" % (length, first)


def word_marks(high, low, length):
    """The same for a slice of words with so many numbers: neither half of a word is 0, and one number may be left over."""
    first, count = high * HALF + low, length // 2
    words = "%#x to %#x" % (first, first + count - 1) if count <= 12 else "%d times %#x" % (count, first)
    return "[%s]" % " ".join(([words] if count else []) + ["half %d" % high] * (length % 2))


def list_marks(cares, values, decisions):
    """Result slices of a list, with so many numbers each."""
    return "care %s value %s decision %s" % (word_marks(7, 40000, cares), word_marks(8, 50000, values), marks(60000, decisions))


def run_marks(firsts, lasts, olds, news):
    """Result slices of a comparison, with so many numbers each."""
    headers = "first %s last %s" % (word_marks(5, 30000, firsts), word_marks(6, 40000, lasts))
    return "%s old %s new %s" % (headers, marks(50000, olds), marks(60000, news))


class Maker:
    """Makes the parts of cases by a random source; with few result places where cases are to be small."""

    def __init__(self, seed, small=False):
        self.random, self.small = random.Random(seed), small

    def chance(self, percent):
        return self.random.randrange(100) < percent

    def pick(self, *choices):
        return self.random.choice(choices)

    # Good parts.

    def width(self):
        """Small, at the seam between the halves of a word, as wide as five fields, the widest, or any."""
        small, seam = self.pick(1, 2, 3, 4, 4, 5, 6, 8), self.random.randint(60, 68)
        return self.pick(small, small, small, seam, 64, 65, self.random.randint(100, 104), 127, 128, 128, self.random.randint(1, 128))

    def decision(self):
        return self.pick(0, 1, 1, 2, 2, 3, self.random.randrange(65535), 65534)

    def text(self, width, stars):
        return "".join("*" if self.chance(stars) else self.pick("0", "1") for _ in range(width))

    def near(self, text):
        """A pattern like this one, so that rules cover, cross and merge."""
        place = self.random.randrange(len(text))
        other = {"0": "1", "1": "0", "*": "*"}[text[place]]
        return text[:place] + self.pick("0", "1", "*", other, other) + text[place + 1 :]

    def prefix(self, width):
        length = self.random.randint(0, width)
        return self.text(length, 0) + "*" * (width - length)

    def patterns(self, width, count):
        """Random patterns, some of them near earlier ones; or prefixes, which never cross, their places mixed."""
        stars, near, mixed = self.pick(0, 10, 30, 60, 90), self.pick(0, 30, 60, 90), None
        if self.chance(30):
            mixed = self.random.sample(range(width), width)
        texts = []
        for _ in range(count):
            if texts and self.chance(near):
                texts.append(self.near(self.random.choice(texts)))
            elif mixed:
                prefix = self.prefix(width)
                texts.append("".join(prefix[k] for k in mixed))
            else:
                texts.append(self.text(width, stars))
        return texts

    def some(self, most=12, least=0):
        """How many rules: most often few. A list of an image has at least 1."""
        return self.random.randint(least, self.pick(2, 4, 6, most, most))

    def list_of(self, width, count):
        texts = self.patterns(width, count)
        few = [self.decision() for _ in range(self.pick(1, 2, 5))]
        return slices_of([(model.care_word(t), model.value_word(t), self.random.choice(few)) for t in texts])

    def prefix_list(self, width, count):
        """Many rules that are prefixes, with one decision of few."""
        texts = [self.prefix(width) for _ in range(count)]
        return slices_of([(model.care_word(t), model.value_word(t), self.pick(1, 2, 3)) for t in texts])

    def prunable_list(self, width, count):
        """A list in which more rules do nothing: behind some of its rules stands a wider one with the same decision, before others their
        two halves, and others stand in it twice."""
        rules = model.rules_of(width, *self.list_of(width, count))
        for text, decision in self.random.sample(rules, len(rules) // 2):
            k, place, way = rules.index((text, decision)), self.random.randrange(width), self.random.randrange(5)
            with_digit = lambda digit: text[:place] + digit + text[place + 1 :]
            if way == 0:
                rules.insert(self.random.randint(0, len(rules)), (text, decision))
            elif text[place] != "*":
                rules.insert(self.random.randint(k + 1, len(rules)), (with_digit("*"), decision))
            else:
                for digit in "01":
                    rules.insert(self.random.randint(0, k), (with_digit(digit), self.pick(decision, self.decision())))
        return slices_of([(model.care_word(text), model.value_word(text), decision) for text, decision in rules])

    def rule(self, width):
        return words_and_decisions(*self.list_of(width, 1))[0]

    def header(self, width, list=None):
        """A header of the width, often one that some rule of the list matches."""
        header = self.random.getrandbits(width)
        rules = words_and_decisions(*list) if list else []
        if rules and self.chance(60):
            care, value, _ = self.random.choice(rules)
            header = (value | (header & ~care)) % 2**width
        return self.pick(header, header, header, header, 0, 2**width - 1)

    def default(self, own, other):
        """The default of a side with this list against another one: none, a decision of its own list, or any; often one of the
        other list, so that outcomes agree where this one misses."""
        choice = self.random.randrange(8)
        if choice < 2:
            return None
        if choice < 5 and other[2]:
            return self.random.choice(other[2])
        if choice < 6 and own[2]:
            return self.random.choice(own[2])
        return self.decision()

    def swap(self, width):
        return model.swap_of(self.random.sample(range(1, width + 1), width))

    def field(self):
        """The bits of a field: often those of a port, else any."""
        return self.pick(16, 16, self.random.randint(1, 16), self.random.randint(1, 6), self.random.randint(7, 15))

    def number_in(self, bits):
        """A number of a field: any, beside a power of two, or near an end of the field."""
        last, any = 2**bits - 1, self.random.getrandbits(bits)
        beside = min(2 ** self.random.randint(0, bits) + self.pick(-1, -1, 0, 0, 1), last)
        return self.pick(any, any, beside, beside, min(self.pick(0, 1, 2), last), max(last - self.pick(0, 1, 2), 0))

    def range_in(self, bits):
        """Low and high of a field: any two numbers, neighbours, one number twice, the ends of the field or the numbers beside them, the
        ends of a prefix, or these moved by one."""
        last, stars = 2**bits - 1, self.random.randint(0, bits)
        a, b = self.number_in(bits), self.number_in(bits)
        first = self.random.getrandbits(bits) >> stars << stars
        prefix = first + self.pick(-1, 0, 0, 0, 1), first + 2**stars - 1 + self.pick(-1, 0, 0, 0, 1)
        few = a, a + self.pick(1, 2, 3, 9)
        ends = self.pick((a, b), (a, b), (a, b), few, (a, a), (0, b), (a, last), (0, last), (1, last - 1), prefix, prefix)
        return sorted(min(max(number, 0), last) for number in ends)

    def network(self):
        """An address and how many of its first bits count: any address, a network, a host, or any length."""
        length = self.pick(0, 0, 0, 8, 16, 24, 24, 32, 32, self.random.randint(0, 32))
        near = self.pick(0x0A000000, 0xAC100000, 0xC0A80000, 0xFFFFFF00) + self.random.getrandbits(self.pick(2, 8))
        address = self.pick(near, near, near, self.random.getrandbits(32), 0, 2**32 - 1)
        return address >> (32 - length) << (32 - length), length

    def ports(self, many):
        """Low and high: any port, one port, a known range; and where many prefixes are meant, any range, or the one that takes most."""
        one = self.pick(0, 22, 25, 53, 80, 443, 65535, self.random.getrandbits(16))
        simple = self.pick((0, 65535), (0, 65535), (one, one), (one, one), self.random.choice(KNOWN_PORTS))
        return self.pick(simple, tuple(self.range_in(16)), (1, 65534)) if many else simple

    def five_field_rule(self, decisions, many):
        protocol = self.pick(256, 256, 6, 6, 17, 17, 1, 0, 255, self.random.getrandbits(8))
        ports = self.ports(many and self.chance(40)) + self.ports(many and self.chance(40))
        return self.network() + self.network() + ports + (protocol, self.random.choice(decisions))

    def five_field_rules(self):
        """The ten slices of some rules: most often few; seldom as many rules of one entry more as bring the entries to 1,024, or near."""
        decisions, many = [self.decision() for _ in range(self.pick(1, 2, 3))], self.chance(5 if self.small else 15)
        rules = [self.five_field_rule(decisions, many) for _ in range(self.some(3 if self.small else 8))]
        slices = [list(slice) for slice in zip(*rules)] or [[] for _ in range(10)]
        entries = model.expansion_count(*slices) if self.chance(4) and not many else model.LONGEST
        if entries < model.LONGEST:
            self.zero_rules(slices, len(rules) + model.LONGEST - entries + self.pick(-1, 0, 0, 1))
        return slices

    def zero_rules(self, slices, count):
        """Rules that are good, of ten zeros, up to so many in all."""
        for slice in slices:
            slice.extend([0] * (count - len(slice)))

    # Damage. Each of these takes a good part and hands back a worse one.

    def bad_width(self, width):
        return self.random.choice(BAD_WIDTHS)

    def bad_header(self, width):
        """A header outside the width, where there is one; its low half may be one inside."""
        inside = self.random.getrandbits(width)
        if width >= WIDEST:
            return 2**WIDEST - 1
        return self.pick(2**width, 2**width + inside, inside | self.outside(width), max(HALF, 2**width) | inside, 2**127, 2**128 - 1)

    def outside(self, width):
        """A bit at a weight outside the width; 0 where there is none."""
        return 0 if width >= WIDEST else 1 << self.pick(self.random.randint(width, WIDEST - 1), max(width, 64), width)

    def bad_rule(self, width, rule):
        care, value, decision = rule
        fault = self.random.randrange(6)
        if fault == 0:
            care |= self.outside(width)
        elif fault == 1:
            bit = self.outside(width)
            care, value = care | bit, value | bit
        elif fault == 2:
            value |= self.outside(width)
        elif fault == 3:
            value |= 1 << self.random.randrange(width)
            care &= ~value
        elif fault == 4:
            decision = 65535
        else:
            value, decision = 2**128 - 1, 65535
        return care, value, decision

    def bad_list(self, width, list):
        list = [slice[:] for slice in list]
        for _ in range(self.pick(1, 1, 2, 3)):
            fault = self.random.randrange(10)
            if fault < 6:
                rules = words_and_decisions(*list)
                if rules:
                    k = self.random.randrange(len(rules))
                    model.put_rule(*list, k, self.bad_rule(width, rules[k]))
            elif fault < 9:
                self.bad_lengths(list)
            elif self.chance(20):
                count = self.pick(1025, 1026)
                for slice, length in zip(list, (2 * count, 2 * count, count)):
                    slice.extend([0] * (length - len(slice)))
        return list

    def bad_lengths(self, list):
        """Takes numbers from one or two of the slices, or gives them some more: whole words, and odd ones."""
        slices = self.random.sample(list, self.pick(1, 1, 2))
        change = self.pick(-2, -1, 1, 1, 2, 3, 1500 if max(len(slice) for slice in list) < 2500 else 3)
        for slice in slices:
            if change < 0:
                del slice[change:]
            else:
                slice.extend([0] * change)

    def bad_swap(self, swap):
        places, width = swap.places[:], swap.width
        fault = self.random.randrange(6)
        if fault == 0:
            width = self.bad_width(width)
        elif fault == 1:
            places[self.random.randrange(width)] = places[self.random.randrange(width)]
        elif fault == 2:
            places[self.random.randrange(width)] = self.pick(0, 255, width + 1, 65, 129)
        elif fault == 3 and width < WIDEST:
            places[self.random.randrange(width, WIDEST)] = self.pick(1, width, width + 1, 255)
        elif fault == 4 and width > 1:
            width -= 1
        elif fault == 5 and width < WIDEST:
            width += 1
        return Swap(places, width)

    def bad_field(self, bits):
        """Also one whose low bits are those of a good field."""
        return self.pick(*BAD_FIELDS, bits + self.pick(16, 32, 256, 65536, 2**31))

    def bad_range(self, bits, low, high):
        """Low above high, high outside the field, or both; often by numbers that would be good without their high bits."""
        more = self.pick(2**bits, 65536, 2**31, 2**32 - 65536)
        far = self.pick(2**bits, 2**bits + 1, 65536, 2**31, 2**32 - 1)
        if self.chance(40):
            return self.pick((high + 1, high), (high + 1, low), (low + more, high), (far, high))
        return self.pick((low, high + more), (low + more, high + more), (low, far), (far, far))

    def bad_five_field_rule(self, rule):
        """A length, an address, the protocol, a range or the decision is wrong; often the low bits of a number are still good."""
        rule, side, fault = list(rule), self.pick(0, 2), self.random.randrange(8)
        if fault == 0:
            rule[side + 1] = self.pick(33, 33, 34, 64, 255, 256 + rule[side + 1] % 256, 65536, 2**31, 2**32 - 1)
        elif fault == 1:
            rule[side + 1] = self.random.randrange(32) if rule[side + 1] >= 32 else rule[side + 1]
            rule[side] |= 1 << self.pick(0, 31 - rule[side + 1], self.random.randrange(32 - rule[side + 1]))
        elif fault == 2:
            rule[8] = self.pick(257, 257, 258, 262, 511, 512, 65542, 2**31, 2**32 - 1)
        elif fault < 6:
            low, high = rule[side + 4 : side + 6]
            rule[side + 4 : side + 6] = self.bad_range(16, low % 65536, high % 65536)
        else:
            rule[9] = 65535
        return rule

    def bad_five_field_rules(self, slices):
        slices = [slice[:] for slice in slices]
        for _ in range(self.pick(1, 1, 2, 3, 4)):
            fault = self.random.randrange(20)
            if fault < 16:
                if min(len(slice) for slice in slices) > 0:
                    k = self.random.randrange(min(len(slice) for slice in slices))
                    for slice, number in zip(slices, self.bad_five_field_rule([slice[k] for slice in slices])):
                        slice[k] = number
            elif fault < 19:
                self.bad_lengths(slices)
            elif self.chance(50):
                self.zero_rules(slices, self.pick(1025, 1025, 1026))
        return slices

    # Parts that are damaged now and then.

    def any_width(self, width, percent=6):
        return self.bad_width(width) if self.chance(percent) else width

    def any_header(self, width, list=None, percent=12):
        return self.bad_header(width) if self.chance(percent) else self.header(width, list)

    def any_rule(self, width, percent=20):
        rule = self.rule(width)
        return self.bad_rule(width, rule) if self.chance(percent) else rule

    def any_list(self, width, most=12, percent=20):
        count = self.some(most)
        if self.chance(1) and self.chance(10):
            count = self.pick(1023, 1024, 1025)
        list = self.list_of(width, count)
        return self.bad_list(width, list) if self.chance(percent) else list

    def any_defaults(self, old, new, percent=8):
        """The defaults of both sides, now and then the same; and one that is refused, or both."""
        a, b = self.default(old, new), self.default(new, old)
        if self.chance(20):
            a, b = self.pick((a, a), (b, b))
        if self.chance(percent):
            a, b = self.pick((65535, b), (a, 65535), (65535, 65535))
        return a, b

    def any_swap(self, width, percent=20):
        swap = self.swap(width)
        return self.bad_swap(swap) if self.chance(percent) else swap

    def any_range(self, percent):
        """A field and a range of it, and how many prefixes that takes before either of the two is damaged."""
        bits = self.field()
        low, high = self.range_in(bits)
        need = model.range_prefix_count(bits, low, high)
        if self.chance(percent):
            low, high = self.bad_range(bits, low, high)
        return self.bad_field(bits) if self.chance(percent) else bits, low, high, need

    def any_five_field_rules(self, percent):
        """Five-field rules as text, and how many entries they have, or 0 where they are refused."""
        slices = self.five_field_rules()
        if self.chance(percent):
            slices = self.bad_five_field_rules(slices)
        try:
            need = model.expansion_count(*slices)
        except model.Refused:
            need = 0
        return five_fields_text(slices, len(slices[0]) > 20 or self.chance(10)), need

    def room(self, need):
        """The places of a result: most often enough."""
        if self.chance(15):
            return self.pick(0, max(need - 1, 0), need // 2)
        return need + self.pick(0, 0, 1, 3, 70)

    def numbers(self, *lengths):
        """The numbers of each slice of a result: most often so many; now and then one or two of them have more, or fewer."""
        lengths = list(lengths)
        if self.chance(10):
            change = self.pick(-1, 1, 1, 2)
            for k in self.random.sample(range(len(lengths)), self.pick(1, 1, 2)):
                lengths[k] = max(lengths[k] + change, 0)
        return lengths

    def list_marks(self, need):
        """Result slices of a list."""
        room = self.room(need)
        return list_marks(*self.numbers(2 * room, 2 * room, room))

    def pruned_marks(self, need):
        """Result slices of a list, and a slice of headers beside it."""
        room = self.room(need)
        cares, values, decisions, headers = self.numbers(2 * room, 2 * room, room, 2 * room)
        return "%s headers %s" % (list_marks(cares, values, decisions), word_marks(9, 20000, headers))

    def run_marks(self):
        """Result slices of a comparison."""
        room = self.pick(0, 1, 1, 2, 3, 5) if self.small else self.pick(0, 1, 1, 2, 3, 5, 20, 20, 40, 40)
        return run_marks(*self.numbers(2 * room, 2 * room, room, room))


# The kinds. Each makes one case. -----------------------------------------------------------------------------------------


def listed(make, most=12, percent=20):
    """A width, a list, and both as text."""
    width = make.width()
    list = make.any_list(width, most, percent)
    given = make.any_width(width)
    return width, list, "width %d list %s" % (given, list_said(width, *list))


def check_list(make):
    return "check_list " + listed(make, percent=50)[2]


def check_list_as(make):
    return "check_list_as %s as %d" % (listed(make, percent=50)[2], make.pick(0, 1, 2, 16, 2**64 - 1))


def lookup(make):
    good, list, text = listed(make, most=20, percent=10)
    headers = [make.any_header(good, list) for _ in range(make.random.randint(1, 8))]
    return "%s %s headers %s" % (make.pick("lookup", "lookup", "lookup_number"), text, numbers_said(headers))


def rule_at(make):
    _, list, text = listed(make, percent=50)
    ends = len(list[0]) // 2, len(list[1]) // 2, len(list[2])
    place = make.pick(0, 1, 2, ends[0], ends[1] - 1, ends[2] + 1, 2**63, 2**64 - 1) % 2**64
    return "rule_at %s place %d" % (text[text.index("list") :], place)


def check_rule(make):
    good = make.width()
    width, rule = make.any_width(good), make.any_rule(good, 50)
    list, number = make.pick(0, 1, 2, 2**64 - 1), make.pick(0, 1, 7, 1024, 2**64 - 1)
    return "check_rule width %d list %d number %d rule %s" % (width, list, number, rules_said(good, [rule]))


def pair_of(make, percent):
    good = make.width()
    a, b = words_and_decisions(*make.list_of(good, 2))
    if make.chance(percent):
        a = make.bad_rule(good, a)
    if make.chance(percent):
        b = make.bad_rule(good, b)
    return good, rules_said(good, [a, b])


def pair(make):
    good, text = pair_of(make, 15)
    return "%s width %d rules %s" % (make.pick("covers", "crosses", "distance"), make.any_width(good), text)


def bare_pair(make):
    return "%s rules %s" % (make.pick("rule_covers", "rule_crosses"), pair_of(make, 0)[1])


def put_rule(make):
    good, list, text = listed(make, percent=50)
    place = make.pick(0, 1, len(list[0]) // 2 - 1, len(list[1]) // 2, len(list[2]) + 1, 2**63, 2**64 - 1) % 2**64
    rule = make.any_rule(good, 50)
    return "put_rule %s place %d rule %s" % (text[text.index("list") :], place, rules_said(good, [rule]))


def prefix_swap(make):
    return "prefix_swap " + listed(make, percent=10)[2]


def swapped_list(swap, list):
    return slices_of([model.apply_rule(swap, rule) for rule in words_and_decisions(*list)])


def lookup_swapped(make):
    """A list, mostly moved by a swap, and headers moved by the same one."""
    good = make.width()
    list = make.list_of(good, make.some())
    swap = make.swap(good)
    headers = [make.header(good, list) for _ in range(make.random.randint(1, 4))]
    if make.chance(80):
        list = swapped_list(swap, list)
        headers = [model.apply(swap, header) for header in headers]
    if make.chance(10):
        list = make.bad_list(good, list)
    if make.chance(10):
        headers.append(make.bad_header(good))
    width = make.any_width(good)
    return "lookup_swapped width %d list %s headers %s" % (width, list_said(good, *list), numbers_said(headers))


def swaps(make):
    good = make.width()
    first = make.any_swap(good)
    call = make.pick("apply_rule", "apply", "undo", "invert", "compose")
    text = call + " " + swap_text(first)
    if call == "apply_rule":
        return text + " rule " + rules_said(good, [make.any_rule(good, 10)])
    if call == "compose":
        return text + " " + swap_text(make.any_swap(good if make.chance(80) else make.width()))
    if call == "invert":
        return text
    return text + " header %d" % make.any_header(good, None, 10)


def runs(make):
    _, list, text = listed(make, most=30, percent=10)
    return "runs %s into %s" % (text, marks(40000, make.room(len(list[2]))))


def weave(make):
    _, list, text = listed(make, most=80 if make.chance(2) else 30, percent=10)
    return "weave %s into %s" % (text, make.list_marks(len(list[2])))


def prunable(make):
    """A list, most often one of which some rules do nothing, and its text behind that of its width."""
    width = make.width()
    few = make.prunable_list, 12
    list_of, most = make.pick(few, few, (make.list_of, 20), (make.prefix_list, 60))
    list = list_of(width, make.some(most))
    if make.chance(10):
        list = make.bad_list(width, list)
    return list, "width %d list %s" % (make.any_width(width), list_said(width, *list))


def needed_at(make):
    """A position of the list, or now and then one that it has not."""
    list, text = prunable(make)
    count = len(list[2])
    position = make.pick(count, count, count + 1, 2**63, 2**64 - 1)
    if count and make.chance(90):
        position = make.random.randrange(count)
    return "needed_at %s position %d" % (text, position)


def prune(make):
    list, text = prunable(make)
    return "prune %s into %s" % (text, make.pruned_marks(len(list[2])))


def like(make, width, list):
    """A list that differs little from this one: a rule gone, two exchanged, one put in or changed; or its weave."""
    rules = words_and_decisions(*list)
    change = make.random.randrange(6)
    if change == 0 and rules:
        del rules[make.random.randrange(len(rules))]
    elif change == 1 and len(rules) > 1:
        k = make.random.randrange(len(rules) - 1)
        rules[k], rules[k + 1] = rules[k + 1], rules[k]
    elif change == 2:
        rules.insert(make.random.randint(0, len(rules)), make.rule(width))
    elif change == 3 and rules:
        k = make.random.randrange(len(rules))
        rules[k] = rules[k][:2] + (make.decision(),)
    elif change == 4:
        results = slices_of([(0, 0, 0)] * len(rules))
        kept, _, _ = model.weave(width, *list, *results)
        rules = words_and_decisions(*results)[:kept]
    return slices_of(rules)


def closed(list, default):
    """The list with a default as its last rule, which has only stars."""
    return slices_of(words_and_decisions(*list) + [(0, 0, default)])


def two_sides(make):
    """A width, two lists with a default each, all as text, and a start. Now and then the one list has the other's default as its
    last rule."""
    good = make.width()
    list_of, most = (make.prefix_list, 60) if make.chance(15) else (make.list_of, 12)
    old = list_of(good, make.some(most))
    new = like(make, good, old) if make.chance(60) else list_of(good, make.some(most))
    old_default, new_default = make.any_defaults(old, new)
    if make.chance(15):
        if make.chance(50) and old_default not in (None, 65535):
            new = closed(new, old_default)
        elif new_default not in (None, 65535):
            old = closed(old, new_default)
    start = make.pick(0, 0, make.any_header(good, old), make.any_header(good, new))
    if make.chance(8):
        old = make.bad_list(good, old)
    if make.chance(8):
        new = make.bad_list(good, new)
    width = "width %d" % make.any_width(good, 4)
    return width, list_said(good, *old), default_text(old_default), list_said(good, *new), default_text(new_default), start


def compare(make):
    width, old, _, new, _, start = two_sides(make)
    return "compare %s old %s new %s start %d into %s" % (width, old, new, start, make.run_marks())


def compare_outcomes(make):
    text = "compare_outcomes %s old %s default %s new %s default %s start %d" % two_sides(make)
    return "%s into %s" % (text, make.run_marks())


def format_for(make, width):
    """A format that has lists of this width."""
    return make.pick(1, 2) if width <= 64 else 2


def good_image(make):
    """The format, width, counts, ids and rules of an image."""
    width = make.width()
    lists = make.pick(1, 1, 2, 3, 5, 16)
    ids = sorted(make.random.sample(range(make.pick(20, 65536)), lists))
    counts, list_of = [make.some(6, 1) for _ in range(lists)], make.list_of
    if make.chance(1):
        counts[0], list_of = make.pick(1023, 1024), make.prefix_list
    return format_for(make, width), width, counts, ids, list_of(width, sum(counts))


def spot(make, image, k, width):
    """Where entry k of the contents has its offset, count or id, with the number of bytes."""
    at = model.HEAD + model.ENTRY * k
    return {"offset": (at, 4), "count": (at + 4, 2), "id": (at + 6, 2)}[width]


def put_number(image, at, size, number):
    image[at : at + size] = (number % 256**size).to_bytes(size, "little")


def bad_entry(make, image, k, rule, field):
    """The offset, count or id of entry k of the contents damaged."""
    at, size = spot(make, image, k, field)
    number = model.number(image, at, size)
    if field == "offset":
        number += make.pick(-rule, -1, 1, rule, 2**31, 2**32 - 1)
    elif field == "count":
        number = make.pick(number + make.pick(-1, 1, 2), 1024, 1025, 65535)
    else:
        number = make.pick(0, 65535, number + make.pick(-1, 1))
    put_number(image, at, size, number)


def no_rules(make, image, k, rule):
    """The count of entry k put to 0; most often the list's body goes too and the later ones start so much earlier, so that nothing
    else is wrong."""
    at, size = spot(make, image, k, "count")
    length = rule * model.number(image, at, size)
    put_number(image, at, size, 0)
    if make.chance(70):
        at, size = spot(make, image, k, "offset")
        start = model.number(image, at, size)
        del image[start : start + length]
        for later in range(k + 1, image[2]):
            at, size = spot(make, image, later, "offset")
            put_number(image, at, size, model.number(image, at, size) - length)


def bad_image(make, image):
    """One field damaged, a byte changed, the end cut or lengthened, or a list without rules, often with a second fault in its entry
    or in another one."""
    image = bytearray(image)
    lists = image[2]
    word = model.WORD.get(image[0], 16)
    rule = 2 * word + 2
    k = make.random.randrange(lists)
    fault = make.random.randrange(14)
    if fault < 10 and make.chance(17):
        no_rules(make, image, k, rule)
        if make.chance(50):
            other = make.pick(k, make.random.randrange(lists))
            bad_entry(make, image, other, rule, make.pick("offset", "id", "id" if other == k else "count"))
    elif fault == 0:
        image[0] = make.pick(0, 1, 2, 3, 255)
    elif fault == 1:
        image[1] = make.pick(0, 64, 65, 128, 129, 255, max(1, image[1] - 1), (image[1] + 1) % 256)
    elif fault == 2:
        image[2] = make.pick(0, 17, 255, lists - 1, lists + 1)
    elif fault == 3:
        image[3] = make.pick(1, 255)
    elif fault in (4, 5, 6):
        bad_entry(make, image, k, rule, ("offset", "count", "id")[fault - 4])
    elif fault == 7:
        del image[make.random.randrange(len(image)) :]
    elif fault == 8:
        image += bytes(make.pick(1, 1, 2, 18, 34, rule - 1, rule, rule + 1))
    elif fault == 9:
        del image[-1:]
    elif fault == 10 and make.chance(5):
        image += bytes(make.pick(65536, 65537, 65540) - len(image))
    elif len(image) > model.HEAD + model.ENTRY * lists:
        at = make.random.randrange(model.HEAD + model.ENTRY * lists, len(image))
        image[at] = make.pick(image[at] ^ (1 << make.random.randrange(8)), 255, 0)
        if fault == 13:
            start = model.HEAD + model.ENTRY * lists
            put_number(image, start + (at - start) // rule * rule + 2 * word, 2, 65535)
    return bytes(image)


def image(make):
    format, width, counts, ids, rules = good_image(make)
    image = model.image_bytes(format, width, counts, ids, words_and_decisions(*rules))
    for _ in range(make.pick(0, 0, 1, 1, 1, 2)):
        if len(image) >= model.HEAD and 1 <= image[2] <= model.MOST_LISTS:
            image = bad_image(make, image)
    which = make.random.randrange(len(ids))
    id = ids[which] if make.chance(80) else make.pick(0, 65535, ids[which] + 1, ids[which] - 1) % 65536
    call = make.pick("check", "check", "format", "width", "count", "entry", "body", "body_refusal", "read", "read", "read")
    text = "%s image %s" % (call, numbers_said(image))
    if call == "entry":
        return text + " number %d" % make.pick(0, 1, 1, 2, len(ids), len(ids) + 1, 65535)
    if call in ("body", "body_refusal"):
        return text + " id %d" % id
    if call == "read":
        return text + " id %d into %s" % (id, make.list_marks(counts[which]))
    return text


def into_image(make, call, lists_of):
    """An image with such lists and room for another one, and now and then a fault in the image."""
    width = make.width()
    image = image_of(format_for(make, width), width, lists_of(make, width))
    if make.chance(25):
        image = bad_image(make, image)
    room = min(make.room(len(image)), MOST_BYTES)
    return "%s image %s into [%d times %d]" % (call, numbers_said(image), room, make.pick(0, 7, 238))


def weave_image(make):
    """Lists that weaving makes shorter."""
    return into_image(make, "weave_image", some_lists)


def prunable_lists(make, width):
    """Lists by their ids; of most of them some rules do nothing."""
    lists = some_lists(make, width)
    return {id: list if make.chance(30) else make.prunable_list(width, make.some(8, 1)) for id, list in lists.items()}


def prune_image(make):
    return into_image(make, "prune_image", prunable_lists)


def tally(make):
    width = make.width()
    lists = some_lists(make, width)
    image = image_of(format_for(make, width), width, lists)
    if make.chance(15):
        image = bad_image(make, image)
    return "tally image %s id %d" % (numbers_said(image), asked_id(make, lists))


def no_rules_written(counts, k, rules):
    """The counts and the rules with no rule left in list k: its rules go to the list before it, or of the first one to the last; those
    of a single list are gone. The counts still add up."""
    if len(counts) == 1:
        return [0], slices_of([])
    counts = counts[:]
    counts[k - 1], counts[k] = (counts[k - 1] + counts[k]) % 65536, 0
    return counts, rules


def bad_writing(make, format, width, counts, ids, rules):
    counts, ids = counts[:], ids[:]
    fault = make.random.randrange(9)
    k = make.random.randrange(min(len(ids), len(counts)))
    if fault == 0:
        width = make.bad_width(width)
    elif fault == 1:
        make.pick(counts, ids).append(make.pick(0, 1))
    elif fault == 2:
        counts[k] = make.pick(0, (counts[k] + make.pick(1, 65535, 1025)) % 65536)
    elif fault == 3:
        ids[k] = make.pick(0, ids[k - 1], 65535)
    elif fault == 4:
        counts, ids = counts + [1] * 17, ids + list(range(65519 - 17, 65519))
        rules = [slice + [0] * length for slice, length in zip(rules, (34, 34, 17))]
    elif fault == 5:
        counts, ids, rules = [], [], ([], [], [])
    elif fault == 6:
        format = make.pick(0, 1, 3, 18, 255)
    elif fault == 7:
        counts, rules = no_rules_written(counts, k, rules)
        if make.chance(30):
            ids[k] = make.pick(0, ids[k - 1], 65535)
    else:
        rules = make.bad_list(width if 1 <= width <= WIDEST else WIDEST, rules)
    return format, width, counts, ids, rules


def large_writing(make):
    """Near and past the largest image, and lists that are too long."""
    width = make.width()
    format = format_for(make, width)
    counts = make.pick([1024, 1025], [1000] * 4)
    if make.chance(70):
        full = [1024, 1024, 1024, 566] if format == 1 else [1024, 902]
        counts = full[:-1] + [full[-1] + make.pick(0, 1, 2)]
    return format, width, counts, list(range(1, len(counts) + 1)), slices_of([(0, 0, 0)] * sum(counts))


def write(make):
    parts = large_writing(make) if make.chance(1) and make.chance(50) else good_image(make)
    for _ in range(make.pick(0, 0, 1, 2)):
        if parts[2] and parts[3]:
            parts = bad_writing(make, *parts)
    format, width, counts, ids, rules = parts
    rule = model.rule_size(format if format in model.WORD else 2)
    length = min(make.room(model.HEAD + model.ENTRY * len(ids) + rule * len(rules[2])), MOST_BYTES)
    text = "write format %d width %d list %s" % (format, width, list_said(width, *rules))
    return "%s ids %s counts %s into [%d times %d]" % (text, numbers_said(ids), numbers_said(counts), length, make.pick(0, 7, 238))


def some_lists(make, width):
    """Lists by their ids; seldom a long one among them."""
    ids = make.random.sample(range(make.pick(20, 65536)), make.pick(1, 1, 2, 3, 3, 16))
    list_of, most = (make.prefix_list, 30) if make.chance(15) else (make.list_of, 10)
    lists = {id: list_of(width, make.some(most, 1)) for id in ids}
    if make.chance(1):
        lists[ids[0]] = make.prefix_list(width, make.random.randint(100, model.LONGEST))
    return lists


def most_lists(make, format):
    """The lists of an image of 65,536 bytes, which is the largest; all of their rules are stars."""
    counts = [1024, 1024, 1024] if format == 1 else [1024, 1, 1]
    left = (3638 if format == 1 else 1926) - sum(counts)
    counts += [2, make.random.randint(1, left - 3)]
    counts.append(left - sum(counts[3:]))
    return {make.random.randrange(10) + 10 * k: slices_of([(0, 0, k)] * count) for k, count in enumerate(counts)}


def changed_list(make, width, list):
    """A list that differs little from this one, or this one, where no rule would be left."""
    changed = like(make, width, list)
    return changed if changed[2] else list


def changed_lists(make, width, lists):
    """These lists with some of them changed a little, and one gone, put in, or under another id."""
    lists = {id: changed_list(make, width, list) if make.chance(80) else list for id, list in lists.items()}
    change, id = make.random.randrange(8), make.random.choice(sorted(lists))
    if change == 0 and len(lists) > 1:
        del lists[id]
    elif change == 1 and len(lists) < model.MOST_LISTS:
        lists[make.random.randrange(65536)] = make.list_of(width, make.some(6, 1))
    elif change == 2:
        lists[make.random.randrange(65536)] = lists.pop(id)
    return lists


def image_of(format, width, lists):
    ids = sorted(lists)
    rules = [rule for id in ids for rule in words_and_decisions(*lists[id])]
    return model.image_bytes(format, width, [len(lists[id][2]) for id in ids], ids, rules)


def two_images(make):
    """A width, and two images' lists and bytes: most often of that width and without a fault, and each of any format."""
    width = make.width()
    formats = [format_for(make, width), format_for(make, width)]
    old, new = some_lists(make, width), some_lists(make, width)
    if make.chance(70):
        new = changed_lists(make, width, old)
    elif make.chance(1):
        old = most_lists(make, formats[0])
    images = [image_of(formats[0], width, old), image_of(formats[1], width, new)]
    if make.chance(8):
        other = make.width()
        images[1] = image_of(format_for(make, other), other, {id: some_lists(make, other).popitem()[1] for id in new})
    for side in range(2):
        if make.chance(12):
            images[side] = bad_image(make, images[side])
    if make.chance(30):
        old, new, images = new, old, images[::-1]
    return width, old, new, images


def asked_id(make, lists):
    """An id that is there, or now and then one that most often is not."""
    id = make.random.choice(sorted(lists))
    return id if make.chance(88) else make.pick(0, 65535, id + 1, id - 1) % 65536


def image_sides(make, by_ids):
    """Two images as text, each with the id of a list, where lists are asked for by ids, and a default; and a start."""
    width, old, new, images = two_images(make)
    old_id, new_id = min(old), min(new)
    if by_ids:
        old_id = asked_id(make, old)
        new_id = old_id if make.chance(70 if old_id in new else 10) else asked_id(make, new)
    no_list = slices_of([])
    old_list, new_list = old.get(old_id, no_list), new.get(new_id, no_list)
    start = make.pick(0, 0, make.any_header(width, old_list), make.any_header(width, new_list))
    old_default, new_default = make.any_defaults(old_list, new_list)
    old_side = numbers_said(images[0]), old_id, default_text(old_default)
    new_side = numbers_said(images[1]), new_id, default_text(new_default)
    return old_side, new_side, start


def compare_lists(make):
    (old, old_id, _), (new, new_id, _), start = image_sides(make, True)
    return "compare_lists old %s id %d new %s id %d start %d into %s" % (old, old_id, new, new_id, start, make.run_marks())


def compare_first(make):
    (old, _, _), (new, _, _), start = image_sides(make, False)
    return "compare_first old %s new %s start %d into %s" % (old, new, start, make.run_marks())


def compare_list_outcomes(make):
    old, new, start = image_sides(make, True)
    text = "compare_list_outcomes old %s id %d default %s new %s id %d default %s" % (old + new)
    return "%s start %d into %s" % (text, start, make.run_marks())


def compare_first_outcomes(make):
    (old, _, old_default), (new, _, new_default), start = image_sides(make, False)
    text = "compare_first_outcomes old %s default %s new %s default %s" % (old, old_default, new, new_default)
    return "%s start %d into %s" % (text, start, make.run_marks())


def range_prefixes(make):
    """Now and then a case in which several things are wrong."""
    percent = make.pick(4, 4, 4, 4, 50)
    bits, low, high, need = make.any_range(percent)
    room = make.room(need)
    care, value = make.numbers(room, room)
    if percent > 4 and make.chance(percent):
        care, value = make.pick((0, 0), (0, 1), (need, 0), (need - 1, need), (need, need - 1), (need - 1, need - 1))
    return "range_prefixes bits %d low %d high %d care %s value %s" % (bits, low, high, marks(40000, care), marks(50000, value))


def range_prefix_count(make):
    return "range_prefix_count bits %d low %d high %d" % make.any_range(10)[:3]


def expand(make):
    text, need = make.any_five_field_rules(30)
    return "expand rules %s into %s" % (text, make.list_marks(need))


def expansion_count(make):
    return "expansion_count rules %s" % make.any_five_field_rules(40)[0]


def header(make):
    """The numbers of five fields: any, at the ends of a field, or now and then outside it."""
    numbers = [make.pick(make.random.getrandbits(bits), make.number_in(bits)) for bits in model.FIVE_FIELDS]
    if make.chance(30):
        for k in make.random.sample((2, 3, 4), make.pick(1, 1, 2, 3)):
            end = 2 ** model.FIVE_FIELDS[k]
            numbers[k] = make.pick(end, end, end + 1, end + numbers[k], 65536 + numbers[k], 2**31, 2**32 - 1)
    return "header numbers %s" % numbers_said(numbers)


KINDS = {
    "rules": {
        "check_list": check_list,
        "check_list_as": check_list_as,
        "lookup": lookup,
        "rule_at": rule_at,
        "check_rule": check_rule,
        "pair": pair,
        "bare_pair": bare_pair,
        "put_rule": put_rule,
    },
    "swaps": {"prefix_swap": prefix_swap, "lookup_swapped": lookup_swapped, "swap": swaps},
    "weaving": {"runs": runs, "weave": weave},
    "compare": {"comparison": compare, "compare_outcomes": compare_outcomes},
    "pruning": {"needed_at": needed_at, "prune": prune, "prune_image": prune_image},
    "image": {"images": image, "write": write},
    "woven": {"weave_image": weave_image, "tally": tally},
    "lists": {
        "compare_lists": compare_lists,
        "compare_first": compare_first,
        "compare_list_outcomes": compare_list_outcomes,
        "compare_first_outcomes": compare_first_outcomes,
    },
    "ranges": {"range_prefixes": range_prefixes, "range_prefix_count": range_prefix_count},
    "five_fields": {"expand": expand, "expansion_count": expansion_count, "header": header},
}


def kinds_named(names):
    chosen = []
    for library, kinds in KINDS.items():
        for name, kind in kinds.items():
            if not names or library in names or name in names:
                chosen.append(kind)
    return chosen


def main(seed, count, names):
    small = "--small" in names
    most = 1000 if small else 100000
    make, kinds = Maker(seed, small), kinds_named([name for name in names if name != "--small"])
    print("# Random cases: seed %d." % seed)
    for _ in range(count):
        kind = make.random.choice(kinds)
        case = kind(make)
        answer = answers.answer(case)
        while len(case) + len(answer) >= most:
            case = kind(make)
            answer = answers.answer(case)
        print("%s\n= %s" % (case, answer))


if __name__ == "__main__":
    main(int(sys.argv[1]), int(sys.argv[2]), sys.argv[3:])
