"""five_fields.py: writes cases on lists of five-field rules, with the model's answers, to standard output. That is the file
crates/cases/data/five_field_lists.txt.

Before a case is written, its answer is tried in ways that are not the model's: entries are made of numbers, without any pattern, and what
a list decides is asked of the five numbers themselves.
"""
import random

import answers
import cases
import model

SEED = 6
MOST = 120  # entries of a list that is made by a random source
MARK = (7, 8, 9)  # what the results hold before a call; no pattern says it
SIZE = sum(model.FIVE_FIELDS)

ANY = (0, 65535)  # ports
TCP, UDP, ICMP, ALL = 6, 17, 1, model.ANY_PROTOCOL  # protocols
PERMIT, DENY = 1, 2

REMARK = """\
# Lists of five-field rules in the manner of packet filters: each is expanded, headers are looked up in its expansion, and that is woven
# and compared with what it was. The file is what `python3 reference/five_fields.py` writes. Before it writes a case it checks the answer in
# ways that are not the model's: the entries are those that numbers alone give, source ports outside and destination ports inside; for
# each header that is looked up the decision is that of the first rule which its five numbers satisfy, exactly one entry of each rule that
# they satisfy matches, and none of any other; and the woven list decides the same.
"""


# Entries without patterns. -----------------------------------------------------------------------------------------------


def joined(*numbers):
    """Five numbers as one: each field's number after those left of it."""
    header = 0
    for size, number in zip(model.FIVE_FIELDS, numbers):
        header = header * 2**size + number
    return header


def blocks(low, high):
    """The ports from low to high, rising, in blocks: the first and the length of each. A block starts at a multiple of its length, and
    is as long as it can be without passing high."""
    found = []
    while low <= high:
        length = 1
        while low % (2 * length) == 0 and low + 2 * length - 1 <= high:
            length *= 2
        found.append((low, length))
        low += length
    return found


def entries_of(rule):
    """The words and the decision of each entry of a rule."""
    protocol_care, protocol = (0, 0) if rule.protocol == ALL else (255, rule.protocol)
    addresses_care = 2**32 - 2 ** (32 - rule.source_length), 2**32 - 2 ** (32 - rule.destination_length)
    for source, source_ports in blocks(rule.source_low, rule.source_high):
        for destination, destination_ports in blocks(rule.destination_low, rule.destination_high):
            care = joined(*addresses_care, 2**16 - source_ports, 2**16 - destination_ports, protocol_care)
            value = joined(rule.source, rule.destination, source, destination, protocol)
            yield care, value, rule.decision


# Lists. ------------------------------------------------------------------------------------------------------------------


def network(text):
    """`10.0.0.0/8` as its address and length; an empty text is every address."""
    address, length = text.split("/") if text else ("0.0.0.0", "0")
    return joined_bytes(*(int(part) for part in address.split("."))), int(length)


def joined_bytes(a, b, c, d):
    return a << 24 | b << 16 | c << 8 | d


def rule(source, destination, source_ports, destination_ports, protocol, decision):
    ports = source_ports + destination_ports
    return model.FiveFieldRule(*network(source), *network(destination), *ports, protocol, decision)


def first_bits(address, length):
    """The address without the bits behind its first ones."""
    return address >> 32 - length << 32 - length


def one(port):
    return port, port


EVERYTHING = rule("", "", ANY, ANY, ALL, DENY)


def written_lists():
    """Each with what it is about."""
    yield "A web server and a name server, and all else is denied.", [
        rule("", "192.0.2.10/32", (1024, 65535), one(80), TCP, PERMIT),
        rule("", "192.0.2.10/32", (1024, 65535), one(443), TCP, PERMIT),
        rule("", "192.0.2.53/32", ANY, one(53), UDP, PERMIT),
        EVERYTHING,
    ]
    yield "A rule that the one before it hides in part, with one decision and with another.", [
        rule("10.1.0.0/16", "", ANY, one(25), TCP, DENY),
        rule("10.0.0.0/8", "", ANY, one(25), TCP, PERMIT),
        rule("10.0.0.0/8", "", ANY, (20, 25), TCP, PERMIT),
        rule("10.1.2.0/24", "", ANY, (0, 1023), TCP, 3),
    ]
    yield "The last and the first numbers of every field.", [
        rule("255.255.255.255/32", "0.0.0.0/32", one(65535), one(0), 255, PERMIT),
        rule("0.0.0.0/32", "255.255.255.255/32", one(0), one(65535), 0, DENY),
        rule("128.0.0.0/1", "0.0.0.0/1", (32768, 65535), (0, 32767), 0, 3),
        rule("255.255.255.254/31", "0.0.0.0/31", (1, 65535), (65533, 65534), ALL, 4),
    ]
    yield "File sharing and a mail server behind a small network; some pairs of ranges.", [
        rule("172.16.0.0/12", "172.16.5.0/24", (137, 139), (137, 139), UDP, PERMIT),
        rule("172.16.0.0/12", "172.16.5.0/24", (1024, 65535), (137, 139), TCP, PERMIT),
        rule("", "172.16.5.25/32", ANY, one(25), TCP, PERMIT),
        rule("", "172.16.0.0/12", (6881, 6889), (6881, 6889), TCP, DENY),
        rule("", "172.16.0.0/12", (6881, 6889), ANY, UDP, DENY),
    ]
    yield "Two entries of neighbouring networks that weaving makes one, and a rule that is there twice.", [
        rule("198.51.100.0/25", "", ANY, one(22), TCP, PERMIT),
        rule("198.51.100.128/25", "", ANY, one(22), TCP, PERMIT),
        rule("", "203.0.113.0/24", ANY, (20, 21), TCP, DENY),
        rule("", "203.0.113.0/24", ANY, (20, 21), TCP, DENY),
        rule("", "", ANY, ANY, ICMP, PERMIT),
    ]
    yield "Every port but the first and the last one, which is 30 prefixes, on one side and then on the other.", [
        rule("10.0.0.0/8", "", (1, 65534), ANY, TCP, PERMIT),
        rule("", "10.0.0.0/8", ANY, (1, 65534), TCP, DENY),
        rule("", "", one(0), one(65535), ALL, 3),
    ]
    yield "Addresses at each length from 0 to 32, the longest first.", [
        rule("", "85.85.85.85/32", ANY, ANY, ALL, 0),
        *(model.FiveFieldRule(0, 0, first_bits(0x55555555, length), length, *ANY, *ANY, ALL, length) for length in range(31, 0, -1)),
        rule("", "", ANY, ANY, ALL, 65534),
    ]
    yield "Ranges on both sides, up to 30 prefixes with 6.", [
        rule("10.0.0.0/8", "192.168.0.0/16", (1, 65534), (1024, 65535), TCP, PERMIT),
        rule("10.0.0.0/8", "192.168.4.0/22", (137, 139), (1, 65534), UDP, DENY),
        rule("", "192.168.0.0/16", (6881, 6889), (1, 65534), TCP, DENY),
        rule("10.2.0.0/16", "", (1024, 65535), (1024, 65535), ALL, PERMIT),
        rule("", "", (0, 1023), (20, 21), TCP, 3),
        EVERYTHING,
    ]


class Maker(cases.Maker):
    """Lists by a random source: of the kinds that the papers have."""

    def near_network(self, lengths):
        length = self.random.choice(lengths)
        address = self.pick(0x0A000000, 0xC0A80000) + self.random.getrandbits(self.pick(4, 10, 16))
        return first_bits(address, length), length

    def access(self, decision):
        """An access list: networks and hosts, a port of the destination."""
        ports = self.pick(one(80), one(443), one(22), one(53), (0, 1023), (1024, 65535), (137, 139), ANY)
        addresses = self.near_network((0, 8, 16, 16, 24)) + self.near_network((16, 24, 24, 32, 32))
        return model.FiveFieldRule(*addresses, *ANY, *ports, self.pick(TCP, TCP, UDP, ICMP, ALL), decision)

    def firewall(self, decision):
        """A firewall: any address often, and ranges of ports on both sides."""
        ports = self.pick((1024, 65535), ANY, ANY, one(53)) + self.pick((1024, 65535), (6881, 6889), (20, 21), one(123), one(80), ANY)
        addresses = self.near_network((0, 0, 0, 16, 24)) + self.near_network((0, 0, 24, 32))
        return model.FiveFieldRule(*addresses, *ports, self.pick(TCP, UDP, 0, 255, ALL), decision)

    def mixed(self, decision):
        """Any ranges and lengths."""
        ports = self.pick(ANY, one(self.random.getrandbits(16)), tuple(self.range_in(16)))
        addresses = self.near_network(range(33)) + self.near_network(range(33))
        return model.FiveFieldRule(*addresses, *self.pick(ANY, (0, 1023), one(0)), *ports, self.random.randrange(257), decision)

    def list_of(self, kind, least, most):
        """Rules whose entries are so many in all; the last rule may take everything."""
        while True:
            rules = [kind(self.pick(PERMIT, PERMIT, DENY, 3)) for _ in range(self.random.randint(3, 12))]
            if self.chance(60):
                rules.append(EVERYTHING)
            if least <= sum(len(list(entries_of(rule))) for rule in rules) <= most:
                return rules


def lists():
    make = Maker(SEED)
    yield from written_lists()
    for about, kind in ("An access list.", make.access), ("A firewall.", make.firewall), ("Any ranges.", make.mixed):
        for _ in range(3):
            yield about, make.list_of(kind, 6, MOST)


# Five numbers. -----------------------------------------------------------------------------------------------------------


def ranges_of(rule):
    """The first and the last number of each field."""
    return (
        (rule.source, rule.source + 2 ** (32 - rule.source_length) - 1),
        (rule.destination, rule.destination + 2 ** (32 - rule.destination_length) - 1),
        (rule.source_low, rule.source_high),
        (rule.destination_low, rule.destination_high),
        (0, 255) if rule.protocol == ALL else (rule.protocol, rule.protocol),
    )


def near(make, rule):
    """Numbers that satisfy a rule, and such in which one field has another number: the ends of its range and those beside them, and
    the ends of the field."""
    ranges = ranges_of(rule)
    yield tuple(first for first, _ in ranges)
    yield tuple(last for _, last in ranges)
    for k, (size, (first, last)) in enumerate(zip(model.FIVE_FIELDS, ranges)):
        for number in sorted({first - 1, first, last, last + 1, 0, 2**size - 1}):
            if 0 <= number < 2**size:
                numbers = [make.random.randint(*range) for range in ranges]
                yield tuple(numbers[:k] + [number] + numbers[k + 1 :])


def some_numbers(make, rules):
    """Numbers near each rule, once each, and some that are any."""
    found = dict.fromkeys(numbers for rule in rules for numbers in near(make, rule))
    for _ in range(20):
        found[tuple(make.random.getrandbits(size) for size in model.FIVE_FIELDS)] = None
    return list(found)


# Cases. ------------------------------------------------------------------------------------------------------------------


def ten_numbers(rule):
    ports = rule.source_low, rule.source_high, rule.destination_low, rule.destination_high
    addresses = rule.source, rule.source_length, rule.destination, rule.destination_length
    return addresses + ports + (rule.protocol, rule.decision)


def try_expansion(rules, entries):
    """What the model puts into the results is what numbers alone give, and the places after it stay."""
    slices = [list(slice) for slice in zip(*(ten_numbers(rule) for rule in rules))]
    results = model.slices_of([MARK] * (len(entries) + 2))
    assert model.expand(slices, *results) == model.expansion_count(*slices) == len(entries)
    assert model.words_and_decisions(*results) == entries + [MARK] * 2


def try_numbers(rules, parts, woven, numbers):
    """What the rules say to five numbers, against the entries of each rule that match their header, and against the woven list."""
    header = joined(*numbers)
    assert model.header(*numbers) == header < 2**SIZE
    for rule, part in zip(rules, parts):
        assert sum(1 for care, value, _ in part if header & care == value) == (1 if model.satisfies(rule, numbers) else 0)
    for list in sum(parts, []), woven:
        hits = [decision for care, value, decision in list if header & care == value]
        assert (hits[0] if hits else None) == model.decision_for(rules, numbers)


def said(rules, parts, numbers):
    """The answer to a lookup of these numbers in the expansion: the decision of the first rule that they satisfy, and which entry it is."""
    first = model.first_satisfied(rules, numbers)
    if first is None:
        return "none"
    header = joined(*numbers)
    (place,) = [k for k, (care, value, _) in enumerate(parts[first - 1], 1) if header & care == value]
    return "%d rule %d" % (rules[first - 1].decision, sum(len(part) for part in parts[: first - 1]) + place)


def woven_of(entries):
    """What weaving leaves of a list."""
    results = model.slices_of([(0, 0, 0)] * len(entries))
    kept, dropped, merged = model.weave(SIZE, *model.slices_of(entries), *results)
    assert kept + dropped + merged == len(entries)
    return model.words_and_decisions(*results)[:kept]


def put(case, answer=None):
    """Writes a case, whose answer is the one that is known, where one is."""
    found = answers.answer(case)
    assert answer in (None, found)
    assert len(case) + len(found) < 131000
    print("%s\n= %s" % (case, found))


def put_list(make, about, rules):
    parts = [list(entries_of(rule)) for rule in rules]
    entries = sum(parts, [])
    woven = woven_of(entries)
    asked = some_numbers(make, rules)
    try_expansion(rules, entries)
    for numbers in asked:
        try_numbers(rules, parts, woven, numbers)
    text = "[%s]" % ", ".join(" ".join(str(number) for number in ten_numbers(rule)) for rule in rules)
    list_text = answers.rules_said(SIZE, entries)
    print("\n# -- %s %d rules, %d entries, of which weaving leaves %d." % (about, len(rules), len(entries), len(woven)))
    put("expand rules %s into [%d times %d/%d %d]" % ((text, len(entries) + 2) + MARK))
    put("expansion_count rules %s" % text, str(len(entries)))
    headers = " ".join(str(joined(*numbers)) for numbers in asked)
    put("lookup width %d list %s headers [%s]" % (SIZE, list_text, headers), ", ".join(said(rules, parts, numbers) for numbers in asked))
    for numbers in make.random.sample(asked, 6):
        put("header numbers [%s]" % " ".join(str(number) for number in numbers), str(joined(*numbers)))
    put("weave width %d list %s into [%d times 0/0 0]" % (SIZE, list_text, len(entries)))
    sides = list_text, answers.rules_said(SIZE, woven)
    put("compare width %d old %s new %s start 0 into [1 2 3 4]" % ((SIZE,) + sides), "0 finished into [1 2 3 4]")


def main():
    print(REMARK, end="")
    make = Maker(SEED)
    for about, rules in lists():
        put_list(make, about, rules)


if __name__ == "__main__":
    main()
