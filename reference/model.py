"""What every call has to answer, in plain Python.

This file is an independent reading of the rules that the library is built to. It shares nothing with the library: no
words with masks, but patterns written out as text, place 1 first, with a character of "01*" for each place. A reader can
hold it against the rules line by line. It is slow, and that is no fault here.

Numbers handed in are any numbers that fit the call's types; a slice is a Python list (bytes for an image). A word or a header
is one number. In a slice it is two, each below HALF, the low half first: so the care slice and the value slice of a list have
two numbers to a rule, and the decisions have one. A call that refuses raises Refused and has then changed no list that it was
lent.
"""
import heapq
import itertools

WIDEST = 128  # places of a pattern
HALF = 2**64  # a slice of words has numbers below this, two to a word
LONGEST = 1024  # rules of a list
NO_MATCH = 65535  # "no match" in slices of numbers; no rule may decide it
LARGEST_IMAGE = 65536  # bytes
MOST_LISTS = 16  # lists of an image
HEAD, ENTRY = 4, 8  # bytes of an image's head, and of an entry of its contents
WORD = {1: 8, 2: 16}  # the formats of images, and the bytes of a word in each
LARGEST_FIELD = 16  # bits of a field that has ranges
ADDRESS, PORT, PROTOCOL = 32, 16, 8  # bits of an address, of a port and of a protocol in a header of five fields
ANY_PROTOCOL = 256  # the protocol of a five-field rule that takes any


class Refused(Exception):
    """A refusal: its number, and its place (list, rule), both 0 where the fault has no place."""

    def __init__(self, number, list=0, rule=0):
        self.number, self.list, self.rule = number, list, rule


# Slices of words. -------------------------------------------------------------------------------------------------------


def words_of(slice):
    """The words of a slice; a number that is left over at its end is no word."""
    return [low + HALF * high for low, high in zip(slice[0::2], slice[1::2])]


def halves_of(words):
    """The words as they stand in a slice."""
    return [half for word in words for half in (word % HALF, word // HALF)]


def put_words(slice, k, words):
    """Puts words into the slice from its word k (from 0) on."""
    slice[2 * k : 2 * (k + len(words))] = halves_of(words)


def belong_together(care, value, decision):
    """Two numbers of the care slice and of the value slice for each decision."""
    return len(care) == len(value) == 2 * len(decision)


def words_and_decisions(care, value, decision):
    """The rules of three slices: a care word, a value word and a decision each."""
    return list(zip(words_of(care), words_of(value), decision))


def slices_of(rules):
    """Such rules as three slices."""
    return halves_of(rule[0] for rule in rules), halves_of(rule[1] for rule in rules), [rule[2] for rule in rules]


# Patterns. ------------------------------------------------------------------------------------------------------------


def bits(width, word):
    """The word as text, place 1 first. Place 1 has the highest weight of the width."""
    return format(word, "0%db" % width)


def pattern(width, care, value):
    """The pattern as text: the value's digit where the care word has a 1, a star where it has a 0."""
    return "".join(v if c == "1" else "*" for c, v in zip(bits(width, care), bits(width, value)))


def care_word(text):
    return int("".join("0" if x == "*" else "1" for x in text), 2)


def value_word(text):
    return int("".join("1" if x == "1" else "0" for x in text), 2)


def matches(text, header):
    """A header (as text) matches where it has the pattern's digit at every place that is no star."""
    return all(x == "*" or x == h for x, h in zip(text, header))


def covers_text(a, b):
    """Every header that matches b matches a: where a cares, b cares and asks for the same digit."""
    return all(x == "*" or x == y for x, y in zip(a, b))


def meets_text(a, b):
    """Some header matches both: no place where both care has different digits."""
    return all(x == y or x == "*" or y == "*" for x, y in zip(a, b))


def crosses_text(a, b):
    """Each has a star at some place where the other cares."""
    a_star = any(x == "*" and y != "*" for x, y in zip(a, b))
    b_star = any(y == "*" and x != "*" for x, y in zip(a, b))
    return a_star and b_star


def distance_text(a, b):
    """The places where both care and ask for different digits."""
    return sum(1 for x, y in zip(a, b) if x != "*" and y != "*" and x != y)


def rules_of(width, care, value, decision):
    """The list as pairs of a pattern and a decision."""
    return [(pattern(width, c, v), d) for c, v, d in words_and_decisions(care, value, decision)]


def hit(rules, header):
    """The number, from 1, of the first rule that matches the header (as text), and its decision; or None."""
    for number, (text, decision) in enumerate(rules, 1):
        if matches(text, header):
            return number, decision
    return None


def outcome(rules, miss, header):
    """The decision of the first rule that matches the header (as text), or what a miss counts as."""
    found = hit(rules, header)
    return miss if found is None else found[1]


def answer(rules, header):
    """The decision of the first rule that matches the header (as text), or NO_MATCH."""
    return outcome(rules, NO_MATCH, header)


# Checks, each with its refusal number. ----------------------------------------------------------------------------------


def check_width(width):
    if not 1 <= width <= WIDEST:
        raise Refused(1)


def check_bare_rule(width, list, number, care, value, decision):
    """4 before 5. A rule's bits lie within the width, and its value has none under a star."""
    if care >= 2**width or value >= 2**width or any(v == "1" and c == "0" for c, v in zip(bits(width, care), bits(width, value))):
        raise Refused(4, list, number)
    if decision == NO_MATCH:
        raise Refused(5, list, number)


def check_bare_list(width, list, care, value, decision):
    """2, 3, then the rules from the top."""
    if not belong_together(care, value, decision):
        raise Refused(2)
    if len(decision) > LONGEST:
        raise Refused(3, list, 0)
    for k, rule in enumerate(words_and_decisions(care, value, decision)):
        check_bare_rule(width, list, k + 1, *rule)


def check_default(list, default):
    """As a rule's decision, the default of a side is not NO_MATCH; its place has no rule. None is no default."""
    if default == NO_MATCH:
        raise Refused(5, list, 0)


def check_header(width, header):
    if header >= 2**width:
        raise Refused(6)


# Calls on a list and on rules. ------------------------------------------------------------------------------------------


def check_rule(width, list, number, rule):
    check_width(width)
    check_bare_rule(width, list, number, *rule)


def check_list(width, care, value, decision, list=1):
    check_width(width)
    check_bare_list(width, list, care, value, decision)


def lookup(width, care, value, decision, header):
    """The number of the rule that is hit and its decision, or None."""
    check_list(width, care, value, decision)
    check_header(width, header)
    return hit(rules_of(width, care, value, decision), bits(width, header))


def pair(width, a, b):
    """The patterns of two lone rules. The second one's faults are named as rule 1 of list 2."""
    check_width(width)
    check_bare_rule(width, 1, 1, *a)
    check_bare_rule(width, 2, 1, *b)
    return pattern(width, a[0], a[1]), pattern(width, b[0], b[1])


def covers(width, a, b):
    return covers_text(*pair(width, a, b))


def crosses(width, a, b):
    return crosses_text(*pair(width, a, b))


def distance(width, a, b):
    return distance_text(*pair(width, a, b))


def rule_at(care, value, decision, k):
    """The rule at position k (from 0); zeros where one of the slices has no such position."""
    rules = words_and_decisions(care, value, decision)
    return rules[k] if k < len(rules) else (0, 0, 0)


def put_rule(care, value, decision, k, rule):
    """The rule is put at position k; nothing happens where one of the slices has no such position."""
    if k < len(words_and_decisions(care, value, decision)):
        put_words(care, k, [rule[0]])
        put_words(value, k, [rule[1]])
        decision[k] = rule[2]


# Bit-swaps. A swap is its 128 places and its width. ---------------------------------------------------------------------


class Swap:
    def __init__(self, places, width):
        self.places, self.width = places, width

    def order(self):
        """The entries that count: entry k names the old place that becomes place k."""
        return self.places[: self.width]


def swap_of(order):
    return Swap(list(order) + [0] * (WIDEST - len(order)), len(order))


def check_swap(swap):
    if sorted(swap.order()) != list(range(1, swap.width + 1)) or any(x != 0 for x in swap.places[swap.width :]):
        raise Refused(9)


def moved(order, text):
    return "".join(text[old - 1] for old in order)


def apply_rule(swap, rule):
    check_width(swap.width)
    check_bare_rule(swap.width, 1, 1, *rule)
    check_swap(swap)
    text = moved(swap.order(), pattern(swap.width, rule[0], rule[1]))
    return care_word(text), value_word(text), rule[2]


def apply(swap, header):
    """From wire order to swapped order."""
    check_width(swap.width)
    check_header(swap.width, header)
    check_swap(swap)
    return int(moved(swap.order(), bits(swap.width, header)), 2)


def inverse(order):
    return [order.index(old) + 1 for old in range(1, len(order) + 1)]


def undo(swap, header):
    """From swapped order back to wire order."""
    check_width(swap.width)
    check_header(swap.width, header)
    check_swap(swap)
    return int(moved(inverse(swap.order()), bits(swap.width, header)), 2)


def invert(swap):
    check_width(swap.width)
    check_swap(swap)
    return swap_of(inverse(swap.order()))


def compose(first, second):
    """The swap that does the first and then the second. The first one's faults come before the second's."""
    for swap in (first, second):
        check_width(swap.width)
        check_swap(swap)
    if first.width != second.width:
        raise Refused(9)
    return swap_of([first.places[k - 1] for k in second.order()])


def prefix_swap(width, care, value, decision):
    """The swap that puts every rule's stars last: places by the number of rules with a star there, fewest first, and the
    lower place first on a tie. Where two rules cross there is none: the pair with the least second rule, then the least
    first one."""
    check_list(width, care, value, decision)
    texts = [text for text, _ in rules_of(width, care, value, decision)]
    for j in range(len(texts)):
        for i in range(j):
            if crosses_text(texts[i], texts[j]):
                raise Refused(8, i + 1, j + 1)
    starred = {place: sum(1 for text in texts if text[place - 1] == "*") for place in range(1, width + 1)}
    return swap_of(sorted(range(1, width + 1), key=lambda place: (starred[place], place)))


# Ranges of a field. A prefix is a pattern with its stars at the end; the next shorter one has one star more. ------------


def check_range(bits, low, high):
    """1 for the field, then 20 for the range."""
    if not 1 <= bits <= LARGEST_FIELD:
        raise Refused(1)
    if low > high or high >= 2**bits:
        raise Refused(20)


def first_number(prefix):
    """The least number that matches the prefix."""
    return int(prefix.replace("*", "0"), 2)


def last_number(prefix):
    """The greatest one."""
    return int(prefix.replace("*", "1"), 2)


def within(prefix, low, high):
    """Every number that matches the prefix is in the range."""
    return low <= first_number(prefix) and last_number(prefix) <= high


def prefixes_with(field, number):
    """Every prefix of a field of so many bits that the number matches, the shortest first, which is the whole field."""
    digits = bits(field, number)
    return [digits[:length] + "*" * (field - length) for length in range(field + 1)]


def with_one_star_less(prefix):
    """The two prefixes whose next shorter one this is; none where it has no star."""
    return [prefix.replace("*", digit, 1) for digit in "01" if "*" in prefix]


def prefixes_of_range(field, low, high):
    """The prefixes that lie within the range and whose next shorter one does not, rising. The whole field has no shorter one. Where
    the next shorter one does not lie within the range, it has numbers of the range and others, so low or high is one that matches it:
    only those have to be looked at."""
    whole = "*" * field
    if within(whole, low, high):
        return [whole]
    found = set()
    for shorter in prefixes_with(field, low) + prefixes_with(field, high):
        if not within(shorter, low, high):
            found.update(prefix for prefix in with_one_star_less(shorter) if within(prefix, low, high))
    return sorted(found, key=first_number)


def range_prefix_count(bits, low, high):
    """The number of prefixes that the range takes."""
    check_range(bits, low, high)
    return len(prefixes_of_range(bits, low, high))


def range_prefixes(bits, low, high, care, value):
    """The same number; the prefixes' words are put into the results, which have one number to a word, and later places stay. 1 and
    20, then 2 where the results differ in length, then 7 where they have too few places."""
    check_range(bits, low, high)
    if len(care) != len(value):
        raise Refused(2)
    prefixes = prefixes_of_range(bits, low, high)
    count = len(prefixes)
    if len(care) < count:
        raise Refused(7)
    care[:count] = [care_word(prefix) for prefix in prefixes]
    value[:count] = [value_word(prefix) for prefix in prefixes]
    return count


# Five-field rules. Ten numbers make a rule, and each has a slice of its own. ---------------------------------------------

FIVE_FIELDS = (ADDRESS, ADDRESS, PORT, PORT, PROTOCOL)  # source, destination, source port, destination port, protocol


class FiveFieldRule:
    """An address and how many of its first bits count, twice; low and high of a range of ports, twice; a protocol and a decision."""

    def __init__(self, source, source_length, destination, destination_length, *rest):
        self.source, self.source_length = source, source_length
        self.destination, self.destination_length = destination, destination_length
        self.source_low, self.source_high, self.destination_low, self.destination_high = rest[:4]
        self.protocol, self.decision = rest[4:]


def five_field_rules(slices):
    """The rules of ten slices that are equally long."""
    return [FiveFieldRule(*numbers) for numbers in zip(*slices)]


def satisfies(rule, numbers):
    """Five numbers against a rule, without any pattern: an address lies between the first and the last one of its prefix, a port
    between low and high, and the protocol is the rule's, where that does not take any."""
    source, destination, source_port, destination_port, protocol = numbers
    return (
        rule.source <= source <= rule.source + 2 ** (ADDRESS - rule.source_length) - 1
        and rule.destination <= destination <= rule.destination + 2 ** (ADDRESS - rule.destination_length) - 1
        and rule.source_low <= source_port <= rule.source_high
        and rule.destination_low <= destination_port <= rule.destination_high
        and rule.protocol in (protocol, ANY_PROTOCOL)
    )


def first_satisfied(rules, numbers):
    """The number, from 1, of the first rule that the five numbers satisfy; or None."""
    for number, rule in enumerate(rules, 1):
        if satisfies(rule, numbers):
            return number
    return None


def decision_for(rules, numbers):
    """The decision of the first rule that the five numbers satisfy, or None."""
    first = first_satisfied(rules, numbers)
    return None if first is None else rules[first - 1].decision


def is_prefix(address, length):
    """At most all bits of an address count, and those that do not are 0."""
    return length <= ADDRESS and "1" not in bits(ADDRESS, address)[length:]


def check_five_field_rule(number, rule):
    """23 for the addresses and the protocol, 20 for the ports, 5 for the decision."""
    prefixes = is_prefix(rule.source, rule.source_length) and is_prefix(rule.destination, rule.destination_length)
    if not prefixes or rule.protocol > ANY_PROTOCOL:
        raise Refused(23, 1, number)
    for low, high in (rule.source_low, rule.source_high), (rule.destination_low, rule.destination_high):
        if low > high or high >= 2**PORT:
            raise Refused(20, 1, number)
    if rule.decision == NO_MATCH:
        raise Refused(5, 1, number)


def port_prefixes(rule):
    """The prefixes of the source ports, and those of the destination ports."""
    sources = prefixes_of_range(PORT, rule.source_low, rule.source_high)
    return sources, prefixes_of_range(PORT, rule.destination_low, rule.destination_high)


def address_text(address, length):
    return bits(ADDRESS, address)[:length] + "*" * (ADDRESS - length)


def protocol_text(protocol):
    return "*" * PROTOCOL if protocol == ANY_PROTOCOL else bits(PROTOCOL, protocol)


def expansion(rule):
    """A pattern for each pair of port prefixes: with the first source prefix every destination prefix, then with the next one."""
    sources, destinations = port_prefixes(rule)
    addresses = address_text(rule.source, rule.source_length) + address_text(rule.destination, rule.destination_length)
    return [addresses + source + destination + protocol_text(rule.protocol) for source in sources for destination in destinations]


def expansion_count(*slices):
    """The number of entries of all rules' expansions. 2 where the slices are not equally long, 3 for too many rules, then the rules
    from the top; once all are good, 3 for too many entries."""
    if len(set(len(slice) for slice in slices)) != 1:
        raise Refused(2)
    rules = five_field_rules(slices)
    if len(rules) > LONGEST:
        raise Refused(3, 1, 0)
    for number, rule in enumerate(rules, 1):
        check_five_field_rule(number, rule)
    count = sum(len(sources) * len(destinations) for sources, destinations in map(port_prefixes, rules))
    if count > LONGEST:
        raise Refused(3, 1, 0)
    return count


def expand(slices, care, value, decision):
    """The same number; the entries are put into the results, rule after rule, and later places stay. 2 where the results do not belong
    together and 7 where they have too few places come last."""
    count = expansion_count(*slices)
    if not belong_together(care, value, decision):
        raise Refused(2)
    if len(decision) < count:
        raise Refused(7)
    entries = [(text, rule.decision) for rule in five_field_rules(slices) for text in expansion(rule)]
    put_words(care, 0, [care_word(text) for text, _ in entries])
    put_words(value, 0, [value_word(text) for text, _ in entries])
    decision[:count] = [decision for _, decision in entries]
    return count


def header(*numbers):
    """The header of five numbers, which stand in it from left to right; 6 where one of them is outside its field."""
    if any(number >= 2**size for size, number in zip(FIVE_FIELDS, numbers)):
        raise Refused(6)
    return int("".join(bits(size, number) for size, number in zip(FIVE_FIELDS, numbers)), 2)


# Runs and weaving. ------------------------------------------------------------------------------------------------------


def cut(rules):
    """From the top, a run takes rules until the next one would cross one that is in it."""
    runs = []
    for rule in rules:
        if runs and not any(crosses_text(rule[0], other[0]) for other in runs[-1]):
            runs[-1].append(rule)
        else:
            runs.append([rule])
    return runs


def mergeable(a, b):
    """Stars at the same places, one decision, and digits that differ at exactly one place."""
    same_care = all((x == "*") == (y == "*") for x, y in zip(a[0], b[0]))
    return a[1] == b[1] and same_care and sum(1 for x, y in zip(a[0], b[0]) if x != y) == 1


def first_mergeable(chunk):
    """The pair with the least first entry, then the least second."""
    for i in range(len(chunk)):
        for j in range(i + 1, len(chunk)):
            if mergeable(chunk[i], chunk[j]):
                return i, j
    return None


def merge_all(chunk):
    """Merges pair after pair, each search from the start; the entries left, and the merges made."""
    chunk, merges = list(chunk), 0
    while True:
        found = first_mergeable(chunk)
        if found is None:
            return chunk, merges
        i, j = found
        text = "".join(x if x == y else "*" for x, y in zip(chunk[i][0], chunk[j][0]))
        chunk[i] = (text, chunk[i][1])
        del chunk[j]
        merges += 1


def weave_run(run):
    """The three steps on one run: what is left, the rules dropped, the merges made."""
    left = [rule for k, rule in enumerate(run) if not any(covers_text(earlier[0], rule[0]) for earlier in run[:k])]
    dropped = len(run) - len(left)
    left.sort(key=lambda rule: rule[0].count("*"))  # Python's sort keeps the order of equals
    kept, merges = [], 0
    for stars in range(WIDEST + 1):
        entries, made = merge_all([rule for rule in left if rule[0].count("*") == stars])
        kept, merges = kept + entries, merges + made
    return kept, dropped, merges


def runs(width, care, value, decision, sizes):
    """The number of runs; each run's number of rules is put into sizes, and 0 up to the number of rules."""
    check_list(width, care, value, decision)
    count = len(decision)
    if len(sizes) < count:
        raise Refused(7)
    lengths = [len(run) for run in cut(rules_of(width, care, value, decision))]
    sizes[:count] = lengths + [0] * (count - len(lengths))
    return len(lengths)


def put_kept(kept, count, out_care, out_value, out_decision):
    """Puts the rules that are kept into the results, and 0 up to the number of rules that there were."""
    rest = [0] * (count - len(kept))
    put_words(out_care, 0, [care_word(text) for text, _ in kept] + rest)
    put_words(out_value, 0, [value_word(text) for text, _ in kept] + rest)
    out_decision[:count] = [decision for _, decision in kept] + rest


def weave(width, care, value, decision, out_care, out_value, out_decision):
    """Entries kept, rules dropped and merges made; the entries are put into the results, and 0 up to the number of rules."""
    check_list(width, care, value, decision)
    if not belong_together(out_care, out_value, out_decision):
        raise Refused(2)
    count = len(decision)
    if len(out_decision) < count:
        raise Refused(7)
    kept, dropped, merges = [], 0, 0
    for run in cut(rules_of(width, care, value, decision)):
        entries, run_dropped, run_merges = weave_run(run)
        kept, dropped, merges = kept + entries, dropped + run_dropped, merges + run_merges
    put_kept(kept, count, out_care, out_value, out_decision)
    return len(kept), dropped, merges


# The comparison. --------------------------------------------------------------------------------------------------------

BY_HEADERS = 10  # up to this width every header is looked up


def side(width, slices, default):
    """A side of the comparison: its rules, and what a miss counts as, which is its default, or NO_MATCH where it has none."""
    return rules_of(width, *slices), NO_MATCH if default is None else default


def stretches_by_headers(width, old, new):
    """For every header, lowest first: the header twice, its old outcome, its new outcome."""
    for h in range(2**width):
        header = bits(width, h)
        yield h, h, outcome(*old, header), outcome(*new, header)


def narrowed(rules, digit):
    """The rules that a header with this digit at the first place can match, without that place; nothing after a rule of
    stars counts."""
    left = []
    for text, decision in rules:
        if text[0] in ("*", digit):
            left.append((text[1:], decision))
            if text[1:].strip("*") == "":
                break
    return tuple(left)


def settled(rules, miss):
    """The one outcome that every header gets, or None where that is not to be seen at once."""
    if not rules:
        return miss
    if rules[0][0].strip("*") == "":
        return rules[0][1]
    return None


class Tree:
    """Both sides' outcomes by the first place, then by the second, and so on; equal parts are made once. A part in which both
    outcomes are settled is a pair of outcomes, any other part is its two halves and whether the outcomes ever differ in it. Where a
    miss counts as the same on both sides, no more is said of a part with the same rules on both than that they never do."""

    def __init__(self, old_miss, new_miss):
        self.old_miss, self.new_miss, self.made = old_miss, new_miss, {}

    def part(self, old, new):
        if (old, new) not in self.made:
            self.made[old, new] = self.make(old, new)
        return self.made[old, new]

    def make(self, old, new):
        if old == new and self.old_miss == self.new_miss:
            return (NO_MATCH, NO_MATCH, False)
        a, b = settled(old, self.old_miss), settled(new, self.new_miss)
        if a is not None and b is not None:
            return (a, b, a != b)
        low = self.part(narrowed(old, "0"), narrowed(new, "0"))
        high = self.part(narrowed(old, "1"), narrowed(new, "1"))
        if isinstance(low[0], int) and low == high:
            return low
        return (low, high, low[2] or high[2])


def stretches_by_places(width, old, new, start):
    """Stretches of consecutive headers with settled outcomes, lowest first, from the one that holds the start. Parts in which
    no outcome differs are left out."""

    def walk(part, first, size):
        if first + size <= start or not part[2]:
            return
        if isinstance(part[0], int):
            yield first, first + size - 1, part[0], part[1]
        else:
            yield from walk(part[0], first, size // 2)
            yield from walk(part[1], first + size // 2, size // 2)

    (old_rules, old_miss), (new_rules, new_miss) = old, new
    yield from walk(Tree(old_miss, new_miss).part(tuple(old_rules), tuple(new_rules)), 0, 2**width)


def differences(width, old, new, start):
    """The runs of differences of two sides at or after the start, lowest first: first header, last header, old outcome, new
    outcome. Each is as long as both outcomes stay."""
    if width <= BY_HEADERS:
        stretches = stretches_by_headers(width, old, new)
    else:
        stretches = stretches_by_places(width, old, new, start)
    run = None
    for first, last, a, b in stretches:
        if last < start or a == b:
            continue
        first = max(first, start)
        if run and run[1] + 1 == first and run[2:] == (a, b):
            run = (run[0], last, a, b)
        else:
            if run:
                yield run
            run = (first, last, a, b)
    if run:
        yield run


def compare_outcomes(width, old, old_default, new, new_default, start, first, last, old_outcome, new_outcome):
    """The number of runs put into the results, and the first header of the next run, or None where there is none. The outcomes
    have one number to a run, and the headers two. Each list has a default, or None. Both lists are checked before the defaults."""
    check_width(width)
    check_bare_list(width, 1, *old)
    check_bare_list(width, 2, *new)
    check_default(1, old_default)
    check_default(2, new_default)
    check_header(width, start)
    room = len(old_outcome)
    if not len(first) == len(last) == 2 * room or len(new_outcome) != room:
        raise Refused(2)
    if room < 1:
        raise Refused(7)
    count = 0
    for run in differences(width, side(width, old, old_default), side(width, new, new_default), start):
        if count == room:
            return count, run[0]
        put_words(first, count, [run[0]])
        put_words(last, count, [run[1]])
        old_outcome[count], new_outcome[count] = run[2:]
        count += 1
    return count, None


def compare(width, old, new, start, *results):
    """The same where neither side has a default: the outcomes are the lists' answers."""
    return compare_outcomes(width, old, None, new, None, start, *results)


# Pruning. ---------------------------------------------------------------------------------------------------------------


def lowest_by_headers(width, rules, k):
    """The lowest header whose answer changes when the rule at position k (from 0) is taken from the list, or None: every header is looked
    up, with the rule and without it."""
    left = rules[:k] + rules[k + 1 :]
    for h in range(2**width):
        header = bits(width, h)
        if answer(rules, header) != answer(left, header):
            return h
    return None


def parted(block, text):
    """A block is a pattern, for all headers that match it. What is left of it without those that match the text, as blocks of which no
    two have a header in common; and the block of those that match both, where there are any."""
    outside = []
    for place, (x, y) in enumerate(zip(block, text)):
        if x == "*" and y != "*":
            before, behind = block[:place], block[place + 1 :]
            outside.append(before + {"0": "1", "1": "0"}[y] + behind)
            block = before + y + behind
    return outside, block


def lowest_by_blocks(rules, k):
    """The same without a walk over the headers. When the rule goes, a header that matches it gets the answer of the other rules. That is
    the answer that it had where it hits an earlier rule or a later one with the same decision, and a new one where it hits any other rule
    or none. So the other rules are patterns, each with whether the answer is new for what hits it.

    The rule's headers are taken apart into blocks, the one with the lowest header first. What matches one of the patterns at the top that
    bring nothing new is out; their order does not matter, and the one that leaves fewest parts is taken. A block whose first pattern
    brings a new answer falls into what matches that pattern and the rest. Where no pattern is left, every header of the block has a new
    answer, and all headers of the other blocks that may have one are higher than its lowest."""
    text, decision = rules[k]
    others = [(other, False) for other, _ in rules[:k]] + [(other, d != decision) for other, d in rules[k + 1 :]]
    blocks = [(first_number(text), text, others)]
    while blocks:
        lowest, block, others = heapq.heappop(blocks)
        others = [other for other in others if meets_text(other[0], block)]
        if not others:
            return lowest
        old = list(itertools.takewhile(lambda other: not other[1], others))
        if any(covers_text(other, block) for other, _ in old):
            continue
        taken = min(old, key=lambda other: len(parted(block, other[0])[0])) if old else others[0]
        outside, inside = parted(block, taken[0])
        left = [(part, [other for other in others if other is not taken]) for part in outside]
        for part, patterns in left if old else left + [(inside, [])]:
            heapq.heappush(blocks, (first_number(part), part, patterns))
    return None


def lowest_changed(width, rules, k):
    """The lowest header whose answer changes when the rule at position k (from 0) is taken from the list; None where no answer does."""
    return lowest_by_headers(width, rules, k) if width <= BY_HEADERS else lowest_by_blocks(rules, k)


def pruned(width, rules):
    """From the last rule to the first: a rule goes where no header's answer changes with it, in the list as it then stands."""
    left = list(rules)
    for k in reversed(range(len(rules))):
        if lowest_changed(width, left, k) is None:
            del left[k]
    return left


def needed_at(width, care, value, decision, position):
    """The lowest header whose answer changes without the rule at that position (from 0), or None; there is none where the list has no
    such position."""
    check_list(width, care, value, decision)
    return lowest_changed(width, rules_of(width, care, value, decision), position) if position < len(decision) else None


def prune(width, care, value, decision, out_care, out_value, out_decision, header):
    """Rules kept and rules dropped; the kept ones are put into the results, and beside each the lowest header whose answer changes when
    that one is taken from the list that is left. 0 stands in all results up to the number of rules. 2 where the four results do not
    belong together, which have two numbers to a header, and 7 for too few places come last."""
    check_list(width, care, value, decision)
    if not belong_together(out_care, out_value, out_decision) or len(header) != 2 * len(out_decision):
        raise Refused(2)
    count = len(decision)
    if len(out_decision) < count:
        raise Refused(7)
    kept = pruned(width, rules_of(width, care, value, decision))
    put_kept(kept, count, out_care, out_value, out_decision)
    put_words(header, 0, [lowest_changed(width, kept, k) for k in range(len(kept))] + [0] * (count - len(kept)))
    return len(kept), count - len(kept)


# Images. ----------------------------------------------------------------------------------------------------------------


def number(image, at, size):
    """The number in so many bytes, the lowest byte first."""
    return int.from_bytes(image[at : at + size], "little")


def entry_at(image, k):
    """Body offset, rule count and id of entry k (from 0) of the contents."""
    at = HEAD + ENTRY * k
    return number(image, at, 4), number(image, at + 4, 2), number(image, at + 6, 2)


def rule_size(format):
    """The bytes of a rule: two words and a decision."""
    return 2 * WORD[format] + 2


def check_image_width(format, width):
    """1: a format has as many places as its words have bits."""
    if not 1 <= width <= 8 * WORD[format]:
        raise Refused(1)


def rule_in(image, at):
    word = WORD[image[0]]
    return number(image, at, word), number(image, at + word, word), number(image, at + 2 * word, 2)


def body_rules(image, entry):
    offset, count, _ = entry
    return [rule_in(image, offset + rule_size(image[0]) * k) for k in range(count)]


def entries(image):
    return [entry_at(image, k) for k in range(image[2])]


def check_image(image):
    """10 for the size, 11, 1, 12; entry by entry 13, 14, 24 for a list without rules, 3, and 10 where the body passes the end; 10
    for the whole; then every list's rules."""
    size = len(image)
    if size < HEAD or size > LARGEST_IMAGE:
        raise Refused(10)
    if image[0] not in WORD or image[3] != 0:
        raise Refused(11)
    check_image_width(image[0], image[1])
    lists = image[2]
    if not 1 <= lists <= MOST_LISTS or HEAD + ENTRY * lists > size:
        raise Refused(12)
    end, before = HEAD + ENTRY * lists, None
    for k, (offset, count, id) in enumerate(entries(image)):
        if before is not None and id <= before:
            raise Refused(13, k + 1, 0)
        if offset != end:
            raise Refused(14, k + 1, 0)
        if count == 0:
            raise Refused(24, k + 1, 0)
        if count > LONGEST:
            raise Refused(3, k + 1, 0)
        end, before = end + rule_size(image[0]) * count, id
        if end > size:
            raise Refused(10, k + 1, 0)
    if end != size:
        raise Refused(10)
    for k, entry in enumerate(entries(image)):
        for number_of, rule in enumerate(body_rules(image, entry)):
            check_bare_rule(image[1], k + 1, number_of + 1, *rule)


def image_format(image):
    check_image(image)
    return image[0]


def image_width(image):
    check_image(image)
    return image[1]


def image_count(image):
    """The number of lists."""
    check_image(image)
    return image[2]


def find(image, id):
    """The contents entry with this id."""
    check_image(image)
    for entry in entries(image):
        if entry[2] == id:
            return entry
    raise Refused(15)


def body(image, id):
    """Where the body of the list with this id stands: its first byte's offset and its number of bytes."""
    offset, count, _ = find(image, id)
    return offset, rule_size(image[0]) * count


def read(image, id, care, value, decision):
    """The number of rules read into the slices; later places stay."""
    entry = find(image, id)
    if not belong_together(care, value, decision):
        raise Refused(2)
    rules = body_rules(image, entry)
    if len(decision) < len(rules):
        raise Refused(7)
    for k, rule in enumerate(rules):
        put_rule(care, value, decision, k, rule)
    return len(rules)


def image_bytes(format, width, counts, ids, rules):
    """The bytes of the image that carries these lists, whose rules follow each other."""
    word = WORD[format]
    head = bytes([format, width, len(ids), 0])
    contents, bodies = b"", b""
    offset = HEAD + ENTRY * len(ids)
    for count, id in zip(counts, ids):
        contents += offset.to_bytes(4, "little") + count.to_bytes(2, "little") + id.to_bytes(2, "little")
        offset += rule_size(format) * count
    for care, value, decision in rules:
        bodies += care.to_bytes(word, "little") + value.to_bytes(word, "little") + decision.to_bytes(2, "little")
    return head + contents + bodies


def write(format, width, counts, ids, care, value, decision, out):
    """The image's length; out is a list of bytes, of which only the image's are changed. 11 for the format comes first of all;
    list by list 13, 24 for one without rules, 3."""
    if format not in WORD:
        raise Refused(11)
    check_image_width(format, width)
    if len(counts) != len(ids) or not belong_together(care, value, decision) or sum(counts) != len(decision):
        raise Refused(2)
    if not 1 <= len(ids) <= MOST_LISTS:
        raise Refused(12)
    for k in range(len(ids)):
        if k > 0 and ids[k] <= ids[k - 1]:
            raise Refused(13, k + 1, 0)
        if counts[k] == 0:
            raise Refused(24, k + 1, 0)
        if counts[k] > LONGEST:
            raise Refused(3, k + 1, 0)
    rules = words_and_decisions(care, value, decision)
    at = 0
    for k in range(len(ids)):
        for rule in range(counts[k]):
            check_bare_rule(width, k + 1, rule + 1, *rules[at])
            at += 1
    size = HEAD + ENTRY * len(ids) + rule_size(format) * len(rules)
    if size > LARGEST_IMAGE:
        raise Refused(10)
    if len(out) < size:
        raise Refused(7)
    out[:size] = image_bytes(format, width, counts, ids, rules)
    return size


def woven_list(image, entry):
    """The rules that weaving makes of the list of a contents entry, and its three counts."""
    care, value, decision = slices_of(body_rules(image, entry))
    results = [0] * len(care), [0] * len(value), [0] * len(decision)
    counts = weave(image[1], care, value, decision, *results)
    return words_and_decisions(*results)[: counts[0]], counts


def tally(image, id):
    """Entries kept, rules dropped and merges made where the list with this id is woven."""
    return woven_list(image, find(image, id))[1]


def put_image(image, lists, out):
    """The length of the image with these lists in the place of its own; out is a list of bytes, of which only that image's are changed."""
    ids = [id for _, _, id in entries(image)]
    made = image_bytes(image[0], image[1], [len(rules) for rules in lists], ids, sum(lists, []))
    if len(out) < len(made):
        raise Refused(7)
    out[: len(made)] = made
    return len(made)


def weave_image(image, out):
    """The length of the image with every list woven."""
    check_image(image)
    return put_image(image, [woven_list(image, entry)[0] for entry in entries(image)], out)


def pruned_list(image, entry):
    """The rules that pruning leaves of the list of a contents entry."""
    kept = pruned(image[1], rules_of(image[1], *slices_of(body_rules(image, entry))))
    return [(care_word(text), value_word(text), decision) for text, decision in kept]


def prune_image(image, out):
    """The length of the image with every list pruned."""
    check_image(image)
    return put_image(image, [pruned_list(image, entry) for entry in entries(image)], out)


# Two images. ------------------------------------------------------------------------------------------------------------


def check_widths(old_image, new_image):
    """16, of two images that passed their checks. Their formats may differ."""
    if old_image[1] != new_image[1]:
        raise Refused(16)


def list_of(image, entry):
    """The rules of a contents entry as three slices."""
    return slices_of(body_rules(image, entry))


def compare_list_outcomes(old_image, old_id, old_default, new_image, new_id, new_default, start, *results):
    """The old image's list with the one id against the new image's with the other, as compare_outcomes does two lists. All checks
    of the old image and 15 for its list, all of the new image and 15 for its list, then 16; then 5 for the defaults, 6 for the
    start, 2 and 7 for the results. A place is the refused image's own entry and rule; that of a default is 1, 0 on the old side and
    2, 0 on the new one."""
    old = list_of(old_image, find(old_image, old_id))
    new = list_of(new_image, find(new_image, new_id))
    check_widths(old_image, new_image)
    return compare_outcomes(old_image[1], old, old_default, new, new_default, start, *results)


def compare_first_outcomes(old_image, old_default, new_image, new_default, start, *results):
    """The first list of each image. An image that passes its checks has one, so there is no 15."""
    check_image(old_image)
    check_image(new_image)
    check_widths(old_image, new_image)
    old = list_of(old_image, entry_at(old_image, 0))
    new = list_of(new_image, entry_at(new_image, 0))
    return compare_outcomes(old_image[1], old, old_default, new, new_default, start, *results)


def compare_lists(old_image, old_id, new_image, new_id, start, *results):
    """Lists by their ids, without defaults."""
    return compare_list_outcomes(old_image, old_id, None, new_image, new_id, None, start, *results)


def compare_first(old_image, new_image, start, *results):
    """First lists, without defaults."""
    return compare_first_outcomes(old_image, None, new_image, None, start, *results)


def bench(old_image, new_image, most=1000):
    """The text that the bench program writes for two images."""
    first, last, old_answer, new_answer = [0] * 2 * most, [0] * 2 * most, [0] * most, [0] * most
    try:
        count, more = compare_first(old_image, new_image, 0, first, last, old_answer, new_answer)
    except Refused as refused:
        return "refused %d\n" % refused.number
    named = lambda number: "none" if number == NO_MATCH else str(number)
    lines = ["width %d" % old_image[1]]
    for begin, end, a, b in list(zip(words_of(first), words_of(last), old_answer, new_answer))[:count]:
        lines.append("%d %d %s %s" % (begin, end, named(a), named(b)))
    lines.append("runs %d" % count if more is None else "more %d" % more)
    return "".join(line + "\n" for line in lines)
