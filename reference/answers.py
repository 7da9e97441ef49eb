"""Cases as text: what docs/CASES.md says of their form, and what the model answers to them.

    answers.py FILE..

writes each file's remarks and cases with the model's answer beside each case, whatever answer stood there. A case that cannot
be read is an error.
"""
import re
import sys

import model
from model import Refused, Swap

LARGEST_WORD = model.HALF**2 - 1
MOST = 100000  # more numbers of a slice than this are not meant
FIELDS = "source source_length destination destination_length source_low source_high destination_low destination_high protocol".split()


class Unreadable(Exception):
    pass


# Reading. ---------------------------------------------------------------------------------------------------------------


class Words:
    """The words and brackets of a case, taken from the left."""

    def __init__(self, text):
        self.left = re.findall(r"[\[\]]|[^\s,\[\]]+", text)[::-1]

    def next(self):
        return self.left[-1] if self.left else ""

    def take(self):
        if not self.left:
            raise Unreadable("something is missing")
        return self.left.pop()

    def expect(self, word):
        if self.next() != word:
            raise Unreadable("%s in place of %s" % (self.next(), word))
        self.take()

    def number(self, name=None, most=2**64 - 1):
        if name:
            self.expect(name)
        return number_of(self.take(), most)

    def times(self):
        """How often what follows is meant."""
        if len(self.left) > 1 and self.left[-2] == "times":
            count = self.number(None, MOST)
            self.expect("times")
            return count
        return 1

    def header(self, name):
        return self.number(name, LARGEST_WORD)

    def numbers(self, name=None, most=2**64 - 1):
        """A slice of numbers."""
        if name:
            self.expect(name)
        self.expect("[")
        found = self.numbers_before(("]",), most)
        self.expect("]")
        return found

    def slice_of_words(self, name):
        """A slice of words as it is lent: two numbers to a word, the low half first, and one more number after `half`."""
        self.expect(name)
        self.expect("[")
        lent = model.halves_of(self.numbers_before(("half", "]"), LARGEST_WORD))
        if self.next() == "half":
            lent.append(self.number("half"))
        self.expect("]")
        return lent

    def numbers_before(self, ends, most):
        found = []
        while self.next() not in ends:
            times = self.times()
            word = self.take()
            if times != 1 and (":" in word or self.next() == "to"):
                raise Unreadable("times stands before one number: " + word)
            if ":" in word and most == 255:
                found += bytes_of(*word.split(":"))
            elif self.next() == "to":
                first, last = number_of(word, most), self.number("to", most)
                if not first <= last < first + MOST:
                    raise Unreadable("no such numbers: %d to %d" % (first, last))
                found += range(first, last + 1)
            else:
                found += [number_of(word, most)] * times
        return found

    def bytes(self, name):
        return bytes(self.numbers(name, 255))

    def rule(self):
        word = self.take()
        if "/" in word:
            care, value = (number_of(x, LARGEST_WORD) for x in word.split("/"))
        elif re.fullmatch("[01*]{1,128}", word):
            care, value = model.care_word(word), model.value_word(word)
        else:
            raise Unreadable("no rule: " + word)
        return care, value, self.number(None, 65535)

    def list(self, name):
        """Three slices: rules in brackets, or each slice by itself."""
        self.expect(name)
        if self.next() == "care":
            return self.slice_of_words("care"), self.slice_of_words("value"), self.numbers("decision", 65535)
        return model.slices_of(self.rules())

    def rules(self, name=None, count=None):
        """Rules in brackets, so many of them where that is said."""
        if name:
            self.expect(name)
        self.expect("[")
        rules = []
        while self.next() != "]":
            times = self.times()
            rules += [self.rule()] * times
        self.expect("]")
        if count not in (None, len(rules)):
            raise Unreadable("so many rules are not meant: %s" % name)
        return rules

    def default(self):
        """The default of a side of a comparison, or None: `none` says here that there is none, and is not the number 65,535."""
        self.expect("default")
        if self.next() == "none":
            self.take()
            return None
        return self.number(None, 65535)

    def runs(self):
        """The four result slices of a comparison."""
        self.expect("into")
        if self.next() == "first":
            return self.slice_of_words("first"), self.slice_of_words("last"), self.numbers("old", 65535), self.numbers("new", 65535)
        all = self.numbers(None, LARGEST_WORD)
        if len(all) % 4 or any(number > 65535 for number in all[2::4] + all[3::4]):
            raise Unreadable("a run has two headers and two answers")
        return model.halves_of(all[0::4]), model.halves_of(all[1::4]), all[2::4], all[3::4]

    def swap(self):
        width = self.number("swap", 2**32 - 1)
        places = self.numbers(None, 255)
        if len(places) > model.WIDEST:
            raise Unreadable("too many entries")
        return Swap(places + [0] * (model.WIDEST - len(places)), width)

    def width(self):
        return self.number("width", 2**32 - 1)

    def range(self):
        """The bits of a field, and the first and the last number of a range of it."""
        return [self.number(name, 2**32 - 1) for name in ("bits", "low", "high")]

    def five_field_rules(self):
        """The ten slices of five-field rules: ten numbers to a rule in brackets, or each slice by itself."""
        self.expect("rules")
        if self.next() == FIELDS[0]:
            return [self.numbers(name, 2**32 - 1) for name in FIELDS] + [self.numbers("decision", 65535)]
        all = self.numbers(None, 2**32 - 1)
        if len(all) % 10 or any(number > 65535 for number in all[9::10]):
            raise Unreadable("a five-field rule has nine numbers and a decision")
        return [all[k::10] for k in range(10)]


def bytes_of(word, size):
    """A number in so many bytes, the lowest first."""
    size = number_of(size, 16)
    return number_of(word, 256**size - 1).to_bytes(size, "little")


def number_of(word, most):
    if word == "none":
        return model.NO_MATCH
    if not re.fullmatch("[0-9]+|0x[0-9a-fA-F]+", word):
        raise Unreadable("no number: " + word)
    number = int(word, 16 if word.startswith("0x") else 10)
    if number > most:
        raise Unreadable("too large: " + word)
    return number


# Answers. ---------------------------------------------------------------------------------------------------------------


def refused(refusal):
    return "refused %d at %d %d" % (refusal.number, refusal.list, refusal.rule)


def said(call, *arguments):
    """The answer as text; a call that answers nothing says `fine`."""
    try:
        answer = call(*arguments)
    except Refused as refusal:
        return refused(refusal)
    if answer is None:
        return "fine"
    if isinstance(answer, bool):
        return "yes" if answer else "no"
    return str(answer)


def shortened(items, between):
    """16 or more of the same are said once."""
    texts, k = [], 0
    while k < len(items):
        end = k
        while end < len(items) and items[end] == items[k]:
            end += 1
        if end - k >= 16:
            texts.append("%d times %s" % (end - k, items[k]))
            k = end
        else:
            texts.append(str(items[k]))
            k += 1
    return "[" + between.join(texts) + "]"


def numbers_said(slice):
    return shortened(list(slice), " ")


def words_said(slice):
    """The words of a slice, and the number that is left over at its end."""
    return numbers_said(model.words_of(slice) + ["half %d" % half for half in slice[len(slice) // 2 * 2 :]])


def rule_said(width, rule):
    try:
        model.check_rule(width, 1, 1, (rule[0], rule[1], 0))
        return "%s %d" % (model.pattern(width, rule[0], rule[1]), rule[2])
    except Refused:
        return "%d/%d %d" % rule


def rules_said(width, rules):
    return shortened([rule_said(width, rule) for rule in rules], ", ")


def list_said(width, care, value, decision):
    if model.belong_together(care, value, decision):
        return rules_said(width, model.words_and_decisions(care, value, decision))
    return "care %s value %s decision %s" % (words_said(care), words_said(value), numbers_said(decision))


def swap_said(call, *arguments):
    """The verdict, and the swap: zeros beside a refusal."""
    try:
        swap = call(*arguments)
    except Refused as refusal:
        return refused(refusal) + " swap 0 []"
    places = swap.places[:]
    while places and places[-1] == 0:
        places.pop()
    return "fine swap %d %s" % (swap.width, numbers_said(places))


def runs_said(first, last, old, new):
    if not len(first) == len(last) == 2 * len(old) == 2 * len(new):
        slices = words_said(first), words_said(last), numbers_said(old), numbers_said(new)
        return " into first %s last %s old %s new %s" % slices
    none = lambda x: "none" if x == model.NO_MATCH else str(x)
    runs = zip(model.words_of(first), model.words_of(last), old, new)
    return " into [%s]" % ", ".join("%d %d %s %s" % (a, b, none(o), none(n)) for a, b, o, n in runs)


def looked_up(*arguments):
    """The decision and the number of the rule that is hit, or that none is."""
    try:
        hit = model.lookup(*arguments)
    except Refused as refusal:
        return refused(refusal)
    return "none" if hit is None else "%d rule %d" % (hit[1], hit[0])


def compared(results, call, *arguments):
    """The count with its ending, and the four results afterwards."""
    try:
        count, more = call(*arguments, *results)
        text = "%d %s" % (count, "finished" if more is None else "more from %d" % more)
    except Refused as refusal:
        text = "0 " + refused(refusal)
    return text + runs_said(*results)


# The calls. Each takes its arguments from the words, and answers as text. -----------------------------------------------


def check_list(words):
    width, list = words.width(), words.list("list")
    return lambda: said(model.check_list, width, *list)


def check_list_as(words):
    width, list, number = words.width(), words.list("list"), words.number("as")
    return lambda: said(model.check_list, width, *list, number)


def lookup(words):
    width, list, headers = words.width(), words.list("list"), words.numbers("headers", LARGEST_WORD)
    return lambda: ", ".join(looked_up(width, *list, header) for header in headers)


def check_rule(words):
    width, list, number = words.width(), words.number("list"), words.number("number")
    (rule,) = words.rules("rule", 1)
    return lambda: said(model.check_rule, width, list, number, rule)


def pair(call):
    def asked(words):
        width = words.width()
        a, b = words.rules("rules", 2)
        return lambda: said(call, width, a, b)

    return asked


def bare_pair(call):
    """The two calls on words alone: what they answer on good rules, at any width that holds them."""

    def asked(words):
        a, b = words.rules("rules", 2)
        return lambda: said(call, model.WIDEST, a, b)

    return asked


def rule_at(words):
    list, place = words.list("list"), words.number("place")
    return lambda: "%d/%d %d" % model.rule_at(*list, place)


def put_rule(words):
    list, place = words.list("list"), words.number("place")
    (rule,) = words.rules("rule", 1)

    def put():
        model.put_rule(*list, place, rule)
        return "list " + list_said(0, *list)

    return put


def prefix_swap(words):
    width, list = words.width(), words.list("list")
    return lambda: swap_said(model.prefix_swap, width, *list)


def apply_rule(words):
    swap = words.swap()
    (rule,) = words.rules("rule", 1)

    def moved():
        try:
            return rule_said(swap.width, model.apply_rule(swap, rule))
        except Refused as refusal:
            return refused(refusal)

    return moved


def apply(words):
    swap, header = words.swap(), words.header("header")
    return lambda: said(model.apply, swap, header)


def undo(words):
    swap, header = words.swap(), words.header("header")
    return lambda: said(model.undo, swap, header)


def invert(words):
    swap = words.swap()
    return lambda: swap_said(model.invert, swap)


def compose(words):
    first, second = words.swap(), words.swap()
    return lambda: swap_said(model.compose, first, second)


def runs(words):
    width, list, sizes = words.width(), words.list("list"), words.numbers("into", 65535)
    return lambda: said(model.runs, width, *list, sizes) + " into " + numbers_said(sizes)


def weave(words):
    width, list, results = words.width(), words.list("list"), words.list("into")

    def woven():
        try:
            text = "kept %d dropped %d merged %d" % model.weave(width, *list, *results)
        except Refused as refusal:
            text = refused(refusal)
        return text + " into " + list_said(width, *results)

    return woven


def needed_at(words):
    width, list, position = words.width(), words.list("list"), words.number("position")

    def needed():
        header = model.needed_at(width, *list, position)
        return "nowhere" if header is None else "at %d" % header

    return lambda: said(needed)


def prune(words):
    width, list = words.width(), words.list("list")
    results, headers = words.list("into"), words.slice_of_words("headers")

    def pruned():
        text = said(lambda: "kept %d dropped %d" % model.prune(width, *list, *results, headers))
        return "%s into %s headers %s" % (text, list_said(width, *results), words_said(headers))

    return pruned


def compare(words):
    width, old, new = words.width(), words.list("old"), words.list("new")
    start, results = words.header("start"), words.runs()
    return lambda: compared(results, model.compare, width, old, new, start)


def compare_outcomes(words):
    width = words.width()
    old, old_default = words.list("old"), words.default()
    new, new_default = words.list("new"), words.default()
    start, results = words.header("start"), words.runs()
    return lambda: compared(results, model.compare_outcomes, width, old, old_default, new, new_default, start)


def on_image(call):
    def asked(words):
        image = words.bytes("image")
        return lambda: said(call, image)

    return asked


def entry(words):
    image, number = words.bytes("image"), words.number("number")

    def asked():
        model.check_image(image)
        if not 1 <= number <= image[2]:
            raise Refused(15)
        _, count, id = model.entry_at(image, number - 1)
        return "id %d rules %d" % (id, count)

    return lambda: said(asked)


def body(words):
    image, id = words.bytes("image"), words.number("id", 65535)

    def asked():
        try:
            offset, size = model.body(image, id)
        except Refused:
            return numbers_said(b"")
        return numbers_said(image[offset : offset + size])

    return asked


def body_refusal(words):
    image, id = words.bytes("image"), words.number("id", 65535)
    return lambda: said(lambda: model.find(image, id) and None)


def read(words):
    image, id, results = words.bytes("image"), words.number("id", 65535), words.list("into")

    def asked():
        text = said(model.read, image, id, *results)
        try:
            width = model.image_width(image)
        except Refused:
            width = 0
        return text + " into " + list_said(width, *results)

    return asked


def write(words):
    format, width, list = words.number("format", 255), words.width(), words.list("list")
    ids, counts, out = words.numbers("ids", 65535), words.numbers("counts", 65535), words.numbers("into", 255)
    return lambda: said(model.write, format, width, counts, ids, *list, out) + " into " + numbers_said(out)


def tally(words):
    image, id = words.bytes("image"), words.number("id", 65535)
    return lambda: said(lambda: "kept %d dropped %d merged %d" % model.tally(image, id))


def into_image(call):
    def asked(words):
        image, out = words.bytes("image"), words.numbers("into", 255)
        return lambda: said(call, image, out) + " into " + numbers_said(out)

    return asked


def compare_lists(words):
    old, old_id = words.bytes("old"), words.number("id", 65535)
    new, new_id = words.bytes("new"), words.number("id", 65535)
    start, results = words.header("start"), words.runs()
    return lambda: compared(results, model.compare_lists, old, old_id, new, new_id, start)


def compare_first(words):
    old, new, start, results = words.bytes("old"), words.bytes("new"), words.header("start"), words.runs()
    return lambda: compared(results, model.compare_first, old, new, start)


def compare_list_outcomes(words):
    old, old_id, old_default = words.bytes("old"), words.number("id", 65535), words.default()
    new, new_id, new_default = words.bytes("new"), words.number("id", 65535), words.default()
    start, results = words.header("start"), words.runs()
    return lambda: compared(results, model.compare_list_outcomes, old, old_id, old_default, new, new_id, new_default, start)


def compare_first_outcomes(words):
    old, old_default = words.bytes("old"), words.default()
    new, new_default = words.bytes("new"), words.default()
    start, results = words.header("start"), words.runs()
    return lambda: compared(results, model.compare_first_outcomes, old, old_default, new, new_default, start)


def range_prefixes(words):
    range, care, value = words.range(), words.numbers("care", 65535), words.numbers("value", 65535)

    def asked():
        text = said(model.range_prefixes, *range, care, value)
        return "%s care %s value %s" % (text, numbers_said(care), numbers_said(value))

    return asked


def range_prefix_count(words):
    range = words.range()
    return lambda: said(model.range_prefix_count, *range)


def expand(words):
    slices, results = words.five_field_rules(), words.list("into")
    return lambda: said(model.expand, slices, *results) + " into " + list_said(sum(model.FIVE_FIELDS), *results)


def expansion_count(words):
    slices = words.five_field_rules()
    return lambda: said(model.expansion_count, *slices)


def header(words):
    numbers = words.numbers("numbers", 2**32 - 1)
    if len(numbers) != len(model.FIVE_FIELDS):
        raise Unreadable("a header is made of five numbers")
    return lambda: said(model.header, *numbers)


CALLS = {
    "check_list": check_list,
    "check_list_as": check_list_as,
    "lookup": lookup,
    "lookup_number": lookup,
    "check_rule": check_rule,
    "covers": pair(model.covers),
    "crosses": pair(model.crosses),
    "distance": pair(model.distance),
    "rule_covers": bare_pair(model.covers),
    "rule_crosses": bare_pair(model.crosses),
    "rule_at": rule_at,
    "put_rule": put_rule,
    "prefix_swap": prefix_swap,
    "lookup_swapped": lookup,
    "apply_rule": apply_rule,
    "apply": apply,
    "undo": undo,
    "invert": invert,
    "compose": compose,
    "runs": runs,
    "weave": weave,
    "needed_at": needed_at,
    "prune": prune,
    "compare": compare,
    "compare_outcomes": compare_outcomes,
    "check": on_image(model.check_image),
    "format": on_image(model.image_format),
    "width": on_image(model.image_width),
    "count": on_image(model.image_count),
    "entry": entry,
    "body": body,
    "body_refusal": body_refusal,
    "read": read,
    "write": write,
    "tally": tally,
    "weave_image": into_image(model.weave_image),
    "prune_image": into_image(model.prune_image),
    "compare_lists": compare_lists,
    "compare_first": compare_first,
    "compare_list_outcomes": compare_list_outcomes,
    "compare_first_outcomes": compare_first_outcomes,
    "range_prefixes": range_prefixes,
    "range_prefix_count": range_prefix_count,
    "expand": expand,
    "expansion_count": expansion_count,
    "header": header,
}


def answer(text):
    """What the model answers to a case."""
    words = Words(text)
    name = words.take()
    if name not in CALLS:
        raise Unreadable("no such call: " + name)
    call = CALLS[name](words)
    if words.left:
        raise Unreadable("too much: " + words.next())
    return call()


def answered(text):
    """The lines of a file, with the model's answers."""
    lines, case, first = [], [], 0
    for number, line in enumerate(text.split("\n") + [""], 1):
        if case and not line.startswith(" "):
            try:
                lines += case + ["= " + answer("\n".join(case))]
            except Unreadable as fault:
                sys.exit("line %d: %s" % (first, fault))
            case = []
        if line == "" or line.startswith("#"):
            lines.append(line)
        elif not line.startswith("="):
            first = number if not case else first
            case.append(line)
    return "\n".join(lines[:-1])


if __name__ == "__main__":
    for path in sys.argv[1:]:
        with open(path) as file:
            sys.stdout.write(answered(file.read()))
