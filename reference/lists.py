"""lists.py KIND FILE: writes an image with one list of some 1,000 rules, always the same for a KIND, on which weaving and pruning are
measured.

short-runs    128 places, 1,024 rules in 128 runs of 8; in a run no two rules have as many stars. A run's rules care about the first so
              many places or about the last so many, in turn, so the first rule of a run crosses those of the run before.
one-chunk     128 places, 1,024 rules that care about the same 64 places; their values are all that the last ten of these can have, in
              shuffled order, with one decision: one run and one chunk, in which 622 merges are made.
none-merges   the same with decisions 1 to 1,024: no two rules merge.
access        64 places, a source and a destination address of 32 each: 12 sites with 8 subnets, which are let through to hosts of a
              service, host by host, but for a denied network here and there; sites are let through to networks, and all else is denied.
scattered     64 places, 1,024 rules that care about 8 to 12 places anywhere, with any values and decisions 0 to 3.
"""
import random
import sys

import images

PLACES = {"short-runs": 128, "one-chunk": 128, "none-merges": 128, "access": 64, "scattered": 64}


def first(width, count):
    return (1 << width) - (1 << (width - count))


def last(count):
    return (1 << count) - 1


def short_runs(make):
    rules = []
    for run in range(128):
        for count in make.sample(range(1, 128), 8):
            care = first(128, count) if run % 2 else last(count)
            rules.append((care, make.getrandbits(128) & care, make.randrange(4)))
    return rules


def one_chunk(make, decision):
    care = first(128, 54) | last(10)
    values = make.sample(range(1024), 1024)
    return [(care, value, decision(k)) for k, value in enumerate(values)]


def address(a, b, c, d):
    return a << 24 | b << 16 | c << 8 | d


def rule(source, source_places, destination, destination_places, decision):
    care = first(32, source_places) << 32 | first(32, destination_places)
    return care, (source << 32 | destination) & care, decision


def access(make):
    permit, deny = 1, 2
    rules = []
    for site in range(12):
        for subnet in range(8):
            source = address(10, site, subnet * 16, 0)
            service = address(192, 168, make.randrange(64), make.randrange(16) * 16)
            if make.random() < 0.3:
                rules.append(rule(source, 28, service, 24, deny))
            for host in make.sample(range(16), make.randrange(6, 14)):
                rules.append(rule(source, 24, service + host, 32, permit))
        for network in make.sample(range(64), 4):
            rules.append(rule(address(10, site, 0, 0), 16, address(192, 168, network, 0), 24, permit))
    return rules + [(0, 0, deny)]


def scattered(make):
    rules = []
    for _ in range(1024):
        care = sum(1 << place for place in make.sample(range(64), make.randrange(8, 13)))
        rules.append((care, make.getrandbits(64) & care, make.randrange(4)))
    return rules


def rules_of(kind):
    make = random.Random(2)
    if kind == "short-runs":
        return short_runs(make)
    if kind == "access":
        return access(make)
    if kind == "scattered":
        return scattered(make)
    return one_chunk(make, (lambda k: 1) if kind == "one-chunk" else (lambda k: k + 1))


def main(kind, path):
    width = PLACES[kind]
    rules = rules_of(kind)
    with open(path, "wb") as file:
        file.write(images.image_of(2 if width > 64 else 1, width, [len(rules)], [1], rules))


if __name__ == "__main__":
    main(sys.argv[1], sys.argv[2])
