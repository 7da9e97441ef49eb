"""images.py SEED COUNT: makes COUNT random pairs of images, alike, of unlike widths or formats, or damaged, runs the bench program on
each pair, and so the comparison of two images, and compares what it writes with the model's text. Last line: 'N pairs, M differ'."""
import collections
import os
import subprocess
import sys
import tempfile

import cases
import model

RUN = os.path.join(os.path.dirname(os.path.dirname(os.path.abspath(__file__))), "scripts", "run-program")


def image_of(format, width, counts, ids, rules):
    out = [0] * 65536
    return bytes(out[: model.write(format, width, counts, ids, *model.slices_of(rules), out)])


def pair(make):
    format, width, counts, ids, slices = cases.good_image(make)
    rules = model.words_and_decisions(*slices)
    old = image_of(format, width, counts, ids, rules)
    first, later = rules[: counts[0]], rules[counts[0] :]
    other = model.words_and_decisions(*cases.like(make, width, model.slices_of(first)))
    if not 1 <= len(other) <= model.LONGEST:
        other = first
    new = image_of(cases.format_for(make, width), width, [len(other)] + counts[1:], ids, other + later)
    if make.chance(12):
        format, width, counts, ids, slices = cases.good_image(make)
        new = image_of(format, width, counts, ids, model.words_and_decisions(*slices))
    if make.chance(12):
        old = cases.bad_image(make, old)
    if make.chance(12):
        new = cases.bad_image(make, new)
    return (new, old) if make.chance(30) else (old, new)


def main(seed, count):
    make, differ, seen = cases.Maker(seed), 0, collections.Counter()
    with tempfile.TemporaryDirectory() as folder:
        for number in range(1, count + 1):
            images = pair(make)
            for name, image in zip(("old.img", "new.img"), images):
                with open(os.path.join(folder, name), "wb") as file:
                    file.write(image)
            want = model.bench(*images)
            got = subprocess.run([RUN, "bench"], cwd=folder, stdout=subprocess.PIPE).stdout.decode()
            seen[want.split("\n")[0] if want.startswith("refused") else "compared"] += 1
            if got != want:
                differ += 1
                print("pair %d: expected %r, got %r" % (number, want[:80], got[:80]))
    print(", ".join("%s: %d" % item for item in sorted(seen.items())))
    print("%d pairs, %d differ" % (count, differ))


if __name__ == "__main__":
    main(int(sys.argv[1]), int(sys.argv[2]))
