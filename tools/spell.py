#!/usr/bin/env python3
"""Brings the repository's own names in clauses, specs/, proofs/ and docs to today's spelling: a word is in snake case.

usage: python3 tools/spell.py [FOLDER]      in the repository, or on the repository in FOLDER; once, after port.py

A word that is written as in 'withWord' becomes 'with_word', also where it is a part of a lemma's name, as in 'setBits-seam'. A field of
a record that had a dash gets an underscore. Types, modules, and the names of functions, strings, inputs and outputs keep their names.
It stops, and changes nothing, where two names would fall together in one file.
"""
import os
import re
import sys

ROOT = sys.argv[1] if len(sys.argv) > 1 else "."
TOKEN = re.compile(r"[^\s(){}\[\];,.:«»\"`]+")
CAMEL = re.compile(r"(?:(?<=-)|^)[a-z][a-z0-9_]*[A-Z]")
# Words of the library inside names of ours, and names that a proof file gives to a module.
GIVEN = {"entry-getD": "entry-get_or", "same_Reads": "same_Reads"}


def snake(name):
    if name in GIVEN:
        return GIVEN[name]
    parts = []
    for part in name.split("-"):
        if re.match(r"[a-z]", part):
            part = re.sub(r"(?<=[a-z0-9'])([A-Z])", lambda m: "_" + m.group(1).lower(), part)
        parts.append(part)
    return "-".join(parts)


def files(kinds):
    for folder, dirs, names in os.walk(ROOT):
        dirs[:] = sorted(d for d in dirs if d not in (".git", "out", "target", "tools"))
        for n in sorted(names):
            if n.endswith(kinds):
                yield os.path.join(folder, n)


def read(path):
    with open(path, encoding="utf-8") as f:
        return f.read()


# The words that any .antt file has, and the fields of records.
words, fields, others = {}, set(), set()
for path in files((".antt",)):
    text = read(path)
    for t in TOKEN.findall(text):
        if CAMEL.search(t) and snake(t) != t:
            words[t] = snake(t)
    record = False
    for line in text.split("\n"):
        if re.match(r"\s*(pub )?record \S", line) and line.rstrip().endswith("where"):
            record = True
        elif record and re.match(r"\s+[a-z]\S* : ", line):
            fields.add(line.split()[0])
        elif not line.startswith(" ") and line.strip() and not line.startswith("--"):
            record = False
            m = re.match(r"(?:abbrev pub |unfoldable pub |pub |abbrev |unfoldable )?(\S+) :", line)
            if m:
                others.add(m.group(1))
for f in sorted(fields):
    if "-" in f:
        if f in others:
            sys.exit(f"spell: {f} is a field and a lemma")
        words[f] = snake(f).replace("-", "_")

bad = 0
changed = {}
for path in files((".antt", ".rt", ".md", ".edit")):
    text = read(path)
    if path.endswith((".antt", ".rt")):
        # Not what is a part of a path, a field of another record, a remark, or a function that is declared or called.
        bare = re.sub(r"(--|//)[^\n]*|[a-z][\w'-]*\.[a-z][\w'.-]*|\.\s*[a-z][\w'-]*|[a-z][\w'-]*\.(?=\S)", " ", text)
        if path.endswith(".rt"):
            bare = re.sub(r"(\bfn |::)\w+|\w+(?=\(|::)|^(pub )?use [^;]*;|^(pub |pub\(crate\) )?mod \w+;", " ", bare, flags=re.M)
        seen = set(TOKEN.findall(bare))
        for t in seen:
            if t in words and words[t] in seen:
                print(f"spell: {path}: {t} would be {words[t]}, which the file has")
                bad += 1
    if path.endswith((".rt", ".antt")):
        new = re.sub(TOKEN, lambda m: words.get(m.group(0), m.group(0)), text)
    elif path.endswith(".md"):
        # In a page only what stands between backticks.
        new = re.sub(r"`[^`\n]*`", lambda q: re.sub(TOKEN, lambda m: words.get(m.group(0), m.group(0)), q.group(0)), text)
    else:
        # In an edit only its lines 'old:' and 'new:'.
        new = re.sub(r"^(?:old|new):.*$", lambda q: re.sub(TOKEN, lambda m: words.get(m.group(0), m.group(0)), q.group(0)), text, flags=re.M)
    if new != text:
        changed[path] = new
if bad:
    sys.exit(2)
for path, new in changed.items():
    with open(path, "w", encoding="utf-8") as f:
        f.write(new)
print(f"spell: {len(words)} words in {len(changed)} files")
