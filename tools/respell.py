#!/usr/bin/env python3
"""Brings this repository's own words of specs/ and proofs/ to today's spelling: snake case for definitions, lemmas, record fields and constructors' arguments.

usage: tools/respell.py [--say]      at the top of the repository, once, after port.py; --say prints the names and writes nothing

placeAt, link-word  ->  place_at, link_word

A name counts as ours where a file of specs/, or a file of proofs/ outside a function's folder, declares it, at its margin or inside a module. Functions of src/, exported
names, strings, inputs and outputs are left alone. In comments and pages only a name with a capital inside is respelled: a hyphen there may be prose.
"""

import collections
import glob
import os
import re
import sys

TOKEN = re.compile(r"[^\s(){}.;,@\"«»\[\]\\`]+")
DECLARED = re.compile(r"^(?:pub |abbrev |unfoldable |mutual )*(?!use |mod |--)([^\s:(){}=]+)(?:\s+[({][^=]*?)?\s*:(?:\s|$)")
FIELD = re.compile(r"^\s+(?:pub )?([^\s:(){}=|]+)\s*:\s")
NESTED = re.compile(r"^\s+(?:pub )?([^\s:(){}=|]+)(?:\s+[({][^=]*?)?\s*:\s")
CAMEL = re.compile(r"^[a-z][a-z0-9]*(?:[A-Z][A-Za-z0-9]*)+'*$")
HYPHEN = re.compile(r"(?<=[\w'⊖ℤ])-(?=\w)")


def snake(name):
    parts = re.sub(r"(?<=[a-z0-9])(?=[A-Z])", "_", name)
    parts = re.sub(r"(?<=[A-Z])(?=[A-Z][a-z])", "_", parts)
    return HYPHEN.sub("_", parts).lower() if CAMEL.match(name.replace("-", "")) else HYPHEN.sub("_", parts)


# What falls together with a definition that had today's spelling already, or now gets the spelling of a lemma that had it.
FALLEN = {n: n.replace("-", "_") + "_is" for n in "answer-of at-once byte-at is-move line-of points-of all_pass box_of cut_parts add-up all-ahead drawn-from ink-from one-full".split()}


def ours():
    names = set()
    for path in glob.glob("crates/*/specs/**/*.antt", recursive=True) + glob.glob("crates/*/proofs/*.antt"):
        record = False
        for line in open(path, encoding="utf-8"):
            if re.match(r"^(?:pub |abbrev )*(record|data)\b", line):
                record = True
                continue
            if line[:1].strip():
                record = False
                it = DECLARED.match(line)
            else:
                it = FIELD.match(line) if record else NESTED.match(line) if "/proofs/" in path else None
            if it:
                names.add(it.group(1))
    for path in glob.glob("crates/*/proofs/**/*.antt", recursive=True):
        for line in open(path, encoding="utf-8"):
            if line.startswith("use ") and not line.startswith("use Rattle.") or line.startswith("use Rattle.std."):
                names -= set(TOKEN.findall(line))
    return {n for n in names if n[:1].islower() and (CAMEL.match(n) or HYPHEN.search(n)) or n[:1] in "⊖+" and HYPHEN.search(n)}


def files():
    for at in ("crates/*/specs/**/*.antt", "crates/*/proofs/**/*.antt", "crates/*/src/**/*.rt", "crates/*/must-fail/*.edit", "docs/**/*.md", "README.md", "bindings/**/*.md", "bindings/*.h", "bindings/rust/src/**/*.rs", "compare/src/**/*.rs"):
        yield from sorted(glob.glob(at, recursive=True))


def main(argv):
    new = {n: snake(n) for n in ours()}
    new = {n: to for n, to in new.items() if n != to}
    fallen = collections.defaultdict(set)
    for n, to in new.items():
        fallen[to].add(n)
    # Where a lemma falls together with a definition, the lemma's name says so.
    for to, from_ in sorted(fallen.items()):
        for n in sorted(from_)[:-1] if len(from_) > 1 else []:
            new[n] = to + "_is"
            print(f"fall together: {sorted(from_)}: {n} -> {new[n]}")
    new.update(FALLEN)
    if "--say" in argv:
        for n, to in sorted(new.items()):
            print(n, to)
        return
    sure = {n: to for n, to in new.items() if CAMEL.match(n)}
    for path in files():
        with open(path, encoding="utf-8") as f:
            text = f.read()
        code = path.endswith((".antt", ".rt", ".edit"))
        mine = new if not path.endswith(".rt") else {n: to for n, to in new.items() if "_" not in n}
        mark = "--" if path.endswith(".antt") else "//"

        def line(l):
            at = l.find(mark + " ") if code and not path.endswith(".edit") else (-1 if code else 0)
            head, tail = (l, "") if at < 0 else (l[:at], l[at:])
            head = TOKEN.sub(lambda m: mine.get(m.group(), m.group()), head)
            tail = TOKEN.sub(lambda m: sure.get(m.group(), m.group()), tail)
            return head + tail

        after = "\n".join(line(l) for l in text.split("\n"))
        if after != text:
            with open(path, "w", encoding="utf-8") as f:
                f.write(after)


if __name__ == "__main__":
    main(sys.argv[1:])
