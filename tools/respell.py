#!/usr/bin/env python3
"""Brings the repository's own definitions and lemmas to today's spelling: words in snake case.

usage: python3 tools/respell.py            at the top of a repository that port.py has just turned

A name in lower camel case is written in snake case, part by part, in crates/*/specs, crates/*/proofs, the clauses of
crates/*/src, the must-fail edits, and in backticks in README.md and docs/. Functions of src/, types and modules keep
their names: they have no such spelling. What stands in double quotes, the words of the language among them, stays as it
is. Lemmas that would then have a definition's name are written with the dash that they had.
"""

import os
import re
import sys

WORD = re.compile(r"[A-Za-zμ_][\w'-]*")
QUOTED = re.compile(r'"[^"\n]*"')
CAMEL = re.compile(r"^[a-z][a-z0-9]*[A-Z]")

# Lemmas and constructors of proofs/ and specs/ that differ from a definition only in how two words are joined.
DASHED = """leaves_at is_name row_words slot_kept return_of owner_of with_values read_back fork_rule named_rule
number_fits left_out frame_row rows_words row_kept open_after found_after""".split()


def snake(name):
    def part(p):
        if not CAMEL.match(p):
            return p
        p = re.sub(r"([a-z0-9])([A-Z])", r"\1_\2", p)
        return re.sub(r"([A-Z]+)([A-Z][a-z])", r"\1_\2", p).lower()

    return "".join(part(p) for p in re.split(r"([-_])", name))


def is_camel(name):
    return any(CAMEL.match(p) for p in re.split(r"[-_]", name))


def respelled(text, names):
    """The text with the names respelled, but for what stands in double quotes."""
    out, at = [], 0
    for q in QUOTED.finditer(text):
        out += [WORD.sub(lambda m: names.get(m[0], m[0]), text[at : q.start()]), q[0]]
        at = q.end()
    return "".join(out) + WORD.sub(lambda m: names.get(m[0], m[0]), text[at:])


def files(root, endings):
    for folder, dirs, names in os.walk(os.path.join(root, "crates")):
        dirs[:] = sorted(d for d in dirs if d != "out")
        for n in sorted(names):
            if n.endswith(endings):
                yield os.path.join(folder, n)


def dashed(path, text):
    """The lemmas of DASHED, with their dash. A function's goals and modules keep their names."""
    own = set(DASHED)
    if "/proofs/" in path and path.endswith("Proof.antt"):
        own = {n for line in re.findall(r"^use .*\{(.*)\}", text, re.M) for n in re.findall(r"[\w'-]+", line)} & own
    for n in own:
        text = re.sub(rf"(?<![\w.'-]){n}(?![\w.'-])", n.replace("_", "-"), text)
    return text


def main():
    root = sys.argv[1] if len(sys.argv) > 1 else "."
    names = {}
    for p in files(root, (".antt", ".rt")):
        with open(p, encoding="utf-8") as f:
            for w in WORD.findall(f.read()):
                if is_camel(w):
                    names[w] = snake(w)
    # a word of the language of texts
    names.pop("channelEnd", None)
    count = 0
    for p in files(root, (".antt", ".rt", ".edit")):
        with open(p, encoding="utf-8") as f:
            text = f.read()
        new = dashed(p, text) if p.endswith(".antt") else text
        new = respelled(new, names)
        if new != text:
            count += 1
            with open(p, "w", encoding="utf-8") as f:
                f.write(new)
    pages = [os.path.join(root, "README.md")]
    docs = os.path.join(root, "docs")
    pages += [os.path.join(docs, n) for n in sorted(os.listdir(docs)) if n.endswith(".md")]
    for p in pages:
        with open(p, encoding="utf-8") as f:
            text = f.read()
        new = re.sub(r"`[^`\n]*`", lambda m: WORD.sub(lambda w: names.get(w[0], w[0]), m[0]), text)
        if new != text:
            count += 1
            with open(p, "w", encoding="utf-8") as f:
                f.write(new)
    print(f"respell: {len(names)} names, {count} files")


if __name__ == "__main__":
    main()
