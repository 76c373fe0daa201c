#!/usr/bin/env python3
"""places.py [--list] [FOLDER]: the places of docs/DESIGN-PASS.md, counted in FOLDER/*/src/*.rt (crates/ where none is given).
With --list each place is printed too. It looks at the text alone, so that it also counts places that are well as they are."""
import collections
import glob
import os
import re
import sys

shows = "--list" in sys.argv
folders = [it for it in sys.argv[1:] if it != "--list"]
top = folders[0] if folders else "crates"

Function = collections.namedtuple("Function", "crate file line name parameters answer clauses body")


def code(text):
    """The text with its comments and ghost imports blanked."""
    return re.sub(r"//[^\n]*|^ghost use [^\n]*", "", text, flags=re.M)


def closing(text, at, opens, closes):
    depth = 0
    for i in range(at, len(text)):
        depth += (text[i] == opens) - (text[i] == closes)
        if depth == 0:
            return i
    return len(text)


def functions(crate, file, text):
    for found in re.finditer(r"\bfn (\w+)", text):
        opening = text.index("(", found.end())
        end = closing(text, opening, "(", ")")
        parameters = " ".join(text[opening + 1 : end].split())
        at, clauses = end + 1, []
        head = re.match(r"\s*(?:->\s*([^{;]+?))?\s*(?=requires|ensures|where|\{|;)", text[at:])
        answer = (head.group(1) or "").strip() if head else ""
        at += head.end() if head else 0
        while True:
            clause = re.match(r"\s*(requires|ensures)\s*\w*\s*\{", text[at:])
            if not clause:
                break
            start = at + clause.end() - 1
            stop = closing(text, start, "{", "}")
            clauses.append((clause.group(1), " ".join(text[start + 1 : stop].split())))
            at = stop + 1
        body = re.match(r"\s*\{", text[at:])
        inside = ""
        if body:
            start = at + body.end() - 1
            inside = text[start + 1 : closing(text, start, "{", "}")]
        line = text.count("\n", 0, found.start()) + 1
        yield Function(crate, file, line, found.group(1), parameters, answer, clauses, inside)


def parts(clause):
    """The facts of a clause that are joined by ×, outermost brackets taken off."""
    depth, last, out = 0, 0, []
    for i, c in enumerate(clause):
        depth += (c in "({[") - (c in ")}]")
        if c == "×" and depth == 0:
            out.append(clause[last:i])
            last = i + 1
    out.append(clause[last:])
    for it in out:
        it = it.strip()
        while it.startswith("(") and closing(it, 0, "(", ")") == len(it) - 1:
            it = it[1:-1].strip()
        if it:
            yield it


texts, every, rows = {}, [], collections.OrderedDict()
for file in sorted(glob.glob(os.path.join(top, "*", "src", "**", "*.rt"), recursive=True)):
    with open(file, encoding="utf-8") as it:
        texts[file] = code(it.read())
    crate = os.path.relpath(file, top).split(os.sep)[0]
    every += functions(crate, file, texts[file])


def row(point, name, places):
    rows[(point, name)] = list(places)


def lines(pattern, allowed=None):
    for file, text in texts.items():
        for found in re.finditer(pattern, text, re.M):
            line = text.count("\n", 0, found.start()) + 1
            said = " ".join(found.group(0).split())
            if allowed is None or allowed(found):
                yield f"{os.path.relpath(file, top)}:{line}: {said}"


def fields(pattern):
    for file, text in texts.items():
        for found in re.finditer(r"\bstruct (\w+)[^;{(]*\{", text):
            inside = text[found.end() : closing(text, found.end() - 1, "{", "}")]
            for it in re.finditer(pattern, inside, re.M):
                yield f"{os.path.relpath(file, top)}: {found.group(1)}: {it.group(0).strip()}"


def shapes_of_enums():
    for file, text in texts.items():
        for found in re.finditer(r"\benum (\w+)[^{]*\{", text):
            inside = text[found.end() : closing(text, found.end() - 1, "{", "}")]
            yield f"{os.path.relpath(file, top)}: {found.group(1)} {{ {' '.join(inside.split())} }}"


row(1, "enums, of which some are an Option or a Result", shapes_of_enums())
row(1, "bool fields of structs, beside other fields", fields(r"^ *(pub )?\w+: bool,"))
row(1, "fields with a number that stands for a kind, a phase, an end or a fault", fields(r"^ *(pub )?(kind|phase|code|found|end|fault|progress|refused): u\d+,"))
row(1, "constants of numbers", lines(r"^(pub )?const \w+: u\d+ = \d+;"))
row(
    1,
    "functions that ask an enum which variant it is",
    (f"{f.crate}: {f.name}" for f in every if f.answer == "bool" and re.search(r"\bmatch \w+ \{", f.body)),
)

shapes = collections.defaultdict(list)
for f in every:
    words = re.findall(r"\w+|[^\w\s]", f.body)
    if len(words) >= 16:
        names = {}
        shape = tuple(
            names.setdefault(w, f"v{len(names)}") if re.match(r"[A-Za-z_]\w*$|\d", w) else w for w in words
        )
        shapes[shape].append(f"{f.crate}: {f.name}")
row(2, "functions whose body is another's but for its names and numbers", (", ".join(it) for it in shapes.values() if len(it) > 1))

row(3, "while and loop", lines(r"^\s*(while|loop)\b[^\n]*"))
row(3, "of them with an index that is counted by hand", lines(r"^\s*while\b[^\n]*(?=(\n(?!    \}\n|\}\n)[^\n]*)*?\n\s+\w+ [+-]= 1;)"))

row(4, "fields written as name: name", lines(r"\b(\w+): \1\b(?=[,\n ]*[,}\n])"))
row(4, "From, TryFrom and Display", lines(r"^impl(<[^>]*>)? (From|TryFrom|Display|fmt::Display)\b[^\n]*"))
row(4, "derives of PartialEq", lines(r"^#\[derive\([^)]*PartialEq[^)]*\)\]"))

facts = collections.defaultdict(list)
for f in every:
    for kind, clause in f.clauses:
        if kind == "requires":
            for part in parts(clause):
                facts[part].append(f"{f.crate}::{f.name}")
row(5, "facts that three or more contracts ask for", (f"{len(v)}  {k}" for k, v in sorted(facts.items(), key=lambda it: -len(it[1])) if len(v) > 2))
row(5, "contracts that ask for them", (f for v in facts.values() if len(v) > 2 for f in v))
runs = collections.defaultdict(set)
for f in every:
    names = [it.strip() for it in re.split(r",(?![^\[(<]*[\])>])", f.parameters) if ":" in it]
    for n in range(3, len(names) + 1):
        for i in range(len(names) - n + 1):
            runs[tuple(names[i : i + n])].add(f"{f.crate}::{f.name}")
longest = [k for k, v in runs.items() if len(v) > 2 and not any(len(o) > len(k) and len(runs[o]) >= len(v) and " ".join(k) in " ".join(o) for o in runs)]
row(5, "runs of three or more parameters that three or more functions share", (f"{len(runs[k])}  {', '.join(k)}" for k in sorted(longest, key=lambda k: -len(runs[k]))))

row(6, "a slice or an array with a number of its elements beside it", (f"{f.crate}: {f.name}({f.parameters})" for f in every if re.search(r"\w+: &(mut )?\[[^\]]*\], (n|count|long|len|methods|many|blocks): usize", f.parameters)))
row(6, "arrays made to work in", lines(r"= \[0(u\d+|usize)?; \d+\]"))

row(7, "matches over eight numbers or more that choose a function", (f"{f.crate}: {f.name}" for f in every if len(re.findall(r"^\s*\d+ => ", f.body, re.M)) >= 8))

last = None
for (point, name), places in rows.items():
    print(f"{point}  {len(places):5}  {name}")
    if shows:
        for it in places:
            print(f"            {it}")
