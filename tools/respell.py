#!/usr/bin/env python3
"""Respells this repository's own definitions and lemmas: words in snake case, types and facts in camel case.

usage: respell.py [FOLDER]     FOLDER holds crates/; the present folder if left out

A name is this repository's own where an .antt file declares it, as a definition, a lemma, a constructor or a field of a
record. Only names with a dash change: `row-fits` to `row_fits`, `Holds-row` to `HoldsRow`. What Rattle names itself
stays: a goal, and the first name behind `goal.`, `c.`, `w.`, `l.` or `g.` in a function's answers and invariants.
Comments, strings and names of Rust stay. It was run once, right after the kit's own script, and stops, before it
writes, at a name that would meet another name of the same file.
"""
import os
import re
import sys

TOKEN = re.compile(r'(?<![^\s(){}.;,@"«»])[^\s(){}.;,@"«»]+')
DECLARED = re.compile(r"(?m)^ *(?:(?:abbrev|unfoldable|pub|data|record) )*([^\s:(){}.;,@]+)(?: \{[^{}\n]*\}| \([^()\n]*\))* :(?= |$)")
# A parameter of a definition that has a dash, and the name that a file gives a module.
BOUND = re.compile(r"(?m)^[a-z_]+ (?:\w+ )*(\w+-[\w-]+) =$|\bas (\w+-[\w-]+)$")
# A parameter, a field or a ghost member: of Rust's names, what a clause can see.
SEEN = re.compile(r"\b(\w+):(?!:)")
SKIPPED = re.compile(r'"(?:[^"\\\n]|\\.)*"|//[^\n]*')
COMMENT = re.compile(r"--[^\n]*")
MADE = {"goal", "c", "w", "l", "g"}


def texts(root):
    for folder, dirs, files in os.walk(os.path.join(root, "crates")):
        dirs[:] = sorted(d for d in dirs if d != "out")
        for name in sorted(files):
            if name.endswith((".rt", ".antt")):
                yield os.path.join(folder, name)


def answers(path):
    return os.path.basename(path) in ("Answers.antt", "Invariants.antt")


def declared(path, text):
    for found in DECLARED.finditer(text):
        line = text[found.start() : text.find("\n", found.end())]
        if not (answers(path) and "goal." in line):
            yield found[1]
    for found in BOUND.finditer(text):
        yield found[1] or found[2]


def respelled(name):
    if name[0].isupper():
        return "".join(part[0].upper() + part[1:] for part in name.split("-"))
    return name.replace("-", "_")


def is_made(text, start):
    """Whether the name at start stands right behind a head whose names Rattle makes."""
    if start == 0 or text[start - 1] != ".":
        return False
    head = re.search(r'[^\s(){}.;,@"«»]+$', text[: start - 1])
    before = text[head.start() - 1] if head and head.start() else " "
    return bool(head) and head[0] in MADE and before != "."


def kept(path, text):
    """The spans that stay as they are: comments, and in Rust strings."""
    pattern = COMMENT if path.endswith(".antt") else SKIPPED
    return [found.span() for found in pattern.finditer(text)]


def turned(path, text, names):
    spans = kept(path, text)
    used, changed = set(), set()

    def word(found):
        at = found.start()
        if any(a <= at < b for a, b in spans):
            return found[0]
        if found[0] in names and not (answers(path) and is_made(text, at)):
            changed.add(found[0])
            return names[found[0]]
        if at == 0 or text[at - 1] != ".":
            used.add(found[0])
        return found[0]

    new = TOKEN.sub(word, text)
    if path.endswith(".rt"):
        used = set(SEEN.findall(text))
    return new, used, changed


def main():
    root = sys.argv[1] if len(sys.argv) > 1 else "."
    old = {path: open(path, encoding="utf-8").read() for path in texts(root)}
    own = {n for path, text in old.items() if path.endswith(".antt") for n in declared(path, text)}
    names = {n: respelled(n) for n in own if re.search(r"\w-\w", n)}
    together = sorted(n for n in names if list(names.values()).count(names[n]) > 1)
    new = {}
    for path, text in old.items():
        new[path], used, changed = turned(path, text, names)
        together += [f"{path}: {n}" for n in sorted(changed) if names[n] in used]
    if together:
        print("these names would meet another:", *together, sep="\n  ")
        raise SystemExit(1)
    for path, text in new.items():
        if text != old[path]:
            with open(path, "w", encoding="utf-8") as f:
                f.write(text)
    print(f"{len(names)} names, {sum(new[p] != old[p] for p in new)} files")


main()
