#!/usr/bin/env python3
"""Brings this repository's own definitions and lemmas to today's spelling: words in snake case, a dash
only where it joins two definitions (hex_of-hex_text), types and modules in camel case.

usage: tools/respell.py [--list]     at the top of the repository, once, after port.py

It takes the names that specs/ and the lemma files of proofs/ declare, and turns them as whole words in
.antt and .rt files, in must-fail edits, and in code spans of .md files. --list prints the table alone.
"""

import os
import re
import sys

# Two laws of one plain spelling, of which one joins a definition to a word.
EXCEPT = {"upTo-length": "up_to-length"}
# What port.py made of names that begin as a word of the library does.
MENDED = {"more_Room": "more_room", "Some-number": "some_number", "get_d_map": "get_or_map", "get_d_set": "get_or_set", "get_d_tail": "get_or_tail"}
# Names that are bound at once with a type, which declares no more than a name.
BOUND = {"bytesA": "bytes_a", "bytesB": "bytes_b"}
# What port.py respelled in .antt and .rt files: it turns no edit and no page.
PORTED = os.path.join(os.path.dirname(os.path.abspath(__file__)), "respelled.tsv")
WORD = r"[^\W\d][\w']*(?:-[\w']+)*"
BEFORE = r"(?<![\w'◌-])"
AFTER = r"(?![\w'◌]|-[\w'])"


def files(*ends):
    for top in ("crates", "docs", "tests", "cli", "include", "man", "."):
        for folder, dirs, names in os.walk(top):
            dirs[:] = sorted(d for d in dirs if d not in ("out", "target", ".git")) if top != "." else []
            for name in sorted(names):
                if name.endswith(ends):
                    yield os.path.join(folder, name)


def read(path):
    with open(path, encoding="utf-8") as f:
        return f.read()


def declared():
    """The names that specs/ and the lemma files of proofs/ declare."""
    found = set()
    for path in files(".antt"):
        if "/specs/" not in path and not re.search(r"/proofs/[^/]+\.antt$", path):
            continue
        for line in read(path).splitlines():
            line = re.sub(r"(?:^|\s)--.*", "", line)
            m = re.match(r"\s*(?:(?:abbrev|unfoldable|pub)\s+)*([^\s(){}:;,.|]+(?:\s+[^\s(){}:;,.|]+)*)\s+:\s", line)
            if m:
                found |= set(m.group(1).split())
            m = re.match(r"\s*(?:pub\s+)?(?:record|data)\s+([^\s(){}:;,.]+)", line)
            if m:
                found.add(m.group(1))
            found |= set(re.findall(r"\|\s*([^\s(){}:;,.|]+)\s*(?=[:({|])", line))
    return {n for n in found if re.fullmatch(WORD, n)}


def imported():
    """The names that are imported from elsewhere than this repository's crates."""
    own = {line.split(":")[0].split()[0] for line in read("crates.txt").splitlines() if ":" in line and line[0] != "#"}
    found = set()
    for path in files(".antt", ".rt"):
        for head, items in re.findall(r"use ([\w.+'-]+)\.\{([^}]*)\}", read(path)):
            parts = head.split(".")
            if parts[0] != "Rattle" or parts[1] not in own:
                found |= {i.split()[0] for i in items.split(",") if i.strip()}
    return found


def snake(word):
    if word[0].isupper():
        return word
    return re.sub(r"(?<=[a-z0-9])([A-Z])|(?<=[A-Z])([A-Z])(?=[a-z])", lambda m: "_" + m.group(), word).lower()


def spelled(name):
    """Dashes become underscores, but where a dash joins two definitions: a camel name on both sides."""
    parts = name.split("-")
    out = snake(parts[0])
    for before, part in zip(parts, parts[1:]):
        out += ("-" if snake(before) != before and snake(part) != part else "_") + snake(part)
    return out


def table():
    """Old and new names. A law that falls together with a definition gets '_lem'; the second table is of
    those that had the plain spelling before, which functions of src/ may have too."""
    own = declared()
    rows = {}
    for name in sorted(own - imported()):
        new = EXCEPT.get(name) or (name if name[0].isupper() else spelled(name))
        if new != name:
            rows[name] = new
    definitions = {new for old, new in rows.items() if "-" not in old}
    rows |= MENDED | BOUND
    plain = own - set(rows)
    for old, new in rows.items():
        if "-" in old and new in definitions | plain:
            rows[old] = new + "_lem"
    taken = {name: name + "_lem" for name in sorted(plain & definitions)}
    return rows, taken


def turner(rows):
    words = "|".join(re.escape(n) for n in sorted(rows, key=len, reverse=True))
    word = re.compile(BEFORE + "(" + words + ")" + AFTER)
    return lambda text: word.sub(lambda m: rows[m.group(1)], text)


def names_it(text, name):
    """Whether a file of definitions declares the name or imports it."""
    return re.search(rf"^\s*(?:(?:abbrev|unfoldable|pub)\s+)*{re.escape(name)}\s+:\s|use [^{{}}\n]*\{{[^}}]*\b{re.escape(name)}\b", text, re.M)


def main():
    rows, taken = table()
    if "--list" in sys.argv:
        for old, new in {**rows, **taken}.items():
            print(old, new)
        return
    turn = turner(rows)
    ported = turner(dict(line.split("\t") for line in read(PORTED).splitlines()))
    for path in files(".antt", ".rt", ".edit", ".md"):
        text = read(path)
        new = text
        if path.endswith(".edit"):
            new = ported(text)
        if path.endswith(".antt"):
            here = {old: to for old, to in taken.items() if names_it(text, old)}
            for old, to in here.items():
                new = re.sub(r"(?<![\w'◌.-])" + re.escape(old) + AFTER, to, new)
        if path.endswith(".md"):
            new = re.sub(r"`[^`\n]+`", lambda m: turn(ported(m.group())), new)
        else:
            new = re.sub(r'(b?"(?:\\.|[^"\\\n])*")|([^"]+|")', lambda m: m.group(1) or turn(m.group(2)), new)
        if new != text:
            with open(path, "w", encoding="utf-8") as f:
                f.write(new)


if __name__ == "__main__":
    main()
