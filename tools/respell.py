#!/usr/bin/env python3
"""Brings the repository's own definitions and lemmas to one spelling: words in snake case, types in upper camel case.

usage: python3 tools/respell.py        at the top of the repository, after the toolchain's port.py, once

A name is one that a signature in specs/ or proofs/ declares. What Rattle makes (goals, steps, fields of contexts), the names of src/
and those of the library stay. Where a lemma would fall together with a definition, or with another lemma, it gets `_lem`.
In comments, pages and edits only names in camel case are respelled, since there a dash may be one of English.
"""

import os
import re
import sys
from collections import defaultdict

WORD = r"[^\s(){}\[\].;,@\"«»\\]+"
SIGNATURE = re.compile(r"^\s*(?:(?:abbrev|unfoldable|pub)\s+)*(" + WORD + r")\s*(?:\{[^}]*\}\s*)*:\s+(\S.*)$")
CAMEL = re.compile(r"^[a-z][a-z0-9]*[A-Z]")
GENERATED = ("goal.", "given.", "need.", "g.")
# A word of an older library in names of ours, as today's library has it.
WORDS = {"getD": "get_or"}


def files(top, endings):
    for folder, dirs, names in os.walk(top):
        dirs[:] = sorted(d for d in dirs if d not in ("out", ".git"))
        for name in sorted(names):
            if name.endswith(endings):
                yield os.path.join(folder, name)


def read(path):
    with open(path, encoding="utf-8") as it:
        return it.read()


def declared():
    """Each declared name, and whether a file of specs/ declares it."""
    found = defaultdict(bool)
    for path in files("crates", (".antt",)):
        for line in read(path).split("\n"):
            if line.lstrip().startswith(("--", "use ", "open ", "let ", "|", "λ", "module ")):
                continue
            m = SIGNATURE.match(line)
            if m and not m.group(2).startswith(GENERATED):
                found[m.group(1)] |= os.sep + "specs" + os.sep in path
    return found


def snake(name):
    for old, new in WORDS.items():
        name = re.sub(r"(?<![A-Za-z])" + old + r"(?![a-z])", new, name)
    if CAMEL.match(name):
        name = re.sub(r"(?<=[a-z0-9])([A-Z])", lambda m: "_" + m.group(1).lower(), name)
    return name.replace("-", "_")


def is_definition(name):
    return bool(CAMEL.match(name)) and "-" not in name


def table():
    found = declared()
    own = {n for n in found if "-" in n or CAMEL.match(n)}
    new, taken = {}, {n: n for n in found if n not in own}
    # definitions first, so that it is the lemma that gives way
    for n in sorted(own, key=lambda n: (not is_definition(n), not found[n], n)):
        to = snake(n)
        if to in taken:
            other = taken[to]
            if not found[other] and (found[n] or is_definition(n)):
                new[other] = other_to = to + "_lem"
                taken[other_to] = other
            else:
                to += "_lem"
        if to in taken and taken[to] not in new:
            sys.exit(f"{n} and {taken[to]} fall together")
        new[n] = to
        taken[to] = n
    return new


def turned(text, new, comment, fields):
    """The text with the names respelled; behind a dot only where a record of ours has the name, in a comment only camel case."""
    out = []
    for line in text.split("\n"):
        at = line.find(comment) if comment else -1
        code, said = (line, "") if at < 0 else (line[:at], line[at:])

        def one(m):
            word = m.group(0)
            behind_dot = m.start() > 0 and code[m.start() - 1] == "."
            if word not in new or (behind_dot and word not in fields):
                return word
            return new[word]

        code = re.sub(WORD, one, code)
        said = re.sub(r"[A-Za-z][A-Za-z0-9]*", lambda m: new.get(m.group(0), m.group(0)) if CAMEL.match(m.group(0)) else m.group(0), said)
        out.append(code + said)
    return "\n".join(out)


def fields_of_records():
    found = set()
    for path in files("crates", (".antt",)):
        inside = False
        for line in read(path).split("\n"):
            if re.match(r"^(pub )?record ", line):
                inside = True
            elif line and not line[0].isspace():
                inside = False
            elif inside:
                m = SIGNATURE.match(line)
                if m:
                    found.add(m.group(1))
    return found


def write(path, text, old):
    if text != old:
        with open(path, "w", encoding="utf-8") as it:
            it.write(text)


def main():
    if not os.path.isdir("crates"):
        sys.exit("run it at the top of the repository")
    new, fields = table(), fields_of_records()
    for path in files("crates", (".antt",)):
        old = read(path)
        write(path, turned(old, new, "--", fields), old)
    for path in files("crates", (".rt",)):
        old = read(path)
        write(path, turned(old, new, "//", fields), old)
    pages = [p for p in ["README.md", *files("docs", (".md",))] if os.path.exists(p)]
    for path in [*files("crates", (".edit",)), *pages]:
        old = read(path)
        write(path, re.sub(r"[A-Za-z][A-Za-z0-9]*", lambda m: new.get(m.group(0), m.group(0)) if CAMEL.match(m.group(0)) else m.group(0), old), old)
    for a, b in sorted(new.items()):
        print(a, "->", b)


main()
