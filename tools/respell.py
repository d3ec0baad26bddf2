#!/usr/bin/env python3
"""Spells the repository's own definitions, laws and fields of records as today's Rattle does: words in snake case.

Usage: tools/respell.py, at the top, right after port.py of the kit and once.

- A name that crates/*/specs and crates/*/proofs declare, and that begins with a small letter, gets an underscore for each capital: `inVolume` is
  `in_volume`, `same-nameOf` is `same-name_of`. Types and modules keep their camel case, and a dash that joins two names stays.
- Where that spelling is already a law's, because port.py gave that law an underscore for its dash, the law gets its dash back: `headOk` is `head_ok`, and
  the law is `head-ok`.
- A function that would be spelled as a field, a parameter or a variable of src/ gets `_of` behind it; a field of a record does not.

It turns the files of Rattle, the must-fail edits and the names in backticks of README.md and docs/, and prints how many names and files it turned.
"""

import os
import re
import sys

WORD = r'[^\s(){}.;,@"«»`\[\]]+'
DECLARED = re.compile(r"^( *)(?:(?:pub|abbrev|unfoldable|private|data|record) +)*(" + WORD + r")(?: \{[^{}]*\}| \([^()]*\))* :")
CLAUSE = re.compile(r"(?:requires|ensures)\*? *\w* *\{[^{}]*(?:\{[^{}]*\}[^{}]*)*\}|ghost use[^;]*;|//.*")


def files(folder, *ends):
    for at, folders, names in os.walk(folder):
        folders[:] = sorted(f for f in folders if f != "out")
        yield from (os.path.join(at, n) for n in sorted(names) if n.endswith(ends))


def read(path):
    with open(path, encoding="utf-8") as f:
        return f.read()


def snake(name):
    return re.sub(r"(?<=[a-z0-9])[A-Z]", lambda m: "_" + m[0].lower(), name)


def declared():
    """The names that the files declare, each with whether a field of a record and whether a function has it."""
    names = {}
    for path in files("crates", ".antt"):
        for line in read(path).split("\n"):
            m = DECLARED.match(line.split("--")[0])
            if m and not m[2][0].isupper():
                names.setdefault(m[2], set()).add("field" if m[1] else "function")
    return names


def of_source():
    """The fields, parameters and variables of src/."""
    names = set()
    for path in files("crates", ".rt"):
        text = CLAUSE.sub("", read(path))
        names.update(re.findall(r"\b([a-z]\w*)\s*:(?!:)", text))
        names.update(re.findall(r"\blet (?:mut )?([a-z]\w*)", text))
    return names


def main():
    names, source = declared(), of_source()
    table = {n: snake(n) for n in names if snake(n) != n}
    taken = set(table.values())
    table.update({n: n.replace("_", "-") for n in names if n in taken})
    both = {n for n in table if table[n] in source and "function" in names[n]}
    clash = [n for n in table if table[n] in names and table[n] not in table]
    if clash or len(set(table.values())) != len(table):
        sys.exit(f"respell: names fall together: {clash}")

    def turned(m, text, laws):
        word = m[0]
        if word not in table or "-" in table[word] and "-" not in word and not laws:
            return word
        if word in both:
            line = text[text.rfind("\n", 0, m.start()) + 1 : m.start()]
            field = text[m.start() - 1 : m.start()] == "." or text[m.end() : m.end() + 2] == " =" or re.fullmatch(r" +pub ", line)
            return table[word] + ("" if field else "_of")
        return table[word]

    count = 0
    for path in [*files("crates", ".antt", ".rt", ".edit"), "README.md", *files("docs", ".md")]:
        old = read(path)
        if path.endswith(".md"):
            new = re.sub(r"`[^`\n]+`", lambda span: re.sub(WORD, lambda m: turned(m, span[0], False), span[0]), old)
        else:
            new = re.sub(WORD, lambda m: turned(m, old, path.endswith(".antt")), old)
        if new != old:
            count += 1
            with open(path, "w", encoding="utf-8") as f:
                f.write(new)
    print(f"respell: {len(table)} names, {count} files")


main()
