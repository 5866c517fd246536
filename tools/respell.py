#!/usr/bin/env python3
"""Spells this repository's own definitions, lemmas and fields as the library spells its own.

usage: respell.py [FOLDER]

Words are in snake case, types and modules in camel case. A name is one that a text under specs/ declares, or a lemma file
under proofs/; what the check itself names (the goals in a function's folder) stays, and so do the functions of src/, the
exported names and every string. Run once, after the toolchain's own script, at the top of the repository.
"""

import pathlib
import re
import sys

NAME = r"[^\s(){}.;,:=@\"«»]+"
DECLARED = re.compile(rf"(?m)^ *(?:abbrev |unfoldable |pub |record |data )*({NAME})(?: \([^()\n]*\))*(?: \{{[^{{}}\n]*\}})* :(?=\s)")
TOKEN = re.compile(r"[^\s(){}.;,@\"«»]+")
GHOST = re.compile(r"^\s*(ghost\b|requires\b|ensures\b)")
# Names that a text binds inside a clause or a term, and which stand beside a declared one.
BOUND = {"foundIn", "openedWith", "sumStepOf"}
# Fields that would meet a definition which their own type names.
FIELDS = {
    "main-width": "main_fits",
    "lift-fits": "lift_within",
    "first-equation": "first_balance",
    "second-equation": "second_balance",
}


def snake(name):
    if name in FIELDS:
        return FIELDS[name]
    if name[0].isupper():
        head, *rest = name.split("-")
        return head + "".join(part[0].upper() + part[1:] for part in rest)
    spelled = re.sub(r"(?<=[a-z0-9])([A-Z])", lambda m: "_" + m.group(1).lower(), name)
    return spelled.replace("-", "_")


def is_lemma_file(path, crate):
    parts = path.relative_to(crate).parts
    return parts[0] == "specs" or (parts[0] == "proofs" and len(parts) == 2)


def own_names(crates):
    names, made = set(BOUND), set()
    for crate in crates:
        for path in sorted(crate.rglob("*.antt")):
            (names if is_lemma_file(path, crate) else made).update(DECLARED.findall(path.read_text()))
    return {n for n in names - made if snake(n) != n and re.match(r"[A-Za-z]", n)}


def respelled_antt(text, table):
    return TOKEN.sub(lambda m: table.get(m.group(0), m.group(0)), text)


def respelled_rt(text, table):
    lines = []
    for line in text.split("\n"):
        if GHOST.match(line):
            line = TOKEN.sub(lambda m: table.get(m.group(0), m.group(0)), line)
        lines.append(line)
    return "\n".join(lines)


def respelled_page(text, table):
    def word(m):
        name = m.group(0)
        return name if "-" in name and name[0].islower() else table.get(name, name)

    return re.sub(r"`[^`\n]+`", lambda m: re.sub(r"[\w-]+", word, m.group(0)), text)


def spelling(names):
    table = {n: snake(n) for n in names}
    # A lemma that would have its definition's name is marked as its lemma.
    for name in sorted(names):
        if "-" in name and any(table[other] == table[name] for other in names if other != name):
            table[name] += "_lem"
    return table


def main():
    top = pathlib.Path(sys.argv[1] if len(sys.argv) > 1 else ".")
    crates = sorted(p for p in (top / "crates").iterdir() if p.is_dir())
    table = spelling(own_names(crates))
    spelled = {}
    for path in sorted((top / "crates").rglob("*")):
        if path.suffix not in (".antt", ".rt") or "out" in path.parts:
            continue
        text = path.read_text()
        tokens = set(TOKEN.findall(text))
        for token in sorted(tokens & set(table)):
            if table[token] in tokens:
                print(f"meets: {path}: {token} and {table[token]}")
        turn = respelled_antt if path.suffix == ".antt" else respelled_rt
        spelled[path] = turn(text, table)
    for path in [top / "README.md", *sorted((top / "docs").glob("*.md"))]:
        if path.name != "PORT.md":
            spelled[path] = respelled_page(path.read_text(), table)
    changed = 0
    for path, text in spelled.items():
        if text != path.read_text():
            path.write_text(text)
            changed += 1
    print(f"respelled {len(table)} names in {changed} files")


if __name__ == "__main__":
    main()
