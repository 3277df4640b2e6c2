#!/usr/bin/env python3
"""Spells this repository's own definitions and lemmas as today's Rattle spells names.

usage: python3 tools/respell.py [--check]      at the top of the repository, once, right after port.py

Definitions, lemmas and fields that the .antt files declare go to snake case: readOf is read_of, stays-put is stays_put. A dash stays
between two parts that are both names (join-lt, of `join` and `<`); a plain word is added with `_`. Types and modules keep their names, and so
does all that .rt files declare. Where a new name would fall together with another, the old one gets `_lem`. --check only prints the table, which else goes to
tools/respelled.tsv.
"""

import collections
import os
import re
import sys

WORD = re.compile(r'[^\s(){}.;,@"«»`\[\]\\]+')
DECLARES = re.compile(
    r"^(\s*)(?:(?:abbrev|unfoldable|pub|data|record)\s+)*([^\s:(){}.;,]+)((?:\s+[({][^(){}]*[)}])*)\s+:(?=\s|$)"
)
# words of std that a lemma's name may have beside a dash
STD = set(
    "lt le zero suc length take drop append set sets get_or map add sub mul div mod pow xor shl shr nil cons true false min max".split()
)
# what Rattle makes: names of goals and of their parts
MADE = re.compile(
    r"(?:.*-(?:requires|spec)(?:-\d+)?|(?:add|sub|mul|div|mod|cast|shl|shr|rem|neg)-.*|returns(?:-.*)?|enum-told.*|enum-known.*"
    r"|(?:loop\d*|[a-z_]+)-(?:holds|less|again|init|smaller|preserved)|invariant-.*|decreases-.*|array-share.*|float-(?:from|to).*)$"
)


def texts(ends):
    for folder, dirs, files in os.walk("crates"):
        dirs[:] = sorted(d for d in dirs if d not in ("out", "target"))
        for f in sorted(files):
            if f.endswith(ends):
                yield os.path.join(folder, f)


def read(p):
    with open(p, encoding="utf-8") as f:
        return f.read()


def snake(part):
    if not part or not part[0].islower():
        return part
    return re.sub(r"(?<=[a-z0-9])([A-Z])", lambda m: "_" + m.group(1).lower(), part).lower()


def declared():
    """Each name that a file of specs/ or proofs/ declares, with the files; the fields of its records apart."""
    names, fields, of_specs, outer = collections.defaultdict(set), set(), set(), set()
    for p in texts(".antt"):
        kind = None
        text = read(p)
        for a in re.findall(r" as ([a-z]\w*[A-Z]\w*)(?=[,}\s])", "\n".join(x for x in text.splitlines() if x.lstrip().startswith(("use ", "pub use ")))):
            names[a].add(p)
        for line in text.splitlines():
            bare = line.split("--")[0] if line.lstrip().startswith("--") else line
            if not bare.strip() or bare.lstrip().startswith(("use ", "pub use ", "let ", "open ", "module ", "mod ", "pub mod ", "infix")):
                continue
            if re.match(r"^\s*(?:pub\s+)*record\s", bare):
                kind = "record"
            elif not bare.startswith(" "):
                kind = None
            m = DECLARES.match(bare)
            if not m or "λ" in m.group(0) or "=" in m.group(0):
                continue
            indent, name = m.group(1), m.group(2)
            if kind == "record" and indent:
                fields.add(name)
            names[name].add(p)
            if "/specs/" in p:
                of_specs.add(name)
                if not indent:
                    outer.add(name)
    return names, fields, of_specs, outer


def main():
    names, fields, of_specs, outer = declared()
    types = {n for n in names if n[:1].isupper()}
    # a lower-case word is a name where specs/ declare it
    words = {snake(n) for n in outer if "-" not in n} | STD | types

    def spelled(n):
        if n[:1].isupper() or not re.match(r"^[a-z][A-Za-z0-9'_-]*$", n):
            return n
        parts = [snake(x) for x in n.split("-")]
        out = parts[0]
        for a, b in zip(parts, parts[1:]):
            out += ("-" if a in words and b in words else "_") + b
        return out

    table = {}
    for n in sorted(names):
        if MADE.match(n) and not any("/specs/" in p for p in names[n]) and all(p.endswith("/Proof.antt") for p in names[n]):
            continue
        new = spelled(n)
        if new != n:
            table[n] = new
    # names that fall together: with one another, or with another word of any .antt file
    seen = collections.Counter()
    for p in texts(".antt"):
        t = re.sub(r"--.*", "", read(p))
        seen.update({m.group(0) for m in WORD.finditer(t) if t[m.start() - 1 : m.start()] != "." and t[m.end() : m.end() + 1] != "."})
    back = collections.defaultdict(list)
    for n, new in table.items():
        back[new].append(n)
    for new, olds in sorted(back.items()):
        taken = new in names or new in seen
        # a definition goes before a lemma, also before one that has the name already; a name of the source is no hindrance
        if new in names and new not in of_specs and any(n in of_specs for n in olds):
            table[new] = new + "_lem"
            print(f"together: {new} -> {table[new]} (its name is of {olds})")
            taken = False
        if new not in names and any(n in of_specs for n in olds):
            taken = False
        olds.sort(key=lambda n: (n not in of_specs, n))
        for i, n in enumerate(olds):
            if i or taken:
                table[n] = new + ("_lem" if n not in of_specs else "_def" if taken else "")
                print(f"together: {n} -> {table[n]} ({new} {'is a word' if taken else 'is of ' + olds[0]})")
    for new, count in collections.Counter(table.values()).items():
        if count > 1:
            print(f"twice: {new}: {[n for n in table if table[n] == new]}")
    if "--check" in sys.argv:
        for n in sorted(table):
            print(f"{n}\t{table[n]}")
        return
    with open(os.path.join(os.path.dirname(os.path.abspath(__file__)), "respelled.tsv"), "w", encoding="utf-8") as f:
        f.writelines(f"{n}\t{table[n]}\n" for n in sorted(table))
    for p in list(texts((".antt", ".rt"))):
        old = read(p)
        new = turn(old, table, fields, p.endswith(".rt"))
        if new != old:
            with open(p, "w", encoding="utf-8") as f:
                f.write(new)


def turn(text, table, fields, rust):
    """The text with each name of the table respelled. What stands after a dot is a part of a generated context, and stays, but for a
    field of one of our records and for what a module gives."""
    out, at = [], 0
    for m in WORD.finditer(text):
        w = m.group(0)
        new = table.get(w)
        if rust and "·of" in w:
            new = w.replace("·of", "_of")
        if new is None:
            continue
        s = m.start()
        if s and text[s - 1] == ".":
            before = re.search(r"([^\s(){};,@\"«»`\[\]\\]+)\.$", text[:s][-200:])
            head = before.group(1).split(".")[-1] if before else ""
            if not (w in fields or head[:1].isupper()):
                continue
        out.append(text[at:s])
        out.append(new)
        at = m.end()
    out.append(text[at:])
    return "".join(out)


main()
