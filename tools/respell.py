#!/usr/bin/env python3
"""Brings the repository's own names in antt to today's spelling.

A definition, lemma, field or variable whose parts were joined by dashes is in snake case (`is-arc` -> `is_arc`), and one
that begins with a capital, a type or a fact, in camel case (`Keeps-marks` -> `KeepsMarks`). Names of the kit's libraries
and names that Rattle makes keep their spelling, and so does all of Rust: functions, exported names, strings.

usage: respell.py [ROOT]     rewrites crates/, and names in backticks of README.md, docs/ and the comments
       respell.py --list [ROOT]   prints each name with its new spelling, and what falls together
"""

import glob
import os
import re
import sys

TOKEN = re.compile(r"--[^\n]*|//[^\n]*|\"(?:[^\"\\\n]|\\.)*\"|«[^»]*»|[^\s(){}.;,@\"«»\[\]\\:]+|:")
DECLARED = (
    re.compile(r"(?m)^\s*(?:abbrev |unfoldable )?(?:pub )?(?:abbrev |unfoldable )?(?:record |data |enum )?([^\s:(){}]+)(?: :| \()"),
    re.compile(r"[({]([^:(){}]+?) : "),
    re.compile(r"let (\S+)"),
    re.compile(r"λ ([^.]*)\."),
)
USE = re.compile(r"(?m)^(?:pub )?(?:ghost )?use (\S+?)\.\{([^}]*)\}")
KIT = ("Rattle.std", "Rattle.core", "Rattle.io", "Rattle.libc", "Rattle.os")


def read(path):
    with open(path, encoding="utf-8") as f:
        return f.read()


def is_proof(path):
    return os.path.basename(path) in ("Proof.antt", "Answers.antt", "Invariants.antt")


def antt(root):
    for part in ("specs", "proofs"):
        yield from sorted(glob.glob(f"{root}/crates/*/{part}/**/*.antt", recursive=True))


def respelled(name):
    parts = name.split("-")
    if name[0].isupper():
        return parts[0] + "".join(p[:1].upper() + p[1:] for p in parts[1:])
    return "_".join(parts)


def names(root):
    """Each dashed name that the repository declares, with its new spelling."""
    of_kit, declared, goals = set(), set(), set()
    for path in antt(root):
        text = read(path)
        for m in USE.finditer(text):
            if not m[1].startswith("Rattle.") or m[1].startswith(KIT):
                of_kit.update(x.strip().split(" as ")[0] for x in m[2].split(","))
        if "/+" in path:
            continue
        body = re.sub(r"(?m)^(?:pub )?use .*$|--.*$", "", text)
        if is_proof(path):
            goals.update(re.findall(r"(?m)^(?:abbrev )?(?:pub )?(\S+) : (?:\{M : Type 1\} → statement|tie\.|\S*\.InvT|goal\.)", body))
            lines = re.findall(r"(?m)^(?:abbrev )?(?:pub )?(\S+) : (?!tie\.|\{M : Type 1\} → statement)", body)
            declared.update(lines)
            continue
        for p in DECLARED:
            for m in p.finditer(body):
                declared.update(re.findall(r"[^\s(){}:]+", m[1]))
    own = {d for d in declared - of_kit if re.fullmatch(r"[A-Za-zμ][A-Za-z0-9_']*(-[A-Za-z0-9_']+)+", d)}
    return {d: respelled(d) for d in own if d not in goals}


def turned(text, table):
    def one(m):
        word = m[0]
        if word.startswith(("--", "//")):
            return re.sub(r"`([^`\s]+)`", lambda q: "`" + ".".join(table.get(p, p) for p in q[1].split(".")) + "`", word)
        if word[0] in "\"«":
            return word
        return table.get(word, word)

    return TOKEN.sub(one, text)


def in_pages(text, table):
    return re.sub(r"`([^`\n]+)`", lambda q: "`" + re.sub(r"[A-Za-z][\w'-]*", lambda w: table.get(w[0], w[0]), q[1]) + "`", text)


def together(root, table):
    """New names that already stand in some file beside an old one, or that two old names share."""
    by_new = {}
    for old, new in table.items():
        by_new.setdefault(new, []).append(old)
    for new, olds in sorted(by_new.items()):
        if len(olds) > 1:
            yield f"{new}: {' '.join(sorted(olds))}"
    sources = [*antt(root), *sorted(glob.glob(f"{root}/crates/*/src/**/*.rt", recursive=True))]
    for path in sources:
        words = set(TOKEN.findall(re.sub(r"(?m)--.*$|//.*$", "", read(path))))
        for old in sorted(words & set(table)):
            if table[old] in words:
                yield f"{path[len(root) + 1:]}: {old} beside {table[old]}"


def main(argv):
    listing = "--list" in argv
    root = next((a for a in argv if not a.startswith("-")), ".")
    table = names(root)
    if listing:
        for line in together(root, table):
            print("together", line)
        for old in sorted(table):
            print(old, table[old])
        return
    for path in [*antt(root), *glob.glob(f"{root}/crates/*/src/**/*.rt", recursive=True)]:
        text = read(path)
        new = turned(text, table)
        if new != text:
            with open(path, "w", encoding="utf-8") as f:
                f.write(new)
    for path in [f"{root}/README.md", *glob.glob(f"{root}/docs/*.md"), *glob.glob(f"{root}/docs/landings/*.md")]:
        text = read(path)
        new = in_pages(text, table)
        if new != text:
            with open(path, "w", encoding="utf-8") as f:
                f.write(new)


if __name__ == "__main__":
    main(sys.argv[1:])
