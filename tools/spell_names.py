#!/usr/bin/env python3
"""Brings the names of this repository's definitions and lemmas to today's spelling: words in snake case, types in upper camel case.

usage: tools/spell_names.py [--list]     at the top of the repository, once, on what port.py made

Names are taken from specs/ and proofs/ (files Proof.antt aside, whose names come from the prover); each is respelled wherever it stands
as a word of its own, in specs/, proofs/, clauses and must-fail edits. Where a lemma's new name would be that of a definition it gets
`_lem`. A name that a file takes from the toolchain's library is left in that file. Functions of src/, constructors, types and strings
keep their names. --list prints what it would do, and what falls together, and changes nothing.
"""

import os
import re
import sys

SIGN = re.compile(
    r"^\s*(?:unfoldable\s+)?(?:abbrev\s+)?(?:pub\s+)?(?:(data|record)\s+)?([^\s(){}\[\],;.:λ\"]+)(?:\s+[({][^=]*)?\s+:\s+(.*)$")
TOKEN = re.compile(r"[^\s(){}\[\],;.:λ→⌜⌝∥\"`]+")
USE = re.compile(r"(?:ghost )?use ([^\s{;]+)\.\{([^}]*)\}")
# Facts that were spelled as functions.
FACTS = {"hexBehind": "HexBehind", "answersTo": "AnswersTo", "Done-at": "DoneAt", "Left-at": "LeftAt"}


def files(top):
    for folder, dirs, names in os.walk(os.path.join(top, "crates")):
        dirs[:] = sorted(d for d in dirs if d not in ("out", ".git"))
        for name in sorted(names):
            if name.endswith((".antt", ".rt", ".edit")):
                yield os.path.join(folder, name)


def read(path):
    with open(path, encoding="utf-8") as f:
        return f.read()


def snake(name):
    name = name.replace("\u2032", "'")
    name = re.sub(r"([a-z0-9])([A-Z])", lambda m: m.group(1) + "_" + m.group(2).lower(), name)
    return name.replace("-", "_")


def defined(texts):
    names = set()
    for path, text in texts.items():
        if path.endswith(".antt") and not path.endswith("/Proof.antt"):
            for line in text.split("\n"):
                m = SIGN.match(line)
                if m and "." not in m.group(2):
                    names.add(m.group(2))
    return names


def turned(names):
    """Each name whose spelling changes, with its new one."""
    new = {}
    for n in sorted(names):
        if n in FACTS:
            new[n] = FACTS[n]
        elif re.match(r"[a-z]", n) and (re.search(r"[a-z0-9][A-Z]", n) or "-" in n or "\u2032" in n):
            new[n] = snake(n)
    # A definition (camel case) has the plain name; a lemma beside it (with a dash, or turned by port.py already) gets _lem.
    for n in sorted(n for n in new if "-" not in n):
        if new[n] in names and new[n] not in new:
            new[new[n]] = new[n] + "_lem"
    taken = {n for n in names if n not in new}
    for n in sorted(new, key=lambda n: ("-" in n, n)):
        while new[n] in taken:
            new[n] += "_lem"
        taken.add(new[n])
    return new


def of_library(text, crates):
    """The names that a file takes from elsewhere than this repository's crates."""
    found = set()
    for m in USE.finditer(text):
        parts = m.group(1).split(".")
        if parts[0] != "Rattle" or parts[1] not in crates:
            found |= {w.strip().split(" as ")[-1].strip() for w in m.group(2).split(",")}
        elif len(parts) > 3 and (parts[2] == "proofs" and parts[-1] in ("Tie", "Statement", "Reads", "Lts")):
            found |= {w.strip() for w in m.group(2).split(",")}
    return found


def respell(path, text, new, crates, said):
    kept = of_library(text, crates)
    words = set(TOKEN.findall(text))
    if path.endswith(".rt"):
        kept = kept | {n for n in new if re.fullmatch(r"[a-z_0-9]+", n)}  # a function of that name
    here = {n: k for n, k in new.items() if n in words and n not in kept}
    for n, k in here.items():
        if k in words:
            said.append(f"{path}: {n} and {k} fall together")
    out = []
    for line in text.split("\n"):
        code, mark, comment = line, "", ""
        if path.endswith(".antt") and "-- " in line:
            at = line.index("-- ")
            code, mark, comment = line[:at], "", line[at:]
        elif path.endswith(".rt") and "//" in line:
            at = line.index("//")
            code, mark, comment = line[:at], "", line[at:]
        code = TOKEN.sub(lambda m: here.get(m.group(0), m.group(0)), code)
        # in a comment only what can be no English
        comment = TOKEN.sub(lambda m: here.get(m.group(0), m.group(0)) if re.search(r"[a-z][A-Z]", m.group(0)) else m.group(0), comment)
        out.append(code + mark + comment)
    return "\n".join(out)


def main():
    top = os.getcwd()
    crates = set(os.listdir(os.path.join(top, "crates")))
    texts = {p: read(p) for p in files(top)}
    new = turned(defined(texts))
    said = []
    for path, text in texts.items():
        to = respell(path, text, new, crates, said)
        if "--list" not in sys.argv and to != text:
            with open(path, "w", encoding="utf-8") as f:
                f.write(to)
    for n, k in sorted(new.items()):
        if "--list" in sys.argv:
            print(n, k)
    print("\n".join(said))
    print(f"{len(new)} names respelled, {len(said)} fall together", file=sys.stderr)


main()
