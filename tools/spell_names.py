#!/usr/bin/env python3
"""Spells this repository's own definitions and lemmas in snake case: wordAt and word-at become word_at.

usage: spell_names.py FOLDER [--list]

FOLDER is the top of a checkout over which the kit's port.py has run, once. Types, modules, single letters of the rules (L, W, P, U, V)
and all names of Rust code stay. A name that a library has too stays where a file takes it from the library. Names that Rattle
makes for goals stay. A lemma that would fall together with its function gets _lem. --list prints the table and writes nothing.
"""

import collections
import os
import re
import sys

DECLARED = re.compile(r"(?m)^ *(?:(?:pub|abbrev|unfoldable|private) )*([^\s(){}.;,@\"«»:]+)(?: [^\n:=]*)? : ")
WORD = re.compile(r"[^\s(){}.;,@\"«»`]+")
USE = re.compile(r"\buse ([^\s;{]+?)\.?\{([^}]*)\}|\buse ([^\s;{]+)")
PROOF_OF = re.compile(r"/proofs/(.*/)?(Proof|Answers|Invariants)\.antt$")
# A path in front of braces; in the proof of a function also a name behind what Rattle makes.
PATHS = r"\buse [^\s;{]+(?:\.(?=\{)|(?=\s|$))"
KEPT = re.compile(PATHS)
KEPT_IN_PROOFS = re.compile(PATHS + r"|(?<![^\s(){};,])(?:c|w|l|g|goal|tie)(?:\.[^\s(){};,]+)+")
LIBRARIES = ("std", "core", "io", "os", "libc")

# A lemma that would have its function's name.
LEMMA = "_lem"
# A field beside a function of the same words.
FIELDS = {"next-line": "next_begins"}


def snake(name):
    name = re.sub(r"([a-z0-9₀-₉])([A-Z])(?=[a-z])", lambda m: m[1] + "_" + m[2].lower(), name)
    name = re.sub(r"([a-z0-9₀-₉])([A-Z])(?![a-z])", lambda m: m[1] + "_" + m[2], name)
    return name.replace("-", "_")


def files(top):
    for folder, folders, names in os.walk(top):
        folders[:] = sorted(d for d in folders if d not in ("out", "target", ".git"))
        for name in sorted(names):
            yield os.path.join(folder, name)


def read(path):
    with open(path, encoding="utf-8") as f:
        return f.read()


def bare(text):
    return re.sub(r"--[^\n]*", "", text)


def own_names(top):
    """Each name that is declared outside the proof of a function, with the folders it is declared in."""
    names = collections.defaultdict(set)
    for path in files(top):
        if path.endswith(".antt") and not PROOF_OF.search(path):
            for m in DECLARED.finditer(bare(read(path))):
                if m[1][0].islower():
                    names[m[1]].add("specs" if "/specs/" in path else "proofs")
    return names


def from_libraries(text):
    """The names that a file takes from a library."""
    found = set()
    for m in USE.finditer(text):
        path = m[1] or m[3]
        own = path.startswith("Rattle.") and path.split(".")[1] not in LIBRARIES
        if not own and m[2]:
            for item in m[2].split(","):
                found.add(item.split(" as ")[-1].strip())
    return found


def table_of(names):
    groups = collections.defaultdict(list)
    for n in sorted(names):
        groups[snake(n)].append(n)
    table = {}
    for new, olds in groups.items():
        if len(olds) > 1:
            keep = [o for o in olds if "specs" in names[o]]
            if len(keep) != 1:
                keep = [o for o in keep or olds if "-" not in o]
            assert len(keep) == 1, [(o, names[o]) for o in olds]
        for o in olds:
            table[o] = new if len(olds) == 1 or o in keep else new + LEMMA
    table.update((o, n) for o, n in FIELDS.items() if o in table)
    return {o: n for o, n in table.items() if o != n}


def turn(text, table, stay):
    def one(m):
        word = m[0]
        return word if word in stay else table.get(word, word)

    return WORD.sub(one, text)


def turn_code(text, table, stay, kept):
    parts, last = [], 0
    for m in kept.finditer(text):
        parts += [turn(text[last : m.start()], table, stay), m[0]]
        last = m.end()
    return "".join(parts) + turn(text[last:], table, stay)


def turn_antt(path, text, table, clashes):
    stay, kept = from_libraries(text), KEPT
    if PROOF_OF.search(path):
        kept = KEPT_IN_PROOFS
        stay |= {m[1] for m in DECLARED.finditer(bare(text))}
    words = set(WORD.findall(kept.sub(" ", bare(text))))
    for old in sorted(words & set(table) - stay):
        if table[old] in words and table.get(table[old], table[old]) == table[old]:
            clashes.append((path, old, table[old]))
    out = []
    for line in text.split("\n"):
        m = re.search(r"(?:^|\s)--(?:\s|$)", line)
        at = m.start() if m else len(line)
        out.append(turn_code(line[:at], table, stay, kept) + turn_prose(line[at:], table, stay))
    return "\n".join(out)


def turn_prose(text, table, stay=()):
    """In prose a name with a dash is turned in a code span alone."""
    camel = {o: n for o, n in table.items() if "-" not in o and "_" not in o}

    def one(m):
        return turn(m[0], table if m[0][0] == "`" else camel, stay)

    return re.sub(r"`[^`\n]*`|[^`]+", one, text)


def turn_rt(path, text, table, clashes):
    camel = {o: n for o, n in table.items() if "-" not in o and "_" not in o}
    stay = set()
    for m in re.finditer(r"ghost use ([^;]*);", text):
        stay |= from_libraries("use " + m[1])
    return turn(text, camel, stay)


def main():
    top = sys.argv[1]
    table = table_of(own_names(os.path.join(top, "crates")))
    if "--list" in sys.argv:
        for old, new in sorted(table.items()):
            print(old, new)
    clashes = []
    for path in files(top):
        if path.endswith((".antt", ".rt", ".edit", ".md")):
            text = read(path)
            if path.endswith(".antt"):
                new = turn_antt(path, text, table, clashes)
            elif path.endswith(".rt"):
                new = turn_rt(path, text, table, clashes)
            elif path.endswith(".edit"):
                new = turn(text, {o: n for o, n in table.items() if "_" not in o}, ())
            else:
                new = turn_prose(text, table)
            if new != text and "--list" not in sys.argv:
                with open(path, "w", encoding="utf-8") as f:
                    f.write(new)
    for it in clashes:
        print("clash:", *it)


main()
