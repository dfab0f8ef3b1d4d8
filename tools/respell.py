#!/usr/bin/env python3
"""Spells the definitions and lemmas of this repository in snake case.

usage: python3 tools/respell.py [--list]

Run once at the top, right after the kit's port.py, whose scripts turn only the names that the library has too. `firstFault` becomes
`first_fault` and `accepted-iff-it-has-a-reading` `accepted_iff_it_has_a_reading`. A dash stays beside the name of a definition, as in
`first_fault-append`. Functions of src/, types, constructors with a capital, strings and what a file imports from the kit keep their names.

--list prints the names and what they become, and where two would fall together, and writes nothing.
"""
import collections
import glob
import os
import re
import sys

NAME = r"[^\s(){}.;,@\"«»\[\]\\:]+"
TOKEN = re.compile(r"\"(?:[^\"\\\n]|\\.)*\"|[^\s(){}.;,@\"«»\[\]\\]+")
DECLARED = re.compile(rf"^\s*(?:(?:pub|abbrev|unfoldable|pattern|axiom) )*({NAME})(?: \{{[^}}]*\}})? :(?=\s)", re.M)
CONSTRUCTORS = re.compile(rf"^ +(?:pub )?({NAME}(?: {NAME})*) :(?=\s)", re.M)
FIELD = re.compile(rf"(?:record \{{|[;{{]) ?({NAME}) [:=] ")
BOUND = re.compile(rf"\blet ({NAME}) (?::|=)|λ ((?:{NAME} ?)+)\.|[({{]((?:{NAME} )+):")
USE = re.compile(r"^\s*(?:pub |ghost )*use ([^{;\n]+)\.\{([^}]*)\}", re.M)
WORDS = set("length take drop append map foldl set get_or reverse getD".split())

def own_files():
    return sorted(
        p for part in ("specs", "proofs") for p in glob.glob(f"crates/*/{part}/**/*.antt", recursive=True)
    )


def read(path):
    with open(path, encoding="utf-8", newline="") as f:
        return f.read()


def without_comments(text):
    return re.sub(r"(?m)(?<!\S)--(?: .*)?$", "", text)


def own_crates():
    return {os.path.basename(p) for p in glob.glob("crates/*")}


def foreign(text, crates):
    """The names that a file imports from the kit."""
    names = set()
    for module, items in USE.findall(text):
        parts = module.strip().split(".")
        if parts[0] == "Rattle" and parts[1] in crates:
            continue
        for it in items.split(","):
            names.add(it.strip().split(" as ")[-1].strip())
    return names


def snake(part):
    if part == "getD":
        return "get_or"
    return re.sub(r"(?<=[a-z0-9])([A-Z])", lambda m: "_" + m[1].lower(), part)


def to_turn(name):
    """Whether a name is one of words joined by dashes or by capitals: no type, no operator."""
    return name[0].islower() and ("-" in name or re.search(r"[a-z0-9][A-Z]", name)) and "◌" not in name


def joins(part, parts):
    return len(parts) == 2 and part in WORDS or re.search(r"[a-z0-9][A-Z]", part) is not None


def spelled(name):
    parts = name.split("-")
    out = snake(parts[0])
    for before, after in zip(parts, parts[1:]):
        words = before and after and before[-1].isalnum() and after[0].isalnum() and not after[0].isupper()
        dash = not words or joins(before, parts) or joins(after, parts)
        out += ("-" if dash else "_") + snake(after)
    return out


def gathered(crates):
    """The names to turn, and those that are taken: declared in the new spelling, or brought from the kit beside a name to turn."""
    names, taken = set(), set()
    for path in own_files():
        text = without_comments(read(path))
        found = set(DECLARED.findall(text))
        for group in CONSTRUCTORS.findall(text):
            found |= set(group.split())
        found |= set(FIELD.findall(text))
        if os.path.basename(path) == "Proof.antt":
            continue
        names |= found
        for groups in BOUND.findall(text):
            for group in groups:
                names |= set(group.split())
        taken |= {n for n in foreign(text, crates) if any(spelled(t) == n for t in set(TOKEN.findall(text)) if to_turn(t))}
    taken |= {n for n in names if not to_turn(n)}
    return {n for n in names if n and to_turn(n)}, taken


def new_names(crates):
    """A lemma that would have its definition's name ends in `_lem`."""
    names, taken = gathered(crates)
    taken = taken | {spelled(n) for n in names if "-" not in n}
    table = {}
    for n in sorted(names):
        new = spelled(n)
        if "-" in n and new in taken:
            new += "_lem"
        if new != n:
            table[n] = new
    return table


def turned(text, table, kept):
    def one(m):
        it = m[0]
        if it.startswith('"') or it in kept:
            return it
        return table.get(it, it)

    return TOKEN.sub(one, text)


def in_quotes(text, table, kept):
    """In running text only what stands between backticks is code."""
    return re.sub(r"`[^`\n]+`", lambda m: "`" + turned(m[0][1:-1], table, kept) + "`", text)


def turned_file(path, text, table, kept):
    if path.endswith(".md"):
        return in_quotes(text, table, kept)
    comment = r"(\s*)(//|--|#)(?!\S*\[)( .*)?" if not path.endswith(".antt") else r"(\s*)(--)( .*)?"
    out = []
    for line in text.split("\n"):
        if re.fullmatch(comment, line):
            whole = re.match(r"\s*-- Joined to ", line)
            out.append((turned if whole else in_quotes)(line, table, kept))
        else:
            out.append(turned(line, table, kept))
    return "\n".join(out)


def main(argv):
    crates = own_crates()
    table = new_names(crates)
    fall = collections.defaultdict(list)
    for a, b in table.items():
        fall[b].append(a)
    if argv == ["--list"]:
        seen = set()
        for path in own_files():
            seen |= set(TOKEN.findall(without_comments(read(path))))
        for a, b in table.items():
            print(f"{a}\t{b}")
        for b, many in sorted(fall.items()):
            if len(many) > 1:
                print("together:", b, many)
            elif b in seen:
                print("taken:", b, many)
        return 0
    paths = own_files() + sorted(glob.glob("crates/*/src/**/*.rt", recursive=True))
    paths += sorted(glob.glob("crates/*/must-fail/*.edit")) + sorted(glob.glob("docs/**/*.md", recursive=True)) + ["README.md"]
    for path in paths:
        text = read(path)
        new = turned_file(path, text, table, foreign(text, crates))
        if new != text:
            with open(path, "w", encoding="utf-8", newline="") as f:
                f.write(new)
    return 0


if __name__ == "__main__":
    sys.exit(main(sys.argv[1:]))
