#!/usr/bin/env python3
"""Respells the repository's own definitions and lemmas: words joined by underscores in place of dashes.

usage: python3 tools/snake_names.py [--dry]    at the top of the repository

A name with a dash is respelled if a file of specs/ or proofs/ declares it itself (at the head of a line, as a field, or by
let), or if the code has the name with underscores (a function that is called, a clause's label). Names that the checker makes
(goals, invariants, what it says of a local) keep theirs. It says which names then have the spelling of one that was there.
"""
import os
import re
import sys

WORD = r"[A-Za-z_][\w']*(?:-[\w']+)*"
TOKEN = re.compile(r"(?<![\w'«»-])" + WORD + r"(?![\w'»-])")
DECLARED = re.compile(r"^\s*(?:(?:pub|abbrev|unfoldable|opaque|instance|auto)\s+)*(" + WORD + r")\s*(?:\{[^}]*\}\s*|\([^()]*\)\s*)*:\s*(.*)$")
LET = re.compile(r"\blet (" + WORD + r") ?[:=]")
SOURCE = re.compile(r"\b[a-z][a-z0-9]*(?:_[a-z0-9]+)+\b")
# a lemma whose respelling is a name of the library, and definitions whose respelling is a field of the struct that they speak of
OTHERWISE = {
    "bit-or": "bit_of_or",
    "summer-start": "summer_start_of",
    "summer-end": "summer_end_of",
    "first-weekday": "first_weekday_of",
    "easter-sunday": "easter_sunday_of",
    "days-off": "days_off_of",
}
# what the checker says of locals and of one call
AFTER_A_DOT = {"peak-load-is", "other-is", "best-is", "midnight-first"}
MADE = re.compile(r"^(goal|given|need)s?\.")


def files(root):
    for folder, dirs, names in os.walk(os.path.join(root, "crates")):
        dirs[:] = sorted(d for d in dirs if d != "out")
        for n in sorted(names):
            if n.endswith((".antt", ".rt")):
                yield os.path.join(folder, n)


def own_names(paths):
    """The names with a dash that the files declare, and those that the checker makes."""
    own, made = {}, set()
    for p in paths:
        if not p.endswith(".antt"):
            continue
        with open(p, encoding="utf-8") as f:
            for line in f:
                line = line.split("--", 1)[0] if line.lstrip().startswith("--") else line
                m = DECLARED.match(line)
                if m and "-" in m.group(1):
                    if MADE.match(m.group(2)):
                        made.add(m.group(1))
                    else:
                        own.setdefault(m.group(1), p)
                for n in LET.findall(line):
                    if "-" in n:
                        own.setdefault(n, p)
    return own, made


def respelled(found, turned):
    name = found.group(0)
    dotted = found.string[found.start() - 1 : found.start()] == "."
    if dotted and name in AFTER_A_DOT:
        return name
    if dotted and name in OTHERWISE:
        return name.replace("-", "_")
    return turned.get(name, name)


def respelled_line(line, turned):
    """A comment is prose: only what stands in backticks there is a name. A string keeps its text."""
    if line.lstrip().startswith(("//", "-- ")):
        return re.sub(r"`[^`]*`", lambda m: TOKEN.sub(lambda n: respelled(n, turned), m.group(0)), line)
    parts = re.split(r'("(?:[^"\\]|\\.)*")', line)
    return "".join(it if n % 2 else TOKEN.sub(lambda m: respelled(m, turned), it) for n, it in enumerate(parts))


def main(argv):
    paths = list(files("."))
    own, made = own_names(paths)
    texts = {}
    used, source = set(), set()
    for p in paths:
        with open(p, encoding="utf-8") as f:
            texts[p] = f.read()
        used |= set(TOKEN.findall(texts[p]))
        if p.endswith(".rt"):
            source |= set(SOURCE.findall(texts[p]))
    for n in used:
        if "-" in n and n.replace("-", "_") in source:
            own.setdefault(n, "src")
    turned = {}
    for n, p in sorted(own.items()):
        to = OTHERWISE.get(n, n.replace("-", "_"))
        if n in made:
            print(f"made: {n} ({p}): left")
            continue
        if to in used and p != "src":
            print(f"together: {n} and {to} ({p})")
        turned[n] = to
    print(f"{len(turned)} names")
    if "--dry" in argv:
        for n in sorted(turned):
            print("  " + n)
        return 0
    changed = 0
    for p, text in texts.items():
        new = "\n".join(respelled_line(line, turned) for line in text.split("\n"))
        if new != text:
            changed += 1
            with open(p, "w", encoding="utf-8") as f:
                f.write(new)
    print(f"{changed} files")
    return 0


if __name__ == "__main__":
    raise SystemExit(main(sys.argv[1:]))
