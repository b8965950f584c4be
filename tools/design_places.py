#!/usr/bin/env python3
"""Lists the places of the design pass in crates/*/src, and counts them.

    python3 tools/design_places.py [POINT..]

It reads the sources from the folder it is run in. Tests are left out, but for loops. A line is a candidate:
docs/DESIGN-PASS.md says which of them are places.
"""
import collections
import glob
import re
import sys

NUMBERED = "number|choice|line|invoice|layer|area|connection|row|kind|month"


def sources(tests=False):
    for path in sorted(glob.glob("crates/*/src/*.rt")):
        if tests or not path.endswith(("tests.rt", "expected.rt")):
            with open(path, encoding="utf-8") as file:
                yield path, file.read()


def lines(pattern, tests=False):
    for path, text in sources(tests):
        for number, line in enumerate(text.split("\n"), 1):
            if re.search(pattern, line) and not line.strip().startswith("//"):
                yield f"{path}:{number}: {line.strip()}"


def functions():
    """Each function with its parameters, its clauses and its body."""
    for path, text in sources():
        for start in re.finditer(r"\bfn (\w+)[^({;]*?(?:<[^{;]*?>)?\(", text):
            depth, at = 1, start.end()
            while depth:
                depth += {"(": 1, ")": -1}.get(text[at], 0)
                at += 1
            given = re.split(r",(?![^<\[(]*[>\])])", text[start.end() : at - 1])
            given = [re.sub(r"\s+", " ", re.sub(r"^mut ", "", p.strip())) for p in given if ":" in p]
            head = re.search(r"\{\s*\n(?! *(requires|ensures))|;\n", text[at:])
            clauses = text[at : at + head.start()] if head else ""
            body = ""
            if head and text[at + head.start()] == "{":
                depth, end = 1, at + head.start() + 1
                while depth and end < len(text):
                    depth += {"{": 1, "}": -1}.get(text[end], 0)
                    end += 1
                body = text[at + head.start() + 1 : end - 1]
            yield f"{path}: {start[1]}", given, clauses, body


def point_1():
    yield from lines(r"\b\w+: bool\b")
    yield from lines(rf"\b({NUMBERED}): (u8|u16)\b")
    yield from lines(r"-> (u8|Option<u8>)")
    yield from lines(r"match \w+\.parse|enum \w+ \{")


def point_2():
    """Bodies that are the same once names, numbers and types are blotted out."""
    alike = collections.defaultdict(list)
    for name, _, _, body in functions():
        shape = re.sub(r"\b[A-Z]\w*(::\w+)*", "T", re.sub(r"//.*", "", body))
        shape = re.sub(r"\b[a-z_]\w*\b", lambda m: m[0] if m[0] in KEPT else "n", shape)
        shape = re.sub(r"\d[\d_]*|\"[^\"]*\"|b?'[^']*'", "0", re.sub(r"\s+", " ", shape)).strip()
        if len(shape) > 24:
            alike[shape].append(name)
    for names in alike.values():
        if len(names) > 1:
            yield "; ".join(names)


KEPT = {"if", "else", "for", "in", "while", "match", "return", "let", "mut", "as", "self", "true", "false"}


def point_3():
    yield from lines(r"^\s*(for \w+ in [^{]*\.\.|for \(\w+, .*enumerate\(\)|while |loop )", tests=True)


def point_4():
    yield from lines(r"fn (new|none|from|try_from|place|number|fmt|name|\w+_name|\w+_number|weekday_of)\b")


def point_5():
    facts, together = collections.defaultdict(list), collections.defaultdict(list)
    for name, given, clauses, _ in functions():
        for clause in re.findall(r"(?:requires|ensures)(?: \w+)? \{ (.*) \}", clauses):
            facts[clause].append(name)
        for i, first in enumerate(given):
            for second in given[i + 1 :]:
                together[first, second].append(name)
    for clause, names in facts.items():
        if len(names) > 2:
            yield f"{clause}: {'; '.join(names)}"
    for pair, names in together.items():
        if len(names) > 2:
            yield f"({', '.join(pair)}): {'; '.join(names)}"


def point_6():
    yield from lines(r"\[[\w:<>]+; [\w]+\]|Vec<|\b\w*(len|lent)\w*: (usize|u\d+),")


def point_7():
    yield from lines(r"match (self|\*self|peak|test|flow|self\.\w+)\b")
    yield from lines(r"\bdyn |\bfn\(|\[fn")


def point_8():
    for path in sorted(glob.glob("crates/*/proofs/**/Answers.antt", recursive=True)):
        with open(path, encoding="utf-8") as file:
            for line in file:
                found = re.match(r"pub ([\w-]+) : goal", line)
                if found:
                    yield f"{path}: {found[1]}"


if __name__ == "__main__":
    for point in sys.argv[1:] or "12345678":
        found = list(globals()[f"point_{point}"]())
        print(f"point {point}: {len(found)}")
        print("".join(f"  {place}\n" for place in found), end="")
