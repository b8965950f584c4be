#!/usr/bin/env python3
"""Writes what the program inspect must print for an input, from the rules of the service line alone.

    python3 tools/inspect_expected.py < crates/inspect/stdin > crates/inspect/stdout
"""
import collections
import struct
import sys

AREAS = {1: "Norrbotten", 2: "Middle Norrland", 3: "Southern"}
CONNECTIONS = "L1 T1 L2 T2 T12 T13 L110In L33In".split()
MONTHS = "January February March April May June July August September October November December".split()
FORMATS = {1: ">Hhh", 2: ">Hhh", 3: ">BHHH", 4: ">HBB", 5: ">", 6: ">B"}
KINDS = {1: "post", 2: "amend", 3: "choose", 4: "open", 5: "advise", 6: "invoice"}
REFUSALS = {11: "line length", 12: "line digit", 13: "frame kind", 14: "frame length", 15: "frame check"}


class Refused(Exception):
    pass


def read(text):
    if not 4 <= len(text) <= 64 or len(text) % 2:
        raise Refused(11, 0, "a line has 4 to 64 bytes, an even number")
    for column, c in enumerate(text, 1):
        if c not in b"0123456789ABCDEF":
            raise Refused(12, column, f"no digit in column {column}")
    frame = bytes.fromhex(text.decode())
    kind = frame[0]
    if kind not in FORMATS:
        raise Refused(13, kind, f"{kind:02X} is no kind of request")
    if len(frame) != struct.calcsize(FORMATS[kind]) + 2:
        raise Refused(14, len(frame), f"a frame of this kind has not {len(frame)} bytes")
    left = sum(frame) % 256
    if left:
        raise Refused(15, left, f"the bytes add up to {left} modulo 256, not to 0")
    return kind, struct.unpack(FORMATS[kind], frame[1:-1]), f"{frame[-1]:02X}"


def named(names, number):
    return f"{number} {names.get(number, 'unknown')}"


def fields(kind, f):
    if kind in (1, 2):
        return f"hour {f[0]:>5}   active {f[1]:>6} kWh   reactive {f[2]:>6} kVArh"
    if kind == 3:
        return f"choice {f[0]:>3}   power {f[1]:>5} kW   extra withdrawal {f[2]:>5} kVAr   extra input {f[3]:>5} kVAr"
    if kind == 4:
        return f"year {f[0]:>5}   area {named(AREAS, f[1])}   connection {named(dict(enumerate(CONNECTIONS)), f[2])}"
    if kind == 5:
        return "no fields"
    return f"number {named({**dict(enumerate(MONTHS, 1)), 13: 'the whole year'}, f[0])}"


def main():
    data = sys.stdin.buffer.read()
    lines = data.split(b"\n")
    if lines[-1] == b"":
        lines.pop()
    kinds, refusals = collections.Counter(), collections.Counter()
    print("values are drawn where positive, fed in where negative\n")
    print("  line   bytes  text                  check  kind     fields, or why it is refused")
    for n, text in enumerate(lines, 1):
        shown = "".join(chr(c) if 32 <= c < 127 else "." for c in text)
        column = f"{shown[:18]:<18}" + (".." if len(text) > 18 else "  ") + "  "
        try:
            kind, f, check = read(text)
            kinds[kind] += 1
            said = f"{check:<7}{KINDS[kind]:<9}{fields(kind, f)}"
        except Refused as r:
            number, place, why = r.args
            refusals[number] += 1
            layer = "1 line" if number < 13 else "2 frame"
            said = f"{'-':<7}{'refused':<9}layer {layer:<8}   number {number}   place {place:>3}   {why}"
        print(f"{n:>6}  {len(text):>6}  {column}{said}")
    print("\nrequests               lines")
    for kind, name in KINDS.items():
        print(f"{kind:02} {name:<15}{kinds[kind]:>10}")
    print("\nrefusals               lines")
    for number, name in REFUSALS.items():
        print(f"{number} {name:<15}{refusals[number]:>10}")
    print(f"\nall lines         {len(lines):>10}")


main()
