#!/usr/bin/env python3
"""Writes what the program storage_check must print for a script, from the rules of the book alone.

    python3 tools/storage_expected.py < crates/storage_check/stdin > crates/storage_check/stdout
"""
import datetime
import re
import sys

RECORDS, WORDS = 8800, 140
NEEDED_RECORDS, NEEDED_WORDS = 8784, 138
LONGEST, MOST = 200, 24
AREAS = {1: "Norrbotten", 2: "Middle Norrland", 3: "Southern"}
CONNECTIONS = dict(enumerate("L1 T1 L2 T2 T12 T13 L110In L33In".split()))
OPEN_CHOICES = ["026", "126", "267", "368", "346", "1256", "0", "1"]
MONTHS = "January February March April May June July August September October November December".split()
INVOICES = {**dict(enumerate(MONTHS, 1)), 13: "the whole year"}
BYTE, WIDE, SIGNED = (0, 255), (0, 65535), (-32768, 32767)
CALLS = {
    "open": [("YEAR", WIDE), ("AREA", BYTE), ("CONNECTION", BYTE)],
    "post": [("HOUR", WIDE), ("ACTIVE", SIGNED), ("REACTIVE", SIGNED)],
    "amend": [("HOUR", WIDE), ("ACTIVE", SIGNED), ("REACTIVE", SIGNED)],
    "choose": [("CHOICE", BYTE), ("KW", WIDE), ("EW", WIDE), ("EI", WIDE)],
    "missing": [("NUMBER", BYTE)],
    "lend": [("RECORDS", WIDE), ("WORDS", WIDE)],
}


class Refused(Exception):
    """A number, a place and the reason in words."""


class PassedOver(Exception):
    pass


def named(names, number):
    return f"{number} {names.get(number, 'unknown')}"


def clock_months(year):
    """The month by the wall clock of each hour of a year of standard time."""
    def change(month):
        day = datetime.datetime(year, month, 31)
        return day - datetime.timedelta(days=(day.weekday() + 1) % 7) + datetime.timedelta(hours=2)
    start, end, hour = change(3), change(10), datetime.timedelta(hours=1)
    months, now = [], datetime.datetime(year, 1, 1)
    while now.year == year:
        months.append((now + hour if start <= now < end else now).month)
        now += hour
    return months


class Storage:
    """A book as the set of its present hours; a touched word is made anew from the set."""

    def __init__(self):
        self.opening = None
        self.records = [(n + 1, -n - 1) for n in range(RECORDS)]
        self.words = [2**64 - 1] * WORDS
        self.lent = RECORDS, WORDS

    def test_memory(self):
        if self.lent[0] < NEEDED_RECORDS:
            raise Refused(20, 0, "too few hour records are lent")
        if self.lent[1] < NEEDED_WORDS:
            raise Refused(20, 1, "too few presence words are lent")

    def test_opened(self):
        if self.opening is None:
            raise Refused(24, 0, "the book was never opened")

    def open(self, year, area, connection):
        self.test_memory()
        if not 2002 <= year <= 2299:
            raise Refused(21, year, f"year {year} is not 2002 to 2299")
        if area not in AREAS:
            raise Refused(22, area, f"area {area} is not 1 to 3")
        if connection not in CONNECTIONS:
            raise Refused(23, connection, f"connection {connection} is above 7")
        self.opening = connection, clock_months(year), set()
        self.words[:NEEDED_WORDS] = [0] * NEEDED_WORDS

    def test_place(self, hour, value):
        self.test_memory()
        self.test_opened()
        if hour >= len(self.opening[1]):
            raise Refused(25, hour, f"hour {hour} is past the year's last")
        if max(abs(v) for v in value) > 32000:
            raise Refused(26, hour, f"a value beyond 32000 either way for hour {hour}")

    def post(self, hour, *value):
        self.test_place(hour, value)
        present = self.opening[2]
        if hour in present:
            raise Refused(27, hour, f"hour {hour} has a value")
        present.add(hour)
        self.records[hour] = value
        first = hour - hour % 64
        self.words[first // 64] = sum(2 ** (h - first) for h in present if first <= h < first + 64)

    def amend(self, hour, *value):
        self.test_place(hour, value)
        if hour not in self.opening[2]:
            raise Refused(28, hour, f"hour {hour} has no value")
        self.records[hour] = value

    def choose(self, choice, power, withdrawal, input_):
        self.test_opened()
        connection = self.opening[0]
        if str(choice) not in list(OPEN_CHOICES[connection]):
            raise Refused(29, choice, f"choice {choice} is not open to the connection")
        top = 32000 if connection < 6 else 20000
        asked = [("power", power, top), ("extra reactive withdrawal", withdrawal, 32000), ("extra reactive input", input_, 32000)]
        for place, (name, quantity, limit) in enumerate(asked, 1):
            if quantity > limit:
                raise Refused(30, place, f"{name} over its limit")

    def missing(self, number):
        self.test_memory()
        self.test_opened()
        if not 1 <= number <= 13:
            raise Refused(31, number, f"number {number} is not 1 to 13")
        _, months, present = self.opening
        return sum(number in (13, month) and hour not in present for hour, month in enumerate(months))


def shown(text):
    data = text.encode()
    return "`" + "".join(chr(c) if 32 <= c < 127 else "." for c in data[:MOST]) + (".." if len(data) > MOST else "") + "`"


def number(name, limits, text):
    low, high = limits
    if not re.fullmatch("[+-]?[0-9]+" if low < 0 else "[+]?[0-9]+", text) or not low <= int(text) <= high:
        raise PassedOver(f"{name} is {shown(text)}, not {low} to {high}")
    return int(text)


def parse(line):
    if len(line) > LONGEST:
        raise PassedOver(f"longer than {LONGEST} bytes")
    try:
        words = [w for w in re.split("[ \t\r\f]+", line.decode()) if w]
    except UnicodeDecodeError:
        raise PassedOver("bytes that are no text")
    if not words:
        return None
    name, *fields = words
    if name not in CALLS:
        raise PassedOver(f"{shown(name)} is none of {', '.join(CALLS)}")
    form = CALLS[name]
    if len(fields) != len(form):
        raise PassedOver("not of the form " + " ".join([name] + [n for n, _ in form]))
    return name, [number(n, limits, text) for (n, limits), text in zip(form, fields)]


def in_words(name, f):
    if name == "open":
        return f"year {f[0]}   area {named(AREAS, f[1])}   connection {named(CONNECTIONS, f[2])}"
    if name in ("post", "amend"):
        return f"hour {f[0]}   active {f[1]} kWh   reactive {f[2]} kVArh"
    if name == "choose":
        return f"choice {f[0]}   power {f[1]} kW   extra withdrawal {f[2]} kVAr   extra input {f[3]} kVAr"
    if name == "missing":
        return f"number {named(INVOICES, f[0])}"
    return f"records {f[0]}   words {f[1]}"


def print_word(label, i, before, after):
    if i < WORDS:
        print(f"{label}before  {before[i]:016X}   after  {after[i]:016X}")
    else:
        print(f"{label}past the memory")


def print_missing(storage, asked):
    try:
        print(f"  missing {storage.missing(asked):>5}          in {named(INVOICES, asked)}")
    except Refused as r:
        print(f"  missing     -          refused by number {r.args[0]}")


def print_hour(storage, hour, records, words):
    label = f"  record  {hour:>5}          "
    if hour < RECORDS:
        (a, r), (b, s) = records[hour], storage.records[hour]
        print(f"{label}before  {a:>7} {r:>8}   after  {b:>7} {s:>8}")
    else:
        print(f"{label}past the memory")
    print_word(f"  word    {hour // 64:>5}  bit {hour % 64:>2}  ", hour // 64, words, storage.words)
    if storage.opening and hour < len(storage.opening[1]):
        print_missing(storage, storage.opening[1][hour])
    else:
        print("  missing     -          the hour is in no month of an opened year")


def perform(storage, name, f, touched):
    """Prints a call's block; answers whether the call is accepted."""
    records, words = list(storage.records), list(storage.words)
    mine = set(), set()
    try:
        answer = getattr(storage, name)(*f)
        print("  accepted" + (f"  hours without a value: {answer}" if name == "missing" else ""))
        if name in ("post", "amend"):
            mine[0].add(f[0])
        if name == "post":
            mine[1].add(f[0] // 64)
        if name == "open":
            mine[1].update(range(NEEDED_WORDS))
        accepted = True
    except Refused as r:
        print("  refused   layer 3 book   number {}   place {:>5}   {}".format(*r.args))
        accepted = False
    if name in ("post", "amend"):
        print_hour(storage, f[0], records, words)
    if name == "open":
        for i in (0, 137, 138):
            print_word(f"  word    {i:>5}          ", i, words, storage.words)
        print(f"  zero words             before  {words.count(0):>16}   after  {storage.words.count(0):>16}")
        print_missing(storage, 13)
    print(f"  others  {RECORDS - len(mine[0]):>5} records and {WORDS - len(mine[1]):>3} words compared, all as they were")
    touched[0].update(mine[0])
    touched[1].update(mine[1])
    return accepted


def main():
    lines = sys.stdin.buffer.read().split(b"\n")
    if lines[-1] == b"":
        lines.pop()
    storage, touched = Storage(), (set(), set())
    accepted = refused = passed_over = 0
    print(f"memory      {RECORDS} records and {WORDS} presence words; a book needs {NEEDED_RECORDS} and {NEEDED_WORDS}")
    print("at first    record n is n + 1 active, -n - 1 reactive; every bit of every word is one")
    for n, line in enumerate(lines, 1):
        if line.startswith(b"#"):
            continue
        try:
            call = parse(line)
        except PassedOver as p:
            print(f"\nline {n:<5}  passed over: {p}")
            passed_over += 1
            continue
        if call is None:
            continue
        name, f = call
        print(f"\nline {n:<5}  {name:<9}{in_words(name, f)}")
        if name != "lend":
            is_accepted = perform(storage, name, f, touched)
            accepted, refused = accepted + is_accepted, refused + (not is_accepted)
        elif f[0] <= RECORDS and f[1] <= WORDS:
            storage.lent = tuple(f)
            print("  so much is lent from here on")
        else:
            passed_over += 1
            print(f"  passed over: there are {RECORDS} records and {WORDS} words")
    print(f"\nat the end  {len(lines)} lines: {accepted} calls accepted, {refused} refused, {passed_over} lines passed over")
    never = RECORDS - len(touched[0]), WORDS - len(touched[1])
    print(f"  never touched by an accepted call: {never[0]} records and {never[1]} words, compared with the first memory, all as they were")


main()
