#!/usr/bin/env python3
"""An independent calendar: what the tests and the sheet of the calendar are compared with.

It walks through every hour of a year with the standard library's date arithmetic and finds Easter by Gauss's rule, so
it shares no formula with the code or the definitions. From the repository's root:

    python3 tools/independent_calendar.py expected > crates/worked_cases/src/expected.rt; rt fmt
    python3 tools/independent_calendar.py sheet $(cat crates/calendar_sheet/args) > crates/calendar_sheet/stdout
    python3 tools/independent_calendar.py easter crates/calendar/src/easter.rt

The last compares the table of Easter with Gauss's rule at all 298 years.
"""
import re
import sys
from datetime import date, datetime, timedelta

FIRST, LAST = 2002, 2299
MONTHS = ["January", "February", "March", "April", "May", "June", "July", "August", "September", "October", "November",
          "December"]
WEEKDAYS = ["Monday", "Tuesday", "Wednesday", "Thursday", "Friday", "Saturday", "Sunday"]

# leap years, centuries, Easter at both ends (2285, 2038), 1 January on each weekday, summer time that begins on Easter
# Sunday (2002, 2013, 2024) or before a Maundy Thursday in March (2018), 54 weeks (2012), the first and the last year
SPREAD = [2002, 2007, 2008, 2010, 2011, 2012, 2013, 2014, 2015, 2017, 2018, 2022, 2024, 2038, 2100, 2200, 2285, 2299]


def easter(year):
    """Easter Sunday by Gauss's rule, with its two exceptions."""
    a, b, c, k = year % 19, year % 4, year % 7, year // 100
    m = (15 - (13 + 8 * k) // 25 + k - k // 4) % 30
    n = (4 + k - k // 4) % 7
    d = (19 * a + m) % 30
    e = (2 * b + 4 * c + 6 * d + n) % 7
    if d == 29 and e == 6:
        e -= 7
    elif d == 28 and e == 6 and a > 10:
        e -= 7
    return date(year, 3, 22) + timedelta(days=d + e)


def last_sunday(year, month):
    return max(day for day in (date(year, month, n) for n in range(25, 32)) if day.weekday() == 6)


def monday(day):
    return day - timedelta(days=day.weekday())


def days_off(year):
    sunday = easter(year)
    return [("New Year's Day", date(year, 1, 1)), ("Epiphany", date(year, 1, 6)),
            ("Maundy Thursday", sunday - timedelta(days=3)), ("Good Friday", sunday - timedelta(days=2)),
            ("Easter Monday", sunday + timedelta(days=1)), ("Christmas Eve", date(year, 12, 24)),
            ("Christmas Day", date(year, 12, 25)), ("Second Day of Christmas", date(year, 12, 26)),
            ("New Year's Eve", date(year, 12, 31))]


class Year:
    def __init__(self, year):
        self.year = year
        begin, end = datetime(year, 1, 1), datetime(year + 1, 1, 1)
        spring = datetime.combine(last_sunday(year, 3), datetime.min.time()) + timedelta(hours=2)
        autumn = datetime.combine(last_sunday(year, 10), datetime.min.time()) + timedelta(hours=2)
        off = {day for _, day in days_off(year)}
        self.months, self.weeks, self.peak = [], [], []
        standard = begin
        while standard < end:
            clock = standard + timedelta(hours=1) if spring <= standard < autumn else standard
            self.months.append(clock.month)
            self.weeks.append((monday(clock.date()) - monday(begin.date())).days // 7)
            self.peak.append(6 <= clock.hour <= 21 and clock.weekday() < 5 and clock.month in (1, 2, 3, 11, 12)
                             and clock.date() not in off)
            standard += timedelta(hours=1)
        self.hours = len(self.months)
        self.summer = [(spring - begin) // timedelta(hours=1), (autumn - begin) // timedelta(hours=1)]

    def part(self, labels, label):
        """First hour, number of hours and peak-load hours of a month or a week."""
        hours = [h for h in range(self.hours) if labels[h] == label]
        assert hours == list(range(hours[0], hours[-1] + 1))
        return hours[0], len(hours), sum(self.peak[h] for h in hours)

    def month(self, number):
        return self.part(self.months, number)

    def week_parts(self):
        return [self.part(self.weeks, week) for week in range(self.weeks[-1] + 1)]


def expected():
    assert {date(year, 1, 1).weekday() for year in SPREAD} == set(range(7))
    print("// What an independent calendar says of a spread of years: tools/independent_calendar.py writes this file.\n")
    print("pub(crate) struct Expected {")
    for field in ["year: u16", "hours: u16", "summer: [u16; 2]", "easter: u16", "month_ends: [u16; 12]",
                  "peak_load: [u16; 12]", "peak_load_sum: u32", "weeks: u8", "first_week_end: u16",
                  "last_week_first: u16", "short_week: u8", "long_week: u8"]:
        print(f"    pub(crate) {field},")
    print("}\n")
    print(f"pub(crate) const YEARS: [Expected; {len(SPREAD)}] = [")
    for number in SPREAD:
        year = Year(number)
        parts = [year.month(m) for m in range(1, 13)]
        weeks = year.week_parts()
        lengths = [hours for _, hours, _ in weeks]
        inner = lengths[1:-1]
        assert sorted(set(inner)) == [167, 168, 169] and inner.count(167) == 1 == inner.count(169)
        print("    Expected {")
        print(f"        year: {number},")
        print(f"        hours: {year.hours},")
        print(f"        summer: {year.summer},")
        print(f"        easter: {(easter(number) - date(number, 3, 22)).days},")
        print(f"        month_ends: {[first + hours for first, hours, _ in parts]},")
        print(f"        peak_load: {[peak for _, _, peak in parts]},")
        print(f"        peak_load_sum: {sum(h for h in range(year.hours) if year.peak[h])},")
        print(f"        weeks: {len(weeks)},")
        print(f"        first_week_end: {weeks[0][1]},")
        print(f"        last_week_first: {weeks[-1][0]},")
        print(f"        short_week: {1 + inner.index(167)},")
        print(f"        long_week: {1 + inner.index(169)},")
        print("    },")
    print("];")


def show_day(name, day):
    print(f"{name:<25}{WEEKDAYS[day.weekday()]:<11}{day.day:>2} {MONTHS[day.month - 1]}")


def sheet(arguments):
    for place, text in enumerate(arguments, 1):
        if not re.fullmatch("[0-9]{4}", text) or not FIRST <= int(text) <= LAST:
            print(f"Argument {place} is no year from 2002 to 2299, written with four digits.\n")
            continue
        year = Year(int(text))
        weeks = year.week_parts()
        print(f"Calendar {text}: {year.hours} hours, {year.hours // 24} days, {len(weeks)} weeks\n")
        print(f"Summer time begins with hour {year.summer[0]} and ends before hour {year.summer[1]}.")
        show_day("  begins", last_sunday(int(text), 3))
        show_day("  ends", last_sunday(int(text), 10))
        show_day("Easter Sunday", easter(int(text)))
        print("\nDays that do not count")
        for name, day in days_off(int(text)):
            show_day(name, day)
        print(f"\n{'Month':<11}{'first hour':>11}{'hours':>8}{'peak-load hours':>18}")
        for number in range(1, 13):
            first, hours, peak = year.month(number)
            print(f"{MONTHS[number - 1]:<11}{first:>11}{hours:>8}{peak:>18}")
        print(f"{'Year':<11}{0:>11}{year.hours:>8}{sum(year.peak):>18}")
        print(f"\n{'Week':<11}{'first hour':>11}{'hours':>8}")
        for number, (first, hours, _) in enumerate(weeks, 1):
            if hours != 168:
                print(f"{number:<11}{first:>11}{hours:>8}")
        print("All other weeks have 168 hours.\n")


def compare_easter(path):
    rows = [line for line in open(path, encoding="utf-8") if re.fullmatch(r" +(?:\d+, ?)+\n", line)]
    table = [int(n) for line in rows for n in re.findall(r"\d+", line)]
    rule = [(easter(y) - date(y, 3, 22)).days for y in range(FIRST, LAST + 1)]
    print("equal" if table == rule else "DIFFERENT")


if sys.argv[1] == "expected":
    expected()
elif sys.argv[1] == "sheet":
    sheet(sys.argv[2:])
else:
    compare_easter(sys.argv[2])
