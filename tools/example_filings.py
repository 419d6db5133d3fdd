#!/usr/bin/env python3
"""example_filings.py OUT: writes the filings of examples/ into the folder OUT. examples/README.md has a word on each."""
import datetime
import os
import sys

WINTER = (1, 2, 3, 11, 12)
# the hours of the 20 peak half-hours: 7 to 15 h, then 18 to 20 h
HOURS = [7 + k / 2 for k in range(16)] + [18 + k / 2 for k in range(4)]


def days(first, last):
    day = datetime.date(first, 1, 1)
    while day.year <= last:
        yield day
        day += datetime.timedelta(1)


def winter(first, last):
    return (day for day in days(first, last) if day.month in WINTER)


def dated(tag, day, values):
    return [tag, day.year, day.month, day.day, *values]


def filing(lines):
    """With the line E that counts the lines before it."""
    return "".join("\t".join(map(str, line)) + "\n" for line in [*lines, ["E", len(lines)]])


def site(al, filiere, meter, ps):
    return ["S", "CF_96E/11", al, filiere, meter, ps]


def k1():
    return [site(2025, 2, "T", 5_000_000)] + [dated("C", day, [1_000_000] * 20) for day in winter(2020, 2020)]


def breeze(day, h):
    """Some wind, in W: slow swings over days and a daily one."""
    return 400_000 + 37_000 * (day.toordinal() % 13) + 9_000 * (h % 7)


def wind_gaps():
    """Wind with five measured winters; two January days of 2019 lack most of their points."""
    lines = [site(2025, 2, "T", 3_000_000)]
    for day in winter(2016, 2020):
        gappy = day in (datetime.date(2019, 1, 22), datetime.date(2019, 1, 23))
        lines.append(dated("C", day, ["-" if gappy and h > 4 else breeze(day, h) for h in range(20)]))
    return lines


def sun(day, hour):
    """Ten-thousandths of the mean power: a bell around noon, higher in summer."""
    season = 6 - abs(day.month - 6.5)
    return max(0, int(6_000 * (1 + season) - 1_500 * (hour - 12.5) ** 2))


def solar_roof():
    """A solar roof with an index meter, read on the first of each month; one reading is estimated."""
    first, last = 2017, 2021
    lines = [site(2026, 1, "I", 250_000)]
    index = 0
    for year in range(first - 1, last + 2):
        for month in range(1, 13):
            kind = "E" if (year, month) == (2019, 2) else "R"
            lines.append(dated("X", datetime.date(year, month, 1), [index, kind]))
            index += 9_000_000 + 4_000_000 * int(6 - abs(month - 6.5))
    lines += [dated("D", day, [sum(sun(day, k / 2) for k in range(48))]) for day in days(first - 1, last + 1)]
    lines += [dated("P", day, [min(65_535, sun(day, hour)) for hour in HOURS]) for day in winter(first, last)]
    return lines


def river_default():
    """Run of river without a curve or an index: default power in all ten years, from profiles alone."""
    profile = [9_500 + 50 * h for h in range(20)]
    return [site(2024, 4, "T", 800_000)] + [dated("P", day, profile) for day in winter(2010, 2019)]


EXAMPLES = {
    "k1": k1(),
    "k1_rate": k1() + [["R", 2016, 500]],
    "wind_gaps": wind_gaps(),
    "solar_roof": solar_roof(),
    "river_default": river_default(),
    "refused_same_day": k1()[:3] + k1()[2:],
}

if __name__ == "__main__":
    for name, lines in EXAMPLES.items():
        with open(os.path.join(sys.argv[1], name + ".filing"), "w") as out:
            out.write(filing(lines))
