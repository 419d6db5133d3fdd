#!/usr/bin/env python3
"""reading.py < FILING: the sheet of a filing, by a plain reading of document 01 that shares nothing with the engine.

Slow and short, in fractions, a file kept as lists and dictionaries. The note's figures are those that crates/test_figures/stdout has from its text.
Beside the sheet it holds the level to the bound of demand 3: it stops where one is further from the exact fraction of its file.
"""
import bisect
import datetime
import math
import pathlib
import sys
from fractions import Fraction

FIGURES = pathlib.Path(__file__).resolve().parents[2] / "crates" / "test_figures" / "stdout"
FIELDS = {"S": 6, "C": 24, "X": 6, "D": 5, "P": 24, "B": 2, "R": 3, "E": 2}
ORDER = "SCXDPBRE"
WINTER = (1, 2, 3, 11, 12)
MOST_POINT = 200_000_000_000


def read_figures():
    """Peak days by year, the columns of the filières, CA by year, theta, and C by delivery year."""
    peaks, cas, coefficients, rows = {}, {}, {}, {}
    for text in FIGURES.read_text().splitlines():
        head, *cells = text.split("\t")
        if head == "CA":
            cas[int(cells[0])] = [int(n) for n in cells[1:]]
        elif head == "C":
            coefficients[int(cells[0])] = [int(n) for n in cells[1:]]
        elif head.isdigit():
            peaks[int(head)] = [(int(day[3:5]), int(day[:2])) for day in cells]
        else:
            rows[head] = [int(n) for n in cells]
    return peaks, rows["column"], cas, rows["theta"], coefficients


PEAKS, COLUMN, CA, THETA, COEFFICIENT = read_figures()


def is_date(year, month, day):
    try:
        datetime.date(year, month, day)
    except (ValueError, OverflowError):
        return False
    return True


def day_number(date):
    return datetime.date(*date).toordinal()


def days_of(year, months=range(1, 13)):
    return [(year, m, d) for m in months for d in range(1, 32) if is_date(year, m, d)]


def is_number(field):
    return field.isdigit() and (field == b"0" or field[:1] != b"0")


def nearest(fraction):
    return math.floor(fraction + Fraction(1, 2))


class File:
    """The lines taken so far."""

    def __init__(self):
        self.count, self.tag, self.site = 0, "", None
        self.last, self.points, self.readings, self.sums, self.profiles = {}, {}, [], {}, {}
        self.breaks, self.rates = set(), {}

    def history(self):
        if self.site is None:
            return []
        al, filiere = self.site[:2]
        return list(range(al - (14 if filiere in (4, 5) else 9), al - 4))

    def axis(self):
        years = self.history()
        return list(range(years[0] - 1, years[-1] + 2)) if years else []

    def give(self, line):
        """The number that refuses a line, or None where it is taken."""
        self.count += 1
        if not 1 <= len(line) <= 320 or any(byte != 9 and not 32 <= byte <= 126 for byte in line):
            return 2
        fields = line.split(b"\t")
        tag = fields[0].decode()
        if FIELDS.get(tag) != len(fields):
            return 3
        if self.is_misplaced(tag):
            return 4
        if not is_formed(tag, fields):
            return 5
        # only a number's value is looked at from here on: a longer one is above every range
        numbers = [int(f[:25]) if is_number(f) else None for f in fields]
        key = tuple(numbers[1:4]) if tag in "CXDP" else tuple(numbers[1:2])
        if not self.is_within(tag, numbers):
            return 6
        if tag in "CXDP" and (not is_date(*key) or (tag in "CP" and key[1] not in WINTER)):
            return 7
        if tag in "CXDPBR" and key <= self.last.get(tag, ()):
            return 8
        if tag == "S" and numbers[3] >= 6 and numbers[2] < 2023:
            return 9
        if tag == "X" and self.readings and numbers[4] < self.readings[-1][1]:
            return 10
        if tag == "X" and len(self.readings) == 600:
            return 11
        if tag == "E" and numbers[1] != self.count - 1:
            return 12
        self.take(tag, key, numbers, fields[-1].decode(), fields[4:5])
        return None

    def is_misplaced(self, tag):
        if self.tag in ("", "E") or tag == "S":
            return not (self.tag == "" and tag == "S")
        return ORDER.index(tag) < ORDER.index(self.tag) or (tag == "C" and self.site[2] == b"I")

    def is_within(self, tag, n):
        if tag in "CPBR" and n[1] not in self.history() or tag in "XD" and n[1] not in self.axis():
            return False
        if tag == "S":
            return 2021 <= n[2] <= 2026 and 1 <= n[3] <= 11 and 1 <= n[5] <= 100_000_000
        if tag == "R":
            return 10 <= n[2] <= 1000
        most = {"C": 100_000_000, "X": 10**12, "D": 3_145_680, "P": 65_535, "E": 9_999}.get(tag, 0)
        values = {"C": n[4:], "X": n[4:5], "D": n[4:], "P": n[4:], "E": n[1:]}.get(tag, [])
        return all(value is None or value <= most for value in values)

    def take(self, tag, key, numbers, kind, meter):
        self.tag, self.last[tag] = tag, key
        if tag == "S":
            self.site = (numbers[2], numbers[3], meter[0], numbers[5])
        elif tag == "C":
            self.points[key] = numbers[4:]
        elif tag == "X":
            self.readings.append((day_number(key), numbers[4], kind))
        elif tag == "D":
            self.sums[key] = numbers[4]
        elif tag == "P":
            self.profiles[key] = numbers[4:]
        elif tag == "B":
            self.breaks.add(numbers[1])
        elif tag == "R":
            self.rates[numbers[1]] = numbers[2]


def is_formed(tag, fields):
    if tag == "S":
        return fields[1] == b"CF_96E/11" and fields[4] in (b"T", b"I") and all(is_number(fields[k]) for k in (2, 3, 5))
    if tag == "X":
        return fields[5] in (b"R", b"C", b"E") and all(is_number(f) for f in fields[1:5])
    return all(is_number(f) or (tag == "C" and k >= 4 and f == b"-") for k, f in enumerate(fields) if k >= 1)


class Close:
    """The close of a file that has its E line."""

    def __init__(self, file):
        self.file, self.years = file, file.history()
        self.al, self.filiere, self.meter, self.ps = file.site
        self.starts = [day for day, _, _ in file.readings]
        self.around = {year: self.intervals_of(year) for year in self.years}
        self.curves = [year for year in self.years if self.has_curve(year)]
        self.indexes = [year for year in self.years if self.around[year]]
        self.cases = {year: self.case_of(year) for year in self.years}

    def ca(self, year):
        return CA[year][COLUMN[self.filiere - 1]]

    def has_curve(self, year):
        there = sum(self.file.points.get((year, *day), [None] * 20)[k] is not None for day in PEAKS[year] for k in range(20))
        return self.meter == b"T" and year not in self.file.breaks and 100 * there >= 80 * 20 * len(PEAKS[year])

    def interval_at(self, date):
        """The place of the reading that begins the interval with a date, or None."""
        place = bisect.bisect_right(self.starts, day_number(date)) - 1
        return place if 0 <= place < len(self.starts) - 1 else None

    def intervals_of(self, year):
        """The intervals that overlap the winter of a year with valid index; none where it is not valid."""
        places = {self.interval_at(date) for date in days_of(year, WINTER)}
        if year in self.file.breaks or None in places:
            return set()
        ends = {end for place in places for end in (place, place + 1)}
        return set() if any(self.file.readings[end][2] == "E" for end in ends) else places

    def case_of(self, year):
        if self.meter == b"I":
            return "P" if year in self.indexes else "5" if self.indexes else "6"
        if year in self.curves:
            return "M"
        return "1" if year in self.indexes else "2" if self.curves else "3" if self.indexes else "4"

    def days_in(self, place):
        return [datetime.date.fromordinal(day) for day in range(self.starts[place], self.starts[place + 1])]

    def total_of(self, place):
        return sum(self.file.sums[(day.year, day.month, day.day)] for day in self.days_in(place))

    def stop(self):
        """15 to 17, or None."""
        profiled, summed = {key[0] for key in self.file.profiles}, {key[0] for key in self.file.sums}
        if any(key not in self.file.profiles for year in profiled for key in days_of(year, WINTER)):
            return 15
        if any(key not in self.file.sums for year in summed for key in days_of(year)):
            return 15
        if any(year not in profiled for year in self.years if year in self.indexes or self.cases[year] in "46"):
            return 16
        places = sorted({place for year in self.years for place in self.around[year]})
        if any(day.year not in summed for place in places for day in self.days_in(place)):
            return 16
        self.totals = {place: self.total_of(place) for place in places}
        return 17 if 0 in self.totals.values() else None

    def profiled(self, year, day, k):
        place = self.interval_at((year, *day))
        energy = self.file.readings[place + 1][1] - self.file.readings[place][1]
        return Fraction(2000 * energy * self.file.profiles[(year, *day)][k], self.totals[place])

    def donor_points(self, case, day, k):
        """The years that have a point to give at a month, day and half-hour, and their exact points."""
        if case == "2":
            rows = {year: self.file.points.get((year, *day), [None] * 20)[k] for year in self.curves}
            return {year: Fraction(1000 * point) for year, point in rows.items() if point is not None}
        return {year: self.profiled(year, day, k) for year in self.indexes if is_date(year, *day)}

    def points_at(self, year, day, k):
        """What 18 looks at, the point before its rate, and the exact point; None for a missing one."""
        case = self.cases[year]
        if case == "M":
            point = self.file.points.get((year, *day), [None] * 20)[k]
            exact = None if point is None else Fraction(1000 * point)
            return [], exact, exact
        if case in "1P":
            exact = self.profiled(year, day, k)
        elif case in "46":
            above = self.ps * THETA[self.filiere - 1] * self.file.profiles[(year, *day)][k] * self.ca(year) * len(self.years)
            exact = Fraction(above, 1_000_000 * sum(self.ca(y) for y in self.years))
        else:
            return self.rebuilt(year, self.donor_points(case, day, k))
        return [nearest(exact)], nearest(exact), exact

    def rebuilt(self, year, donors):
        if not donors:
            return [], None, None
        weight = Fraction(self.ca(year), sum(self.ca(donor) for donor in donors))
        rounded = [nearest(point) for point in donors.values()]
        point = nearest(weight * sum(rounded))
        # the donors of 2 are read points, at which 18 does not look
        looked_at = [point] if self.cases[year] == "2" else rounded + [point]
        return looked_at, point, weight * sum(donors.values())

    def sheet(self):
        """The lines N and Y, or a number from 15 to 18."""
        number = self.stop()
        if number is not None:
            return number
        present, total, exact_total = {}, 0, Fraction(0)
        for year in self.years:
            present[year], rate = 0, self.file.rates.get(year)
            for day, k in ((day, k) for day in PEAKS[year] for k in range(20)):
                looked_at, point, exact = self.points_at(year, day, k)
                if any(value > MOST_POINT for value in looked_at):
                    return 18
                if point is not None:
                    present[year] += 1
                    total += point if rate is None else nearest(Fraction(1000 * point, rate))
                    exact_total += exact if rate is None else exact * 1000 / rate
        count, c = sum(present.values()), Fraction(COEFFICIENT[self.al][self.filiere - 1], 100)
        ncc = nearest(c * total / (1000 * count))
        lowest = min([1000, *self.file.rates.values()])
        if abs(1000 * ncc - c * exact_total / count) > Fraction(1001, 2) + Fraction(1500, lowest):
            sys.exit("a level beyond the bound of demand 3")
        lines = [("N", self.al, self.filiere, ncc, count)] + [("Y", y, self.cases[y], present[y]) for y in self.years]
        return "".join("\t".join(str(cell) for cell in line) + "\n" for line in lines)


def sheet_of(text):
    """The sheet of an input's bytes."""
    lines = text.split(b"\n")
    if lines[-1] == b"":
        lines.pop()
    file = File()
    for line in lines:
        number = file.give(line)
        if number is not None:
            return f"Z\t{number}\t{file.count}\n"
    answer = Close(file).sheet() if file.tag == "E" else 14
    return answer if isinstance(answer, str) else f"Z\t{answer}\t{file.count}\n"


if __name__ == "__main__":
    sys.stdout.write(sheet_of(sys.stdin.buffer.read()))
