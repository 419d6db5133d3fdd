#!/usr/bin/env python3
"""refusal_cases.py OUT: writes the cases of the program `test_refusals` as OUT/stdin and what document 01 says of each as OUT/stdout.

A case is a list of lines; after it stands a line with the sign = alone. The program starts with a record that was never opened and gives it
the lines in order, whatever was refused before. For each refused line it writes the number and the count of the refusal. At = it writes =
and the record's count, and opens the record anew. A line with the sign ~ alone stands for a line given with an empty near block.
The numbers and counts here are written by hand from document 01 (sections "Stops that come from the input" and "Stops that come from the
state"), never from a run."""
import os
import sys


def line(*fields):
    return "\t".join(str(f) for f in fields).encode("ascii")


def s(al=2025, filiere=2, meter="T", ps=5000000, edition="CF_96E/11"):
    return line("S", edition, al, filiere, meter, ps)


def c(year, month, day, *points):
    return line("C", year, month, day, *(points or ["1000"] * 20))


def p(year, month, day, *values):
    return line("P", year, month, day, *(values or ["10000"] * 20))


def x(year, month, day, index, kind="R"):
    return line("X", year, month, day, index, kind)


def d(year, month, day, total=480000):
    return line("D", year, month, day, total)


def b(year):
    return line("B", year)


def r(year, rate=500):
    return line("R", year, rate)


def e(count):
    return line("E", count)


def with_value(k, value, good="1000"):
    values = [good] * 20
    values[k] = value
    return values


LONG = "9" * 300
DAYS = [(y, m, day) for y in (2015, 2016, 2017) for m, n in ((1, 31), (3, 31), (5, 31), (7, 31), (8, 31), (10, 31), (12, 31)) for day in range(1, n + 1)]

# lines, refusals (number, count) in order, and the record's count at the end
SHUT = [
    # 13: never opened
    ([s(), c(2020, 1, 1)], [(13, 0), (13, 0)], 0),
    # 1 comes before 13 and 2, 13 before 2, and a refused record takes no line
    ([b"~"], [(1, 0)], 0),
    ([s(), b"~", b""], [(1, 1), (2, 2)], 2),
    ([s(), b"", s(), b"", b"~", e(1)], [(2, 2), (13, 2), (13, 2), (1, 2), (13, 2)], 2),
    ([s(), e(2), e(1), c(2020, 1, 1)], [(12, 2), (13, 2), (13, 2)], 2),
]

# (lines, number, count): 0 where no line is refused
CASES = [
    # taken
    ([s()], 0, 1),
    ([s(), c(2020, 2, 29)], 0, 2),
    ([s(), c(2016, 1, 1), c(2020, 12, 31), e(3)], 0, 4),
    ([s(2023, 6, "I", 1)], 0, 1),
    ([s(2021, 4), c(2007, 1, 1, *with_value(19, "-"))], 0, 2),
    ([s(), x(2015, 1, 1, 0), x(2015, 1, 2, 0, "E"), x(2021, 12, 31, 10**12, "C"), d(2015, 1, 1, 3145680), d(2021, 12, 31, 0), p(2016, 2, 29, *["65535"] * 20), b(2016), b(2020), r(2016, 10), r(2017, 1000), e(11)], 0, 12),
    ([s()] + [x(y, m, day, 5) for y, m, day in DAYS[:600]], 0, 601),
    # 2: empty, over 320 bytes, a strange byte
    ([b""], 2, 1),
    ([s(), b""], 2, 2),
    ([b"S" * 321], 2, 1),
    ([s(), c(2020, 1, 1) + b"\r"], 2, 2),
    ([s(), b"B\t2016\x7f"], 2, 2),
    ([b"\xc3\xa9"], 2, 1),
    ([s(), b"B\t2016\x1f"], 2, 2),
    # 3: unknown tag or wrong field count; 320 bytes are not too many
    ([b"S" * 320], 3, 1),
    ([b"Q\t1"], 3, 1),
    ([s().replace(b"S", b"s", 1)], 3, 1),
    ([s() + b"\t"], 3, 1),
    ([line("S", "CF_96E/11", 2025, 2, "T")], 3, 1),
    ([s(), c(2020, 1, 1, *["1"] * 19)], 3, 2),
    ([s(), c(2020, 1, 1, *["1"] * 21)], 3, 2),
    ([s(), line("E")], 3, 2),
    ([s(), b"\tB\t2016"], 3, 2),
    ([s(), line("SB", 2016)], 3, 2),
    # 4: not first S, out of order, a second S or E, C in an I file
    ([c(2020, 1, 1)], 4, 1),
    ([e(0)], 4, 1),
    ([line("R", "x", "y")], 4, 1),
    ([s(), s()], 4, 2),
    ([s(), x(2016, 1, 1, 0), c(2020, 1, 1)], 4, 3),
    ([s(), r(2016), b(2016)], 4, 3),
    ([s(), p(2016, 1, 1), d(2016, 1, 1)], 4, 3),
    ([s(), e(1), e(2)], 4, 3),
    ([s(), e(1), r(2016)], 4, 3),
    ([s(meter="I"), c(2020, 1, 1)], 4, 2),
    ([s(meter="I"), c("x", 1, 1)], 4, 2),
    # 5: a field not in its form
    ([s(edition="CF_96E/10")], 5, 1),
    ([s(edition="cf_96e/11")], 5, 1),
    ([s(al="02025")], 5, 1),
    ([s(filiere="+2")], 5, 1),
    ([s(meter="t")], 5, 1),
    ([s(meter="")], 5, 1),
    ([s(ps="")], 5, 1),
    ([s(ps="5 000")], 5, 1),
    ([s(), c(2020, 1, 1, *with_value(19, "--"))], 5, 2),
    ([s(), c(2020, 1, 1, *with_value(0, "-5"))], 5, 2),
    ([s(), c(2020, 1, "01")], 5, 2),
    ([s(), c("-", 1, 1)], 5, 2),
    ([s(), x(2016, 1, 1, 5, "Z")], 5, 2),
    ([s(), x(2016, 1, 1, 5, "r")], 5, 2),
    ([s(), x(2016, 1, 1, "-", "R")], 5, 2),
    ([s(), p(2016, 1, 1, *with_value(3, "-"))], 5, 2),
    ([s(), d(2016, 1, 1, "4.5")], 5, 2),
    ([s(), line("R", 2016, "")], 5, 2),
    ([s(), line("E", "00")], 5, 2),
    # all fields for 5 before any for 6
    ([s(al=1999, ps="x")], 5, 1),
    # 6: a number outside its range, a year off its tag's span
    ([s(al=2020)], 6, 1),
    ([s(al=2027)], 6, 1),
    ([s(al=LONG[:290])], 6, 1),
    ([s(), e(LONG)], 6, 2),
    ([s(), b(LONG)], 6, 2),
    ([s(filiere=0)], 6, 1),
    ([s(filiere=12)], 6, 1),
    ([s(ps=0)], 6, 1),
    ([s(ps=100000001)], 6, 1),
    ([s(), c(2015, 1, 1)], 6, 2),
    ([s(), c(2021, 1, 1)], 6, 2),
    ([s(), c(2020, 1, 1, *with_value(19, "100000001"))], 6, 2),
    ([s(), c(2020, 1, 1, *with_value(0, "4294967295"))], 6, 2),
    ([s(), x(2014, 1, 1, 5)], 6, 2),
    ([s(), x(2022, 1, 1, 5)], 6, 2),
    ([s(), x(2016, 1, 1, 10**12 + 1)], 6, 2),
    ([s(), d(2016, 1, 1, 3145681)], 6, 2),
    ([s(), p(2016, 1, 1, *with_value(19, "65536"))], 6, 2),
    ([s(), b(2021)], 6, 2),
    ([s(), r(2016, 9)], 6, 2),
    ([s(), r(2016, 1001)], 6, 2),
    ([s(), r(2015, 500)], 6, 2),
    ([s(), e(10000)], 6, 2),
    # a point out of range comes before a date that does not exist; 6 before 9
    ([s(), c(2019, 2, 29, *with_value(5, "100000001"))], 6, 2),
    ([s(2020, 6)], 6, 1),
    # 7: no such date, or not winter on C or P
    ([s(), c(2019, 2, 29)], 7, 2),
    ([s(), c(2020, 2, 30)], 7, 2),
    ([s(), c(2020, 4, 1)], 7, 2),
    ([s(), p(2020, 10, 31)], 7, 2),
    ([s(), x(2016, 13, 1, 5)], 7, 2),
    ([s(), x(2016, 0, 1, 5)], 7, 2),
    ([s(), x(2016, 1, LONG, 5)], 7, 2),
    ([s(), d(2016, LONG, 1, 0)], 7, 2),
    ([s(), d(2016, 6, 31)], 7, 2),
    ([s(), d(2016, 1, 0)], 7, 2),
    ([s(), d(2019, 2, 29)], 7, 2),
    # 8: not later than the last of its tag
    ([s(), c(2020, 1, 1), c(2020, 1, 1)], 8, 3),
    ([s(), c(2020, 1, 2), c(2020, 1, 1)], 8, 3),
    ([s(), c(2020, 1, 1), c(2019, 12, 31)], 8, 3),
    ([s(), x(2016, 2, 29, 5), x(2016, 2, 28, 6)], 8, 3),
    ([s(), d(2016, 3, 1), d(2016, 3, 1)], 8, 3),
    ([s(), p(2016, 3, 1), p(2016, 2, 29)], 8, 3),
    ([s(), b(2017), b(2017)], 8, 3),
    ([s(), r(2018, 500), r(2017, 400)], 8, 3),
    # 9: filière 6 to 11 with AL below 2023
    ([s(2022, 6)], 9, 1),
    ([s(2021, 11)], 9, 1),
    ([s(2022, 10, "I")], 9, 1),
    ([s(2021, 9)], 9, 1),
    # 10: index below the one before, of any kind; equal is fine
    ([s(), x(2016, 1, 1, 5), x(2016, 1, 2, 4)], 10, 3),
    ([s(), x(2016, 1, 1, 5, "E"), x(2016, 1, 2, 4, "R")], 10, 3),
    ([s(), x(2016, 1, 1, 5), x(2016, 1, 2, 5), x(2016, 1, 3, 0, "E")], 10, 4),
    # 11: a 601st reading
    ([s()] + [x(y, m, day, 5) for y, m, day in DAYS[:601]], 11, 602),
    ([s(meter="I")] + [x(y, m, day, k) for k, (y, m, day) in enumerate(DAYS[:601])], 11, 602),
    ([s()] + [x(y, m, day, 7, "E") for y, m, day in DAYS[:600]] + [x(2021, 12, 31, 7)], 11, 602),
    # 10 comes before 11
    ([s()] + [x(y, m, day, 7, "E") for y, m, day in DAYS[:600]] + [x(2021, 12, 31, 6)], 10, 602),
    # 12: E's count wrong
    ([s(), e(0)], 12, 2),
    ([s(), e(2)], 12, 2),
    ([s(), c(2020, 1, 1), e(1)], 12, 3),
    ([s(), c(2020, 1, 1), e(9999)], 12, 3),
]


def main():
    out = sys.argv[1]
    cases = SHUT + [(lines, [(number, count)] if number else [], count) for lines, number, count in CASES]
    with open(os.path.join(out, "stdin"), "wb") as f:
        for lines, _, _ in cases:
            for one in lines:
                assert b"\n" not in one and one != b"="
                f.write(one + b"\n")
            f.write(b"=\n")
    with open(os.path.join(out, "stdout"), "w") as f:
        for _, refusals, count in cases:
            for refusal in refusals:
                f.write("%d\t%d\n" % refusal)
            f.write("=\t%d\n" % count)


main()
