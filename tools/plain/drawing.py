#!/usr/bin/env python3
"""drawing.py FOLDER: writes the kept ones of the drawn filings to FOLDER as drawn_SEED_DAMAGE.filing, and beside each the sheet of reading.py.

A seed draws a whole file: site, curves, readings, daily sums, profiles, breaks and rates, each often at its border. A damage above 0 then spoils the
file's lines here and there. compare.py runs a program over any number of them.
"""
import pathlib
import random
import sys

from reading import PEAKS, WINTER, days_of, sheet_of

# Of the seeds up to 1,500 a small file for each set of cases, of 5 and of 10 years, and one for each refusal that a file can meet: seed and damage.
KEPT = [
    (639, 0), (482, 0), (192, 0), (732, 0), (893, 0), (232, 0), (1347, 0), (556, 0), (8, 0), (281, 0), (1328, 0), (52, 0), (696, 0), (428, 0), (453, 0),
    (286, 0), (1380, 0), (840, 0), (567, 2), (1312, 2), (1312, 3), (59, 2), (108, 1), (108, 2), (734, 3), (483, 3), (498, 3), (535, 0), (84, 3), (510, 2),
    (951, 1), (1312, 0), (1493, 0), (92, 0),
]

ODD = [
    "", "0", "00", "01", "-1", "+1", "1 ", " 1", "1.0", "a", "-", "--", "9" * 25, "13", "29", "30", "31", "32", "9", "10", "1000", "1001", "2016", "2020",
    "2021", "2026", "2027", "9999", "10000", "65535", "65536", "65537", "3145680", "3145681", "100000000", "100000001", "4294967295", "4294967296",
    "1000000000000", "1000000000001", "18446744073709551616", "T", "I", "R", "C", "E", "r", "CF_96E/11", "CF_96E/12", "CF_96E",
]
STRANGE = ["\x00", "\r", "\x1f", "\x7f", "\x80", "\x0b", " ", "~", "\t", "0"]
LINES = [
    "", "\t", "S", "E", "E\t0", "X", "Q\t1", "B\t2015", "R\t2015\t10", "a" * 320, "a" * 321, "S\tCF_96E/11\t2025\t2\tT\t5", "X\t2016\t2\t29\t0\tR",
    "D\t2015\t2\t29\t0", "C\t2016\t2\t29" + 20 * "\t1", "P\t2015\t2\t29" + 20 * "\t1",
]


def line(*fields):
    return "\t".join(str(field) for field in fields)


def draw_site(rng):
    al = rng.randint(2021, 2026)
    filiere = rng.randint(1, 11 if al >= 2023 or rng.random() < 0.05 else 5)
    return al, filiere, rng.choice("TTI"), rng.choice([1, 100_000_000, rng.randint(1, 100_000_000), rng.randint(1000, 5_000_000)])


def draw_curve(rng, year, most):
    """The C lines of a year: whole, with gaps, with every second day, or with its peak points at the border of 80 %."""
    style = rng.choice(["whole", "gaps", "half", "border"])
    places = [(day, k) for day in PEAKS[year] for k in range(20)]
    kept = set(rng.sample(places, (4 * len(places) + 4) // 5 + rng.choice([-1, 0, 0, 1])))
    for date in days_of(year, WINTER):
        if rng.random() < {"gaps": 0.1, "half": 0.5}.get(style, 0):
            continue
        row = [str(rng.choice([0, 100_000_000]) if rng.random() < 0.03 else rng.randint(0, most)) for _ in range(20)]
        for k in range(20):
            at_border = style == "border" and date[1:] in PEAKS[year] and (date[1:], k) not in kept
            if at_border or (style == "gaps" and rng.random() < 0.07):
                row[k] = "-"
        if row != 20 * ["-"] or rng.random() < 0.5:
            yield line("C", *date, *row)


def draw_dates_of_readings(rng, axis):
    style = rng.choice(["none", "some", "years", "months", "many", "few"])
    if style == "years":
        dates = [(year, 1, 1) for year in axis]
    elif style == "months":
        dates = [(year, month, 1) for year in axis for month in range(1, 13)]
    elif style == "some":
        dates = [(year, 1, 1) for year in axis if rng.random() < 0.8]
        dates += [(year, m, d) for year in axis for m, d in [(3, 31), (4, 1), (7, 15), (10, 31), (11, 1), (12, 31)] if rng.random() < 0.3]
    else:
        count = {"none": 0, "many": rng.choice([50, 300, 600, 601]), "few": rng.choice([2, 5, 10, 30])}[style]
        return sorted(rng.sample([date for year in axis for date in days_of(year)], count))
    return sorted(date for date in dates if rng.random() < 0.99)


def draw_readings(rng, axis):
    estimated, step = rng.choice([0, 0, 0, 0.02, 0.1]), rng.choice([0, 10, 10**4, 10**6, 10**9])
    index = rng.randint(0, 10**6)
    for date in draw_dates_of_readings(rng, axis):
        yield line("X", *date, index, "E" if rng.random() < estimated else rng.choice("RRC"))
        index = min(10**12, index + rng.randint(0, step))


def draw_sums(rng, axis):
    share, zeros, most = rng.choice([0, 0.8, 1, 1, 1]), rng.choice([0, 0, 0, 0.02, 1]), rng.choice([10, 500_000, 3_145_680])
    for year in axis:
        if rng.random() < share:
            for date in days_of(year):
                yield line("D", *date, 0 if rng.random() < zeros else rng.randint(0, most))


def draw_profiles(rng, history):
    share, most = rng.choice([0, 0.8, 1, 1, 1]), rng.choice([10, 20_000, 65_535])
    for year in history:
        if rng.random() < share:
            for date in days_of(year, WINTER):
                yield line("P", *date, *(rng.randint(0, most) for _ in range(20)))


def draw(rng):
    """The lines of a file in their order, with nothing to refuse before the close but now and then a 601st reading or a filière too early."""
    al, filiere, meter, ps = draw_site(rng)
    history = list(range(al - (14 if filiere in (4, 5) else 9), al - 4))
    axis = list(range(history[0] - 1, history[-1] + 2))
    lines = [line("S", "CF_96E/11", al, filiere, meter, ps)]
    share, most = rng.choice([0, 0.25, 0.6, 1]), rng.choice([100, 10**5, 10**8])
    for year in history:
        if meter == "T" and rng.random() < share:
            lines += draw_curve(rng, year, most)
    lines += draw_readings(rng, axis)
    lines += draw_sums(rng, axis)
    lines += draw_profiles(rng, history)
    share = rng.choice([0, 0.2])
    lines += [line("B", year) for year in history if rng.random() < share]
    share = rng.choice([0, 0, 0.4])
    lines += [line("R", year, rng.choice([10, 1000, rng.randint(10, 1000)])) for year in history if rng.random() < share]
    return lines + [line("E", len(lines))]


def with_count(lines):
    """The lines with the count that their E line should have."""
    return lines[:-1] + [line("E", len(lines) - 1)] if lines and lines[-1].startswith("E\t") else lines


def spoil_field(rng, text):
    fields = text.split("\t")
    k = rng.randrange(len(fields))
    how = rng.choice(["odd", "odd", "date", "more", "fewer", "long"])
    if how == "odd":
        fields[k] = rng.choice(ODD)
    elif how == "date" and len(fields) > 3:
        fields[rng.randint(1, 3)] = rng.choice("0 1 2 3 4 11 12 13 28 29 30 31 32 2011 2012 2016 2020 2021 2022".split())
    elif how == "more":
        fields.append(rng.choice(ODD))
    elif how == "fewer":
        del fields[k]
    elif how == "long":
        fields[k] += "9" * max(0, 320 - len(text) + rng.choice([-1, 0, 1]))
    return "\t".join(fields)


def spoil(rng, lines):
    """One thing wrong, or odd: a line left out, twice, in another's place, foreign, cut off, with a strange byte or another field."""
    # each tag is as likely as another, though a file has far more of some
    tag = rng.choice(sorted({text[:1] for text in lines}))
    i = rng.choice([k for k, text in enumerate(lines) if text[:1] == tag])
    how, lines = rng.randrange(10), list(lines)
    if how == 0:
        del lines[i]
    elif how == 1:
        lines.insert(i, lines[i])
    elif how == 2:
        j = rng.randrange(len(lines))
        lines[i], lines[j] = lines[j], lines[i]
    elif how == 3:
        lines.insert(i, rng.choice(LINES))
    elif how == 4:
        del lines[rng.randrange(len(lines)):]
    elif how == 5:
        at = rng.randint(0, len(lines[i]))
        lines[i] = lines[i][:at] + rng.choice(STRANGE) + lines[i][at:]
    else:
        lines[i] = spoil_field(rng, lines[i])
    return with_count(lines) if rng.random() < 0.75 else lines


def filing(seed, damage):
    """The bytes of a drawn filing."""
    rng = random.Random(f"{seed} {damage}") if damage else random.Random(seed)
    lines = draw(random.Random(seed))
    for _ in range(min(damage, 2)):
        lines = spoil(rng, lines) if lines else lines
    ending = "" if damage and rng.random() < 0.2 else "\n"
    return ("\n".join(lines) + ending).encode("latin-1")


def main():
    if len(sys.argv) != 2:
        sys.exit("usage: drawing.py FOLDER")
    folder = pathlib.Path(sys.argv[1])
    folder.mkdir(parents=True, exist_ok=True)
    for seed, damage in KEPT:
        text = filing(seed, damage)
        (folder / f"drawn_{seed}_{damage}.filing").write_bytes(text)
        (folder / f"drawn_{seed}_{damage}.sheet").write_text(sheet_of(text))
    print(f"{len(KEPT)} filings")


if __name__ == "__main__":
    main()
