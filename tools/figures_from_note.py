#!/usr/bin/env python3
"""figures_from_note.py NOTE: the figures of the operators' note, read from its text, in the form that the program `test_figures` writes.

Tables are found by their headings, their columns and rows by name. The filières' numbers are document 01's.
"""
import re
import sys

PEAK_YEARS = range(2007, 2022)
CA_YEARS = range(2007, 2025)
DELIVERY_YEARS = range(2021, 2027)

# filières 1 to 11, by the words that the note has for them
FILIERES = [
    "solaire", "éolien onshore", "éolien offshore", "fil de l'eau", "éclusé", "gaz issu du charbon",
    "gaz houille/charbon", "pétrole/fioul", "biomasse", "autre renouvelable", "autres filières",
]


def the_one(found, what):
    if len(found) != 1:
        sys.exit(f"{what}: {len(found)} found, not one")
    return found[0]


def rows_between(lines, first, last):
    """The rows of tables after the line that starts with `first`, up to one that starts with `last`, or to the end."""
    start = next(i for i, line in enumerate(lines) if line.startswith(first))
    rows = []
    for line in lines[start + 1:]:
        if last is not None and line.startswith(last):
            break
        if "\t" in line:
            rows.append([cell.strip() for cell in line.split("\t")])
    return rows


def in_units(text, places):
    """A number with a decimal comma, in units of its last of `places` places; 0 for an empty cell."""
    whole, _, part = text.partition(",")
    if text != "" and (not re.fullmatch(r"\d+", whole) or not re.fullmatch(r"\d*", part) or len(part) > places):
        sys.exit(f"not a number of {places} places: {text}")
    return int(whole + part.ljust(places, "0")) if text != "" else 0


def is_for(name, filiere):
    """Whether a row or a column of this name is for a filière. Wind with no more said is both kinds of wind."""
    name = name.lower()
    if filiere.startswith("éolien"):
        return name == "éolien" or (name.startswith("éolien") and filiere.split()[1] in name)
    return filiere in name


def by_filiere(rows, column, places):
    """For each filière the figure of its row in a column."""
    return [the_one([in_units(row[column], places) for row in rows if is_for(row[0], filiere)], filiere) for filiere in FILIERES]


def peak_days(rows):
    """Annex 1: the dates of each year, from the top of its column down."""
    days, years = {}, []
    for row in rows:
        if all(re.fullmatch(r"\d{4}", cell) for cell in row):
            years = row
            continue
        for year, cell in zip(years, row):
            if cell != "":
                if not re.fullmatch(r"\d\d/\d\d/" + year, cell):
                    sys.exit(f"{cell} in the column of {year}")
                days.setdefault(int(year), []).append(cell)
    return days


def column_of_delivery_year(heads, year):
    """The column of annex 4 that holds for a delivery year."""
    def holds(head):
        years = [int(n) for n in re.findall(r"\d{4}", head)]
        if "suivantes" in head:
            return years[0] <= year
        if " à " in head:
            return years[0] <= year <= years[1]
        return year in years
    return the_one([k for k, head in enumerate(heads) if holds(head)], f"AL {year}")


def ca_lines(rows):
    """3.3: the column of each filière, and each year's row; columns in the order of the lowest filière that they are for."""
    names = rows[0][1:]
    table = {int(row[0]): [in_units(cell, 3) for cell in row[1:]] for row in rows[1:]}
    own = [the_one([k for k, name in enumerate(names) if is_for(name, filiere)], filiere) for filiere in FILIERES]
    order = sorted(set(own), key=own.index)
    yield ["column"] + [order.index(k) for k in own]
    for year in CA_YEARS:
        row = table[year] + [0] * (len(names) - len(table[year]))
        yield ["CA", year] + [row[k] for k in order]


def figures(text):
    # the table of contents names the annexes too: look for them after their own heading
    body, annexes = (part.splitlines() for part in text.split("\n6 — ANNEXES\n"))
    days = peak_days(rows_between(annexes, "Annexe 1 :", "Annexe 2 :"))
    for year in PEAK_YEARS:
        yield [year] + days[year]
    yield from ca_lines(rows_between(body, "Tableau : Coefficients annuels", "Exemple"))
    yield ["theta"] + by_filiere(rows_between(annexes, "Annexe 2 :", "Annexe 3 :"), 1, 5)
    coefficients = rows_between(annexes, "Annexe 4 :", None)
    for year in DELIVERY_YEARS:
        yield ["C", year] + by_filiere(coefficients, column_of_delivery_year(coefficients[0], year), 2)
    yield ["N"] + by_filiere(rows_between(annexes, "Annexe 3 :", "Annexe 4 :"), 1, 0)


def main():
    if len(sys.argv) != 2:
        sys.exit("usage: figures_from_note.py NOTE")
    with open(sys.argv[1], encoding="utf-8") as note:
        for row in figures(note.read()):
            print("\t".join(str(cell) for cell in row))


main()
