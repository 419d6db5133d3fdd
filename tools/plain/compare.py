#!/usr/bin/env python3
"""compare.py PROGRAM FIRST COUNT: gives drawn filings to PROGRAM, each seed's whole file and three damaged ones, and compares what it writes with reading.py.

Prints the filings that differ, how often each answer came (a refusal's number, or the letters of the years' cases), and a last line 'N agree, M differ'.
"""
import collections
import subprocess
import sys

from drawing import filing
from reading import sheet_of


def answer_of(sheet):
    """A sheet in short: Z and the refusal's number, or the cases that its years have."""
    rows = [text.split("\t") for text in sheet.splitlines()]
    return "Z " + rows[0][1] if rows[0][0] == "Z" else "N " + "".join(sorted({row[2] for row in rows[1:]}))


def main():
    if len(sys.argv) != 4:
        sys.exit("usage: compare.py PROGRAM FIRST COUNT")
    program, first, count = sys.argv[1], int(sys.argv[2]), int(sys.argv[3])
    answers, differing = collections.Counter(), 0
    for seed, damage in ((seed, damage) for seed in range(first, first + count) for damage in range(4)):
        text = filing(seed, damage)
        sheet = sheet_of(text)
        wrote = subprocess.run([program], input=text, stdout=subprocess.PIPE, check=False).stdout
        answers[answer_of(sheet)] += 1
        if wrote != sheet.encode():
            differing += 1
            print(f"differs: seed {seed}, damage {damage}: the reading has {sheet!r}, the program {wrote.decode(errors='replace')!r}")
    for answer, times in sorted(answers.items()):
        print(f"{answer}: {times}")
    print(f"{sum(answers.values()) - differing} agree, {differing} differ")
    sys.exit(1 if differing else 0)


if __name__ == "__main__":
    main()
