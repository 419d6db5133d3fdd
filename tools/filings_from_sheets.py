#!/usr/bin/env python3
"""Fills crates/test_filings from folders of NAME.filing and NAME.sheet: data/ and args hold the filings, stdout what the sheets say.

The sheets come from readings of the rules that share nothing with the code. Usage: tools/filings_from_sheets.py FOLDER...
"""
import pathlib
import shutil
import sys

CRATE = pathlib.Path(__file__).resolve().parent.parent / "crates" / "test_filings"


def main() -> None:
    filings = sorted((filing for folder in sys.argv[1:] for filing in pathlib.Path(folder).glob("*.filing")), key=lambda filing: filing.stem)
    if not filings:
        sys.exit("no NAME.filing in the folders named")
    data = CRATE / "data"
    shutil.rmtree(data, ignore_errors=True)
    data.mkdir(parents=True)
    expected = b""
    for filing in filings:
        sheet = filing.with_suffix(".sheet").read_bytes()
        shutil.copyfile(filing, data / filing.stem)
        expected += filing.stem.encode() + b"\n" + sheet
    (CRATE / "args").write_text("".join(f"{filing.stem}\n" for filing in filings))
    (CRATE / "stdout").write_bytes(expected)
    print(f"{len(filings)} filings")


if __name__ == "__main__":
    main()
