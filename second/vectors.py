"""The stored sheets and pages of the crate `vectors`: write them, check them, count them."""

import argparse
import sys
from collections import Counter
from pathlib import Path

sys.dont_write_bytecode = True

import deckpage as second
import sheets

TOP = Path(__file__).resolve().parent.parent
FOLDER = TOP / "crates" / "vectors"
EXAMPLES = sorted((TOP / "examples").glob("*.sheet"))
RANDOM_SHEETS = 90
SEED = 1999

ROW_PLACES = [(1, 2, 2), *((1, 1, field) for field in range(3, 8)),
              (2, 1, 0), (3, 1, 0), (3, 2, 0), (4, 2, 0), (12, 3, 0), (13, 3, 0)]
CASE_PLACES = [(1, 3, 1), (1, 2, 2), *((1, 2, field) for field in range(4, 8)),
               (7, 2, 0), (4, 2, 0), (12, 3, 0), (13, 3, 0)]
EXPECTED = {
    *(("row", *refusal) for refusal in ROW_PLACES),
    *(("case", *refusal) for refusal in CASE_PLACES),
    *(("weight", *refusal) for refusal in ((1, 2, 1), (12, 3, 0), (13, 3, 0))),
    *((f"names {n}", 12, 3, 0) for n in (1, 2, 3)),
    *((f"names {n}", 13, 3, 0) for n in (1, 2)),
    ("sheet", 14, 3, 0),
    ("page line", 8, "-", "-"),
    ("page line", 0, "-", "Y"),
    ("page line", 0, "-", "N"),
}


def all_sheets():
    """The examples, the fixed sheets and some seeded random ones."""
    examples = [path.read_bytes() for path in EXAMPLES]
    return [*examples, *sheets.systematic(), *sheets.sheets(RANDOM_SHEETS, SEED)]


def framed_sheets(found):
    """Each sheet after a line with its length."""
    return [b"%d\n" % len(sheet) + sheet for sheet in found]


def framed_pages(pages):
    """Each page after a line with its place from 1."""
    return [b"sheet %d\n" % place + page for place, page in enumerate(pages, 1)]


def place_of(sheet, line):
    """Which line of a sheet a refusal is about, in a word."""
    fixed = ("sheet", "names 1", "weight", "names 2")
    if line < len(fixed):
        return fixed[line]
    for at, text in enumerate(sheet.split(b"\n")[3:-1], 4):
        if text.startswith(b"case"):
            return "row" if line < at else "names 3" if line == at else "case"
    return "row"


def outcomes(sheet, page):
    """What a page tells: its refusal with its place, or each of its case lines."""
    lines = page.decode().splitlines()
    if second.status_of(page):
        number, layer, line, field = map(int, lines[1].split(","))
        yield place_of(sheet, line), number, layer, field
        return
    for line in lines[1:-1]:
        fields = line.split(",")
        yield "page line", int(fields[1]), "-", fields[6]


def cover(found, pages):
    """Print how often each outcome occurs; answer whether none is missing."""
    counts = Counter(o for sheet, page in zip(found, pages) for o in outcomes(sheet, page))
    print(f"{'place':10} {'number':>6} {'layer':>5} {'field':>5} {'times':>6}")
    for outcome in sorted(EXPECTED | set(counts), key=str):
        place, number, layer, field = outcome
        print(f"{place:10} {number:6} {layer:>5} {field:>5} {counts[outcome]:6}")
    missing = sorted(map(str, EXPECTED - set(counts)))
    print("missing: " + "; ".join(missing) if missing else "none missing")
    return not missing


def first_difference(name, parts):
    """Say where the stored file differs from its parts made anew, or None."""
    stored = (FOLDER / name).read_bytes() if (FOLDER / name).exists() else b""
    at = 0
    for place, part in enumerate(parts, 1):
        if stored[at:at + len(part)] != part:
            return f"{FOLDER / name}: sheet {place} differs, at byte {at} of the file"
        at += len(part)
    return f"{FOLDER / name}: more bytes than made anew" if len(stored) > at else None


def example_difference():
    """Say which example's page is not the one made anew, or None."""
    for path in EXAMPLES:
        if path.with_suffix(".page").read_bytes() != second.page_of(path.read_bytes()):
            return f"{path.with_suffix('.page')}: not the page of its sheet"
    return None


def check(files):
    """Compare the stored files with the ones made anew; answer the exit status."""
    differences = [example_difference(), *(first_difference(name, parts) for name, parts in files.items())]
    for difference in filter(None, differences):
        print(difference)
        return 1
    print(f"{len(files['stdin'])} sheets, second program and stored pages agree")
    return 0


def write(files):
    """Write the stored files."""
    FOLDER.mkdir(parents=True, exist_ok=True)
    for name, parts in files.items():
        (FOLDER / name).write_bytes(b"".join(parts))
    sizes = ", ".join(f"{name} {sum(map(len, parts))} bytes" for name, parts in files.items())
    print(f"{len(files['stdin'])} sheets written: {sizes}")
    return 0


def main():
    """Write the stored files, or check them, or count what they cover."""
    parser = argparse.ArgumentParser(description=__doc__)
    parser.add_argument("--check", action="store_true", help="compare with the stored files")
    parser.add_argument("--cover", action="store_true", help="print what the sheets cover")
    options = parser.parse_args()
    found = all_sheets()
    pages = [second.page_of(sheet) for sheet in found]
    files = {"stdin": framed_sheets(found), "stdout": framed_pages(pages)}
    status = 0
    if options.cover and not cover(found, pages):
        status = 1
    if options.check:
        status = max(status, check(files))
    elif not options.cover:
        status = write(files)
    return status


if __name__ == "__main__":
    sys.exit(main())
