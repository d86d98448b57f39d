"""Sheets to try the program with: a fixed list of edges and pairs, and seeded random ones."""

import itertools
import random
from math import isqrt

import deckpage as second

LONGEST = second.LONGEST_SHEET
NAMES_1, NAMES_2, NAMES_3 = second.NAMES_1, second.NAMES_2, second.NAMES_3

COUNT_RANGE = (1, 20)
WEIGHT_RANGE = (1, 1_000_000)
ACCEL_RANGE = (1, 100)
FACTOR_RANGE = (50, 300)
ROW_RANGES = {
    "L": (COUNT_RANGE, *second.LEAD_RUBBER_RANGES),
    "P": (COUNT_RANGE, *second.PENDULUM_RANGES),
}
SITES = ("I", "II", "III", "IV")
RULES = ("T", "E")

L_ROW = ("L", 1, 30, 100, 1300, 40, 1000)
P_ROW = ("P", 1, 1000, 60, 1000, 0, 0)
LEAST_ROW = ("P", 1, 10, 10, 200, 0, 0)
CASE = (1, 30, "II", 50, 300, 50, 300, "T")
LEAST_CASE = (1, 1, "I", 50, 50, 50, 50, "T")


# ------------------------------------------------------ lines and sheets


def joined(fields):
    """A line of fields, without its line end; a line ready made stays as it is."""
    return fields if isinstance(fields, bytes) else ",".join(map(str, fields)).encode()


def text(lines):
    """A sheet of lines, each with its line end."""
    return b"".join(line + b"\n" for line in lines)


def lines_of(weight, rows, cases):
    """The lines of a sheet; rows and cases are fields or lines ready made."""
    head = [NAMES_1, str(weight).encode(), NAMES_2]
    return head + [*map(joined, rows)] + [NAMES_3] + [*map(joined, cases)]


def sheet_of(weight, rows, cases):
    """The bytes of a sheet."""
    return text(lines_of(weight, rows, cases))


def plain_lines():
    """A good sheet of two rows and two cases."""
    return lines_of(300, [P_ROW, L_ROW], [CASE, (2, 20, "I", 100, 120, 90, 110, "E")])


def changed(items, places):
    """A copy of the items with those at the given places changed."""
    return [places.get(place, item) for place, item in enumerate(items)]


def numbered(cases):
    """The cases with their places as numbers."""
    return [(place, *case[1:]) for place, case in enumerate(cases, 1)]


def padded(sheet, length, filler=b"x"):
    """The sheet with filler bytes after it, up to a length."""
    return (sheet + filler * length)[:length]


# --------------------------------------------------- edges of the ranges


def edge_values(low, high):
    """The ends of a range, their neighbours, and numbers at the edge of the form."""
    numbers = [n for n in (low - 1, low, high, high + 1, 0, 9_999_999, 10_000_000) if n >= 0]
    return list(dict.fromkeys([*map(str, numbers), f"0{low}", ""]))


def weight_edges():
    """Every edge of the weight."""
    for value in edge_values(*WEIGHT_RANGE):
        yield sheet_of(value, [P_ROW], [CASE])


def row_edges():
    """Every edge of every field of a row line."""
    for base in (L_ROW, P_ROW):
        for field, (low, high) in enumerate(ROW_RANGES[base[0]], 1):
            for value in edge_values(low, high):
                yield sheet_of(100, [changed(base, {field: value})], [CASE])


def case_edges():
    """Every edge of every number of a case line."""
    ranges = {0: (1, 1), 1: ACCEL_RANGE, **{field: FACTOR_RANGE for field in (3, 4, 5, 6)}}
    for field, (low, high) in ranges.items():
        for value in edge_values(low, high):
            yield sheet_of(300, [P_ROW], [changed(CASE, {field: value})])
    for value in (0, 1, 2, 3):
        yield sheet_of(300, [P_ROW], [CASE, changed(CASE, {0: value})])


WIDTHS = ((100, 300), (100, 299), (101, 303), (101, 302), (33, 100), (34, 100), (34, 102),
          (400, 1200), (400, 1199), (167, 500), (166, 500))

STRENGTHS = (
    ("P", 1, 19399, 131, 210, 0, 0), ("P", 1, 19592, 43, 201, 0, 0),
    ("P", 1, 20000, 200, 200, 0, 0), ("P", 1, 20000, 200, 228, 0, 0),
    ("P", 1, 20000, 200, 227, 0, 0), ("P", 2, 20000, 200, 300, 0, 0),
    ("P", 20, 3125, 200, 1000, 0, 0), ("P", 20, 2599, 33, 548, 0, 0),
    ("P", 3, 16816, 33, 531, 0, 0), ("P", 3, 16661, 100, 588, 0, 0),
    ("P", 2, 15625, 25, 320, 0, 0), ("P", 2, 11258, 12, 227, 0, 0),
    ("P", 7, 5123, 77, 391, 0, 0), ("P", 7, 4599, 200, 399, 0, 0),
    ("P", 17, 1152, 180, 219, 0, 0), ("P", 17, 1151, 180, 219, 0, 0),
    ("L", 1, 173, 150, 1015, 149, 39), ("L", 1, 334, 128, 1380, 192, 92),
    ("L", 20, 61, 128, 509, 137, 185), ("L", 20, 187, 65, 1135, 118, 848),
    ("L", 3, 164, 181, 1253, 168, 208), ("L", 3, 266, 78, 1431, 86, 137),
    ("L", 2, 25, 83, 1239, 181, 144), ("L", 2, 202, 72, 1448, 139, 150),
    ("L", 1, 38, 200, 114, 40, 1000), ("L", 1, 10, 50, 1500, 200, 20),
)


def limit_edges():
    """Leads just narrow enough and too wide, forces just below and above the limit."""
    for p1, p3 in WIDTHS:
        yield sheet_of(100, [("L", 1, p1, 100, p3, 100, 300)], [CASE])
    for row in STRENGTHS:
        yield sheet_of(1000, [row], [CASE])


def place_edges():
    """As many rows and cases as there are places, and one more."""
    cases = numbered([(0, 3 * n + 1, SITES[n % 4], 100, 120, 90, 130, RULES[n % 2])
                      for n in range(17)])
    for rows, count in ((1, 16), (1, 17), (64, 1), (64, 16), (65, 1), (65, 17), (64, 17)):
        yield sheet_of(20, [LEAST_ROW] * rows, cases[:count])
    yield sheet_of(20, [P_ROW, L_ROW] * 32, cases[:1])


# ------------------------------------------------------- forms of lines


def spoilt(line):
    """A line spoilt in ways that leave it a line."""
    yield from (b"", line + b",", b"," + line, line + b" ", b" " + line, line + b"\r")
    yield from (line + b"\0", line + b",0", line[:-1], line[1:], b"\xff" + line[1:])
    yield from (line.replace(b",", b";", 1), line.replace(b",", b",,", 1))
    yield from (line.replace(b",", b", ", 1), line.replace(b",", b",+", 1))
    yield from (line.replace(b",", b",-", 1), line.replace(b"0", b".", 1))
    yield from (line.swapcase(), b'"' + line + b'"', line.rpartition(b",")[0])


def spoilt_lines():
    """Every kind of line spoilt in every way."""
    lines = plain_lines()
    for place in (0, 1, 2, 3, 5, 7):
        for line in dict.fromkeys(spoilt(lines[place])):
            yield text(changed(lines, {place: line}))


def other_words():
    """Letters, sites and rules that are not named."""
    for letter in ("Q", "l", "p", "LL", "PL", "0", "", "K"):
        for row in (P_ROW, L_ROW):
            yield sheet_of(100, [changed(row, {0: letter})], [CASE])
    for site in ("i", "V", "IIII", "IIV", "VI", "0", "", "2", "ii", "IVI", "X"):
        yield sheet_of(100, [P_ROW], [changed(CASE, {2: site})])
    for rule in ("t", "e", "TE", "", "0", "A", "EE"):
        yield sheet_of(100, [P_ROW], [changed(CASE, {7: rule})])


CASE_WORDS = (NAMES_3, b"case", b"cases", b"case,", b"caseL,1", b"caseP,1,1000,60,1000,0,0",
              NAMES_3 + b",", NAMES_3[:-1], NAMES_3 + b" ", NAMES_3 + b"\r", b"cas", b"Case",
              NAMES_3.upper(), b" " + NAMES_3)


def case_words():
    """Lines that begin like the third names line, at every place among rows and cases."""
    lines = plain_lines()
    for word in CASE_WORDS:
        for place in (3, 5, 6, 8):
            yield text(lines[:place] + [word] + lines[place:])
        yield text(changed(lines, {5: word}))
    for word in (NAMES_3, b"cases", b""):
        yield sheet_of(20, [LEAST_ROW] * 64 + [word], [LEAST_CASE])


def moved_lines():
    """Lines doubled, exchanged and removed, empty ones put in, and early ends."""
    lines = plain_lines()
    for n in range(len(lines)):
        yield text(lines[: n + 1] + lines[n:])
        yield text(lines[:n] + lines[n + 1:])
        yield text(lines[:n] + [b""] + lines[n:])
        yield text(lines[:n])
        yield text(lines[:n] + [b""])
        yield text(lines[:n] + lines[n:n + 2][::-1] + lines[n + 2:])
        yield text(lines[:n]) + lines[n]
    yield text(lines + [b""])


def cuts():
    """A short sheet cut at every byte of its value lines and at some of its names lines."""
    lines = lines_of(1, [LEAST_ROW], [LEAST_CASE])
    for place, line in enumerate(lines):
        names = line in (NAMES_1, NAMES_2, NAMES_3)
        for length in (1, 4, len(line) - 1, len(line)) if names else range(len(line) + 1):
            yield text(lines[:place]) + line[:length]
    yield text(lines)


def odd_bytes():
    """Other line ends, bytes after the end, and bytes that are no text."""
    sheet = text(plain_lines())
    yield sheet.replace(b"\n", b"\r\n")
    yield sheet.replace(b"\n", b"\r")
    for tail in (b" ", b"\0", b"\r\n", b"\n\n", b"3", b"3,", b"end,2\n", b"\xff\n"):
        yield sheet + tail
    yield bytes(range(256))
    yield bytes(range(255, -1, -1))
    yield b"\xef\xbb\xbf" + sheet
    yield sheet.replace(b"4", "\u0664".encode())


# ------------------------------------------- pairs of faults on one line

ROW_EDITS = {
    "L": {
        "count": ({1: 0}, {1: 21}),
        "p1": ({2: 9}, {2: 401}),
        "p2": ({3: 49}, {3: 201}),
        "p3": ({4: 99}, {4: 1501}),
        "p4": ({5: 39}, {5: 201}),
        "p5": ({6: 19}, {6: 1001}),
        "wide": ({2: 400, 4: 1199}, {2: 34, 4: 100}),
        "strong": ({4: 1500, 5: 200, 6: 20},),
        "group": ({1: 20, 4: 1500, 5: 60, 6: 200}, {1: 20, 4: 1500, 5: 200, 6: 1000}),
    },
    "P": {
        "count": ({1: 0}, {1: 21}),
        "p1": ({2: 9}, {2: 20_001}),
        "p2": ({3: 9}, {3: 201}),
        "p3": ({4: 199}, {4: 20_001}),
        "p4": ({5: 1}, {5: 9_999_999}),
        "p5": ({6: 1}, {6: 9_999_999}),
        "strong": ({2: 20_000, 3: 200, 4: 200},),
        "group": ({1: 20, 2: 20_000, 4: 1000}, {1: 20, 2: 20_000, 4: 2000}),
    },
}

CASE_EDITS = {
    "number": ({0: 0}, {0: 7}),
    "accel": ({1: 0}, {1: 101}),
    "slo": ({3: 49}, {3: 301}),
    "shi": ({4: 301}, {4: 49}),
    "klo": ({5: 49}, {5: 301}),
    "khi": ({6: 301}, {6: 49}),
    "s reversed": ({3: 121, 4: 120},),
    "k reversed": ({5: 300, 6: 50},),
}


def outside(value, bounds):
    """Whether a value is outside its bounds."""
    return not bounds[0] <= value <= bounds[1]


def row_faults(row):
    """The names of the faults that a row line of right form has."""
    kind, count, *p = row
    names = ("count", "p1", "p2", "p3", "p4", "p5")
    found = {n for n, v, r in zip(names, row[1:], ROW_RANGES[kind]) if outside(v, r)}
    if kind == "L" and 3 * p[0] > p[2]:
        found.add("wide")
    bearing = second.lead_rubber(*p) if kind == "L" else second.pendulum(*p)
    force = second.strongest_force(bearing)
    if force > second.STRONGEST:
        found.add("strong")
    if count * force > second.STRONGEST:
        found.add("group")
    return found


def case_faults(case):
    """The names of the faults that the first case line has."""
    number, accel, _, slo, shi, klo, khi, _ = case
    bounds = {"slo": slo, "shi": shi, "klo": klo, "khi": khi}
    found = {name for name, bound in bounds.items() if outside(bound, FACTOR_RANGE)}
    tests = {"number": number != 1, "accel": outside(accel, ACCEL_RANGE),
             "s reversed": slo > shi, "k reversed": klo > khi}
    return found | {name for name, bad in tests.items() if bad}


def with_faults(base, edits, faults, wanted):
    """The line with the wanted faults and as few others as may be, or None."""
    best = None
    for order in itertools.permutations(wanted):
        for choice in itertools.product(*(edits[name] for name in order)):
            line = base
            for edit in choice:
                line = changed(line, edit)
            found = faults(line)
            if found.issuperset(wanted) and (best is None or len(found) < len(faults(best))):
                best = line
    return best


def faulty(base, edits, faults, most):
    """Lines with every set of one up to most faults that can stand together."""
    for size in range(1, most + 1):
        for wanted in itertools.combinations(edits, size):
            line = with_faults(base, edits, faults, wanted)
            if line is not None:
                yield line


def faulty_rows(most):
    """Row lines of both kinds with up to so many faults."""
    for base in (L_ROW, P_ROW):
        yield from faulty(base, ROW_EDITS[base[0]], row_faults, most)


def faulty_cases(most):
    """Case lines with up to so many faults."""
    yield from faulty(CASE, CASE_EDITS, case_faults, most)


def row_at(line, others):
    """A sheet with the row line after so many other rows."""
    return sheet_of(20, [LEAST_ROW] * others + [line], [LEAST_CASE])


def case_at(line, others):
    """A sheet with the case line after so many other cases."""
    return sheet_of(20, [LEAST_ROW], numbered([LEAST_CASE] * others) + [line])


def cut_after(sheet, line):
    """The sheet cut before the line end of the line."""
    return sheet[: sheet.index(b"\n" + line + b"\n") + 1 + len(line)]


def row_pairs():
    """Every two faults of a row line; each also with bad form, no place and no line end."""
    for row in faulty_rows(2):
        yield row_at(row, 1)
    for row in [L_ROW, P_ROW, *faulty_rows(1)]:
        line = joined(row)
        yield row_at(line + b",0", 0)
        yield cut_after(row_at(line, 0), line)
        yield row_at(line, 64)
    line = joined(P_ROW)
    yield cut_after(row_at(line + b",", 0), line + b",")
    yield cut_after(row_at(line, 64), line)
    yield row_at(line + b",", 64)
    yield cut_after(row_at(line + b",", 64), line + b",")


def as_last(case):
    """The case line as a seventeenth: its number is 17 where it was right."""
    return changed(case, {0: 17}) if case[0] == 1 else case


def case_pairs():
    """Every two faults of a case line; each also with bad form, no place and no line end."""
    for case in faulty_cases(2):
        yield case_at(case, 0)
    for case in [CASE, *faulty_cases(1)]:
        line, last = joined(case), joined(as_last(case))
        yield case_at(line + b",0", 0)
        yield case_at(line, 0)[:-1]
        yield case_at(last, 16)
        yield case_at(last + b",", 16)
        yield case_at(last, 16)[:-1]
    yield case_at(joined(CASE) + b",", 0)[:-1]
    yield case_at(b"17,30,II,100,120,100,100,T,", 16)[:-1]


def other_pairs():
    """A names line or the weight with two faults: not as it should be and no line end."""
    lines = plain_lines()
    for place, line in ((0, b"Weight"), (1, b"0"), (1, b"0300"), (2, b"kind"), (5, b"cases")):
        yield text(changed(lines, {place: line}))
        yield text(lines[:place]) + line


# ---------------------------------------- pairs of faults on two lines

ROW_FAULT_LINES = (
    b"Q,4,1000,60,1000,0,0", b"P,0,1000,60,1000,0,0", b"P,4,9,60,1000,0,0",
    b"P,4,1000,60,1000,0,5", b"L,1,167,114,500,62,150", b"P,1,20000,200,200,0,0",
    b"P,2,20000,200,300,0,0",
)
CASE_FAULT_ENDS = (b",30,X,100,120,100,100,T", b",0,II,100,120,100,100,T",
                   b",30,II,100,120,301,100,T", b",30,II,121,120,100,100,T")
FEW_FAULTS = (
    (0, b"Weight"), (1, b"4,0"), (1, b"1000001"), (2, b"kind,count"),
    (3, ROW_FAULT_LINES[0]), (3, ROW_FAULT_LINES[2]), (4, ROW_FAULT_LINES[6]),
    (5, b"case,accel"), (6, b"1" + CASE_FAULT_ENDS[0]), (6, b"1" + CASE_FAULT_ENDS[1]),
    (7, b"2" + CASE_FAULT_ENDS[3]), (8, b""),
)


def case_fault_lines(number):
    """Faulty lines for the case of this number."""
    return [b"%d" % number + end for end in CASE_FAULT_ENDS] + [b"9,30,II,100,120,100,100,T"]


def two_lines():
    """Faults on two different lines."""
    lines = plain_lines()
    for first, later in itertools.product(ROW_FAULT_LINES, repeat=2):
        yield text(changed(lines, {3: first, 4: later}))
    for first, later in itertools.product(case_fault_lines(1), case_fault_lines(2)):
        yield text(changed(lines, {6: first, 7: later}))
    for one, other in itertools.combinations(FEW_FAULTS, 2):
        if one[0] != other[0]:
            yield text(changed(lines + [None], dict([one, other]))[: 8 + (other[0] == 8)])
    for place, line in FEW_FAULTS[:-1]:
        yield text(changed(lines, {place: line}))[:-1]


# ------------------------------------------------------------- oversize


def oversize():
    """Sheets of the greatest length and above, with and without other faults."""
    lines = plain_lines()
    good = text(lines)
    for length in (LONGEST, LONGEST + 1):
        yield padded(good, length)
        yield padded(good, length, b"\n")
    yield padded(good, LONGEST - 1) + b"\n"
    yield padded(b"", LONGEST + 1)
    for place, line in FEW_FAULTS[:-1:2]:
        yield padded(text(changed(lines, {place: line})), LONGEST + 1)
    yield padded(row_at(P_ROW, 64), LONGEST + 1)
    yield padded(case_at(as_last(CASE), 16), LONGEST + 1)
    yield padded(text(lines[:3]), LONGEST + 1, joined(P_ROW) + b"\n")
    yield padded(text(lines[:3]), LONGEST, joined(P_ROW) + b"\n")
    yield padded(good, 20_000)


# ----------------------------------------------- answers at their edges

JUST_MET = (
    (569605, ("L", 7, 128, 168, 788, 48, 233), (1, 1, "I", 95, 105, 82, 103, "E")),
    (311052, ("P", 1, 43, 190, 208, 0, 0), (1, 1, "I", 148, 148, 163, 163, "E")),
    (11208, ("P", 1, 224, 98, 20000, 0, 0), (1, 4, "I", 100, 130, 55, 278, "E")),
    (17314, ("P", 1, 32, 104, 2000, 0, 0), (1, 2, "II", 99, 124, 58, 135, "E")),
    (124542, ("P", 1, 109, 97, 500, 0, 0), (1, 1, "I", 109, 173, 50, 300, "E")),
    (376123, ("P", 1, 223, 115, 500, 0, 0), (1, 2, "I", 99, 103, 50, 300, "E")),
    (8335, ("P", 1, 14, 14, 500, 0, 0), (1, 1, "I", 91, 121, 50, 300, "T")),
    (375305, ("P", 1, 256, 129, 200, 0, 0), (1, 1, "IV", 142, 219, 131, 131, "T")),
    (2067, ("L", 2, 10, 173, 1301, 130, 567), (1, 4, "II", 93, 93, 50, 300, "T")),
    (18707, ("L", 1, 10, 103, 663, 52, 754), (1, 1, "II", 50, 300, 63, 286, "T")),
    (54836, ("L", 1, 10, 81, 151, 154, 34), (1, 3, "I", 119, 223, 98, 120, "T")),
    (335589, ("P", 1, 522, 171, 16080, 0, 0), (1, 1, "II", 183, 183, 63, 229, "T")),
    (18121, ("P", 1, 12, 180, 10743, 0, 0), (1, 1, "II", 98, 216, 90, 109, "T")),
)
JUST_MISSED = (
    (58859, ("P", 1, 179, 122, 20000, 0, 0), (1, 1, "II", 100, 100, 50, 300, "E")),
    (137371, ("P", 1, 88, 194, 200, 0, 0), (1, 2, "I", 99, 104, 92, 118, "E")),
    (186421, ("L", 1, 10, 122, 815, 141, 628), (1, 1, "III", 85, 121, 100, 100, "E")),
    (546567, ("P", 1, 249, 84, 200, 0, 0), (1, 1, "I", 81, 116, 215, 215, "T")),
    (609819, ("P", 1, 257, 59, 2000, 0, 0), (1, 1, "I", 102, 221, 50, 300, "T")),
    (231782, ("L", 1, 38, 121, 1462, 143, 538), (1, 1, "III", 68, 195, 50, 300, "T")),
    (15400, ("P", 1, 60, 132, 2000, 0, 0), (1, 3, "II", 231, 231, 95, 111, "T")),
)
JUST_RESTORES = (
    (4632, ("P", 3, 1000, 109, 1000, 0, 0), (1, 22, "I", 100, 100, 100, 100, "E")),
    (23232, ("P", 2, 1000, 33, 1000, 0, 0), (1, 19, "I", 100, 100, 100, 100, "T")),
)
YIELDS_EVENLY = (("L", 1, 10, 65, 100, 40, 200), ("L", 1, 10, 130, 100, 40, 200))


def fine_points():
    """Demands met or missed by less than one, restoring just so, an even yield displacement."""
    for weight, row, case in JUST_MET + JUST_RESTORES:
        yield sheet_of(weight, [row], [case])
        yield sheet_of(weight + 1, [row], [case])
    for weight, row, case in JUST_MISSED:
        yield sheet_of(weight, [row], [case])
    for row, weight in itertools.product(YIELDS_EVENLY, (1, 2, 5)):
        yield sheet_of(weight, [row], [(1, 20, "II", 100, 150, 100, 150, "T")])


def last_weights():
    """The greatest weight answered at a displacement, and one more."""
    row, factors = ("P", 1, 100, 50, 2000, 0, 0), (90, 110, 100, 100)
    for rule, d in itertools.product(RULES, (1, 2, 249, 250, 251, 9_999, 10_000)):
        accel = 1 if d < 1000 else 4
        weight = weight_for(greatest_demand([row], factors, rule, d), accel, "I")
        for more in (0, 1):
            yield sheet_of(weight + more, [row], [(1, accel, "I", *factors, rule)])


# ------------------------------------------------------- the fixed list

FIXED = (weight_edges, row_edges, case_edges, limit_edges, place_edges, spoilt_lines,
         other_words, case_words, moved_lines, cuts, odd_bytes, row_pairs, case_pairs,
         other_pairs, two_lines, fine_points, last_weights, oversize)


def systematic():
    """The fixed list of all edge and pair sheets, each once."""
    yield from dict.fromkeys(sheet for make in FIXED for sheet in make())


# -------------------------------------------------- random whole sheets


def spread(rng, low, high):
    """A random number of the range, the small ones as likely as the great ones."""
    doublings = rng.randint(0, (high // low).bit_length())
    return rng.randint(low, min(high, low << doublings))


def random_lead_rubber(rng):
    """The fields of a random lead-rubber bearing."""
    p3 = rng.randint(100, 1500)
    p1 = rng.choice((rng.randint(10, min(400, p3 // 3)), min(400, p3 // 3), 10))
    return (p1, rng.randint(50, 200), p3, rng.randint(40, 200), spread(rng, 20, 1000))


def random_pendulum(rng):
    """The fields of a random pendulum bearing."""
    return (spread(rng, 10, 20_000), rng.randint(10, 200), spread(rng, 200, 20_000), 0, 0)


def random_row(rng, kind):
    """A random row that is not too strong."""
    while True:
        p = random_lead_rubber(rng) if kind == "L" else random_pendulum(rng)
        bearing = second.lead_rubber(*p) if kind == "L" else second.pendulum(*p)
        most = min(20, second.STRONGEST // second.strongest_force(bearing))
        if most > 0:
            return (kind, rng.choice((1, most, rng.randint(1, most))), *p)


def random_rows(rng, count):
    """Random rows, of one kind or mixed."""
    kinds = rng.choice(("L", "P", "LP"))
    return [random_row(rng, rng.choice(kinds)) for _ in range(count)]


def random_bounds(rng):
    """Lower and upper bound of a factor: nominal, narrow, one value or any."""
    low, high = sorted((rng.randint(50, 300), rng.randint(50, 300)))
    narrow = (rng.randint(80, 100), rng.randint(100, 130))
    return rng.choice(((100, 100), narrow, narrow, (low, low), (low, high), (50, 300)))


def random_factors(rng):
    """slo, shi, klo, khi."""
    return (*random_bounds(rng), *random_bounds(rng))


ENDS = (1, 2, 3, 249, 250, 251, 5000, 9998, 9999, 10_000)


def random_target(rng):
    """A displacement that a case is to be answered at."""
    evenly = rng.randint(1, 10_000)
    return rng.choice((evenly, evenly, evenly, evenly, spread(rng, 1, 10_000), rng.choice(ENDS)))


def built(rows):
    """Rows of fields as the second program has them."""
    kinds = {"L": second.lead_rubber, "P": second.pendulum}
    return [(row[1], kinds[row[0]](*row[2:])) for row in rows]


def greatest_demand(rows, factors, rule, d):
    """The greatest demand that is met at d with the bearings at their softest."""
    force, energy = second.sums(second.parts_at(built(rows), factors[0], factors[2]), d)
    if d * force == 0:
        return 1
    gain = second.GAIN[rule.encode()](second.damping_percent(energy, d * force))
    return max(1, int(d * force * gain))


def unit_demand(accel, site):
    """A hundred thousand times the demand of one kN."""
    return 251_519 * (accel * second.SITES[site.encode()]) ** 2


def weight_for(demand, accel, site):
    """The greatest weight whose demand is at most this, in its range or not."""
    return demand * 100_000 // unit_demand(accel, site)


def random_weight(rng, demand):
    """A weight in its range that has about this demand, with some acceleration."""
    for _ in range(30):
        weight = weight_for(demand, rng.randint(1, 100), rng.choice(SITES))
        if WEIGHT_RANGE[0] <= weight <= WEIGHT_RANGE[1]:
            return weight
    return spread(rng, *WEIGHT_RANGE)


def accel_for(demand, weight, site):
    """The acceleration in its range nearest to what gives the demand."""
    square = demand * 100_000 // (weight * unit_demand(1, site))
    return min(100, max(1, (isqrt(4 * square) + 1) // 2))


def random_plan(rng, rows):
    """Factors, rule and demand of a case to be answered at a random place, or beyond range."""
    factors, rule = random_factors(rng), rng.choice(RULES)
    if rng.random() < 0.06:
        return factors, rule, 2 * greatest_demand(rows, factors, rule, 10_000)
    return factors, rule, greatest_demand(rows, factors, rule, random_target(rng))


def random_whole(rng, row_count, case_count):
    """A random good sheet."""
    rows = random_rows(rng, row_count)
    plans = [random_plan(rng, rows) for _ in range(case_count)]
    weight = random_weight(rng, max(demand for _, _, demand in plans))
    cases = []
    for factors, rule, demand in plans:
        site = rng.choice(SITES)
        cases.append((0, accel_for(demand, weight, site), site, *factors, rule))
    return sheet_of(weight, rows, numbered(cases))


def small(rng):
    """A good sheet of few rows and cases."""
    rows = rng.choice((1, 1, 2, 2, 3, 4))
    return random_whole(rng, rows, rng.choice((1, 1, 2, 2, 3)))


def middling(rng):
    """A good sheet of some more rows or cases."""
    if rng.random() < 0.5:
        return random_whole(rng, rng.randint(5, 16), 1)
    return random_whole(rng, 1, rng.randint(4, 16))


def large(rng):
    """A good sheet of up to the most rows and cases."""
    rows = rng.choice((17, 63, 64, rng.randint(17, 64)))
    return random_whole(rng, rows, rng.choice((1, 2, 3, 16)))


def tight_weight(rng, demand):
    """Weight, acceleration and site whose demand is exactly this or one more, or None."""
    for accel, site in itertools.product(range(1, 6), SITES):
        weight = weight_for(demand, accel, site) + rng.randint(0, 1)
        if not outside(weight, WEIGHT_RANGE):
            found = second.demand_of(weight, accel, second.SITES[site.encode()])
            if found in (demand, demand + 1):
                return weight, accel, site
    return None


def tight(rng):
    """A good sheet whose demand is met, or missed, by less than one at some displacement."""
    rows = random_rows(rng, rng.randint(1, 2))
    factors, rule = random_factors(rng), rng.choice(RULES)
    for _ in range(200):
        demand = greatest_demand(rows, factors, rule, random_target(rng))
        found = tight_weight(rng, demand)
        if found is not None:
            weight, accel, site = found
            return sheet_of(weight, rows, [(1, accel, site, *factors, rule)])
    return small(rng)


# ------------------------------------------------- random edges and harm


def ranges_of(line):
    """The ranges of the number fields of a value line, by field."""
    fields = line.split(b",")
    if len(fields) == 1:
        return {0: WEIGHT_RANGE}
    if len(fields) == 7:
        return dict(enumerate(ROW_RANGES[fields[0].decode()], 1))
    factors = {field: FACTOR_RANGE for field in (3, 4, 5, 6)}
    return {0: (int(fields[0]), int(fields[0])), 1: ACCEL_RANGE, **factors}


def at_edge(rng, line):
    """The value line with one number at an edge."""
    field, bounds = rng.choice(list(ranges_of(line).items()))
    value = rng.choice(edge_values(*bounds)).encode()
    return b",".join(changed(line.split(b","), {field: value}))


def edged(rng):
    """A small good sheet with one or two value lines at an edge."""
    lines = small(rng).split(b"\n")[:-1]
    values = [place for place, line in enumerate(lines)
              if line not in (NAMES_1, NAMES_2, NAMES_3)]
    places = rng.sample(values, rng.choice((1, 1, 2)))
    return text(changed(lines, {place: at_edge(rng, lines[place]) for place in places}))


def byte_for(rng):
    """A random byte, often one that matters to a sheet."""
    some = b"0123456789,\nLPTEIV \r\0casekind-"
    return bytes([rng.choice((rng.choice(some), rng.randrange(256)))])


def cut_anywhere(rng, sheet):
    """The sheet cut at any byte."""
    return sheet[: rng.randrange(len(sheet) + 1)]


def other_byte(rng, sheet):
    """The sheet with a byte replaced."""
    at = rng.randrange(len(sheet))
    return sheet[:at] + byte_for(rng) + sheet[at + 1:]


def more_byte(rng, sheet):
    """The sheet with a byte put in."""
    at = rng.randrange(len(sheet) + 1)
    return sheet[:at] + byte_for(rng) + sheet[at:]


def less_byte(rng, sheet):
    """The sheet with a byte removed."""
    at = rng.randrange(len(sheet))
    return sheet[:at] + sheet[at + 1:]


def line_doubled(rng, sheet):
    """The sheet with a line doubled."""
    lines = sheet.split(b"\n")
    at = rng.randrange(len(lines))
    return b"\n".join(lines[: at + 1] + lines[at:])


def lines_exchanged(rng, sheet):
    """The sheet with two lines exchanged."""
    lines = sheet.split(b"\n")
    one, other = rng.randrange(len(lines)), rng.randrange(len(lines))
    lines[one], lines[other] = lines[other], lines[one]
    return b"\n".join(lines)


def line_removed(rng, sheet):
    """The sheet with a line removed."""
    lines = sheet.split(b"\n")
    del lines[rng.randrange(len(lines))]
    return b"\n".join(lines)


def line_put_in(rng, sheet):
    """The sheet with an empty line or one like the names line of the cases put in."""
    lines = sheet.split(b"\n")
    lines.insert(rng.randrange(len(lines)), rng.choice((b"", b"", *CASE_WORDS)))
    return b"\n".join(lines)


def line_spoilt(rng, sheet):
    """The sheet with one line spoilt."""
    lines = sheet.split(b"\n")
    at = rng.randrange(len(lines))
    lines[at] = rng.choice(list(spoilt(lines[at])))
    return b"\n".join(lines)


def early_end(rng, sheet):
    """The sheet ended after a line, with or without its line end."""
    lines = sheet.split(b"\n")[:-1]
    kept = text(lines[: rng.randrange(len(lines) + 1)])
    return kept if rng.random() < 0.5 else kept[:-1]


def tail_put(rng, sheet):
    """The sheet with bytes after it."""
    return sheet + b"".join(byte_for(rng) for _ in range(rng.randint(1, 6)))


def no_last_end(_rng, sheet):
    """The sheet without its last byte."""
    return sheet[:-1]


def other_ends(rng, sheet):
    """The sheet with other line ends."""
    return sheet.replace(b"\n", rng.choice((b"\r\n", b"\r", b"\n\r", b"\n\n")))


def word_exchanged(rng, sheet):
    """The sheet with one field exchanged for another word."""
    lines = [line.split(b",") for line in sheet.split(b"\n")]
    fields = rng.choice(lines)
    words = (b"L", b"P", b"Q", b"I", b"II", b"III", b"IV", b"V", b"T", b"E", b"t", b"0", b"")
    fields[rng.randrange(len(fields))] = rng.choice(words)
    return b"\n".join(b",".join(fields) for fields in lines)


def made_long(rng, sheet):
    """The sheet with filler up to the greatest length, or past it."""
    near = rng.randint(LONGEST - 1, LONGEST + 2)
    length = rng.choice((near, near, near, rng.randint(16_000, 40_000)))
    filler = rng.choice((b"x", b"\n", b"0", b",", joined(P_ROW) + b"\n", byte_for(rng)))
    return padded(sheet, length, filler)


HARM = (cut_anywhere, cut_anywhere, other_byte, other_byte, other_byte, more_byte, more_byte,
        less_byte, less_byte, line_doubled, lines_exchanged, line_removed, line_put_in,
        line_spoilt, early_end, tail_put, no_last_end, other_ends, word_exchanged,
        word_exchanged)


def harmed(rng, sheet):
    """The sheet harmed once or twice."""
    for _ in range(rng.choice((1, 1, 1, 2))):
        sheet = rng.choice(HARM)(rng, sheet or b"\n")
    return sheet


def small_harmed(rng):
    """A small sheet harmed."""
    return harmed(rng, small(rng))


def random_bytes(rng):
    """Bytes that are no sheet, some after a good beginning."""
    head = text([NAMES_1, b"100", NAMES_2][: rng.randrange(4)])
    return head + rng.randbytes(rng.randint(0, 120))


def long_one(rng):
    """A sheet near the greatest length or above, good or harmed before."""
    sheet = small(rng)
    return made_long(rng, sheet if rng.random() < 0.4 else harmed(rng, sheet))


def many_faults(rng):
    """A row or case line with three faults, anywhere up to past the last place."""
    if rng.random() < 0.5:
        kind = rng.choice("LP")
        wanted = rng.sample(list(ROW_EDITS[kind]), 3)
        line = with_faults(L_ROW if kind == "L" else P_ROW, ROW_EDITS[kind], row_faults, wanted)
        return row_at(line or P_ROW, rng.choice((0, 1, 63, 64)))
    line = with_faults(CASE, CASE_EDITS, case_faults, rng.sample(list(CASE_EDITS), 3)) or CASE
    return case_at(rng.choice((line, as_last(line))), rng.choice((0, 1, 15, 16)))


KINDS = ((small, 45), (tight, 10), (middling, 4), (large, 0.5), (edged, 12), (small_harmed, 20),
         (random_bytes, 1), (long_one, 1.5), (many_faults, 2))


def sheets(count, seed):
    """So many sheets of all kinds, the same ones for the same seed."""
    rng = random.Random(seed)
    fixed = list(systematic())
    makers, weights = zip(*KINDS, (lambda r: r.choice(fixed), 3),
                          (lambda r: harmed(r, r.choice(fixed)), 3))
    for _ in range(count):
        yield rng.choices(makers, weights)[0](rng)
