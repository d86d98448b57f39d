"""The second program: bytes of a sheet to bytes of the page, written from docs/ alone.

The formulas stand as an engineer writes them, damping and its factor are exact
fractions, and a design displacement is looked for at every displacement in turn.
"""

import re
import sys
from fractions import Fraction

LONGEST_SHEET = 16_384
MOST_ROWS = 64
MOST_CASES = 16
FARTHEST = 10_000
STRONGEST = 100_000_000

NAMES_1 = b"weight"
NAMES_2 = b"kind,count,p1,p2,p3,p4,p5"
NAMES_3 = b"case,accel,site,slo,shi,klo,khi,rule"

NUMBER = re.compile(rb"0|[1-9][0-9]{0,6}")
SITES = {b"I": 10, b"II": 15, b"III": 20, b"IV": 27}
RULES = (b"T", b"E")

LEAD_RUBBER_RANGES = ((10, 400), (50, 200), (100, 1_500), (40, 200), (20, 1_000))
PENDULUM_RANGES = ((10, 20_000), (10, 200), (200, 20_000), (0, 0), (0, 0))

OUT_OF_RANGE, LEAD_TOO_WIDE, TOO_STRONG, NO_PLACE = 1, 2, 3, 4
BOUNDS_REVERSED, BEYOND_RANGE = 7, 8
NAMES_LINE, VALUE_LINE, SHEET_TOO_LONG = 12, 13, 14
BEARING, BRIDGE, SHEET = 1, 2, 3


class Refused(Exception):
    """The sheet is refused: number, layer, line and field."""

    def __init__(self, number, layer, line, field=0):
        super().__init__(number, layer, line, field)


# ---------------------------------------------------------------- bearings


def rounded_up(a, b):
    """The quotient a / b rounded up to a whole number."""
    return -(-a // b)


def lead_rubber(p1, p2, p3, p4, p5):
    """A lead-rubber bearing: give it factors, then a displacement, for force and energy."""
    strength = 355 * p1 ** 2 * p2 * 9 // 45_200
    stiffness = 3_905 * p4 * (p3 ** 2 - p1 ** 2) // (452_000 * p5)
    yields = rounded_up(10 * strength, 9 * stiffness)

    def with_factors(s, k):
        q = strength * s // 100
        slope = stiffness * k
        at_yield = q + slope * yields // 1_000

        def at(d):
            if d < yields:
                return at_yield * d // yields, 0
            return q + slope * d // 1_000, q * (d - yields)

        return at

    return with_factors


def pendulum(p1, p2, p3, _p4, _p5):
    """A pendulum bearing: give it factors, then a displacement, for force and energy."""

    def with_factors(s, _k):
        q = p1 * p2 * s // 100
        slope = 100 * p1

        def at(d):
            if d < 1:
                return 0, 0
            return q + slope * d // p3, q * d

        return at

    return with_factors


def strongest_force(bearing):
    """The force of a bearing at the greatest factors and displacement."""
    return bearing(300, 300)(FARTHEST)[0]


# ------------------------------------------------- damping and its effect

TABLE = (
    (2, Fraction(8, 10)),
    (5, Fraction(10, 10)),
    (10, Fraction(12, 10)),
    (20, Fraction(15, 10)),
    (30, Fraction(17, 10)),
    (40, Fraction(19, 10)),
    (50, Fraction(20, 10)),
)


def damping_percent(energy, product):
    """The equivalent viscous damping in percent, exact."""
    return Fraction(4_520 * energy, 71 * product)


def table_factor(b):
    """The factor B of the AASHTO table at b percent, linear between the points."""
    if b <= TABLE[0][0]:
        return TABLE[0][1]
    for (b0, f0), (b1, f1) in zip(TABLE, TABLE[1:]):
        if b <= b1:
            return f0 + (b - b0) * (f1 - f0) / (b1 - b0)
    return TABLE[-1][1]


def gain_of_table(b):
    """What the product counts for under rule T: B squared."""
    return table_factor(b) ** 2


def gain_of_en(b):
    """What the product counts for under rule E: one over eta squared, eta at least 0.55."""
    return min((5 + Fraction(b)) / 10, 1 / Fraction(55, 100) ** 2)


GAIN = {b"T": gain_of_table, b"E": gain_of_en}


def says_yes(rule, energy, product, demand):
    """Whether the rule says yes to an energy, a product and a demand."""
    if not energy <= product <= 64_000_000_000_000:
        return False
    if not 1 <= demand <= 20_000_000_000_000 or product == 0:
        return False
    return product * GAIN[rule](damping_percent(energy, product)) >= demand


def gains_at_whole_percents(rule):
    """The gains at 0, 1, ... 64 percent, each as numerator and denominator."""
    return [GAIN[rule](Fraction(b)).as_integer_ratio() for b in range(65)]


WHOLE = {rule: gains_at_whole_percents(rule) for rule in RULES}


def surely_no(whole, energy, product, demand):
    """A quick no: no gain is above 4, and none falls when the damping is rounded up."""
    if product == 0 or 4 * product < demand:
        return True
    above, below = whole[rounded_up(4_520 * energy, 71 * product)]
    return product * above < demand * below


# ------------------------------------------------------------- the bridge


def sums(parts, d):
    """The sums of force and energy over the rows at displacement d."""
    force = energy = 0
    for count, at in parts:
        f, e = at(d)
        force += count * f
        energy += count * e
    return force, energy


def parts_at(rows, s, k):
    """The rows with one pair of factors for all."""
    return [(count, bearing(s, k)) for count, bearing in rows]


def design_displacement(parts, rule, demand):
    """The first displacement from 1 on that meets the demand, or None."""
    whole = WHOLE[rule]
    for d in range(1, FARTHEST + 1):
        force, energy = sums(parts, d)
        product = d * force
        if surely_no(whole, energy, product, demand):
            continue
        if says_yes(rule, energy, product, demand):
            return d
    return None


def demand_of(weight, accel, site):
    """The demand of a weight in kN, an acceleration in g/100 and a site in tenths."""
    return rounded_up(251_519 * (accel * site) ** 2 * weight, 100_000)


def restores(weight, soft, dlow):
    """Whether the force rises by W/80 from half of dlow to dlow."""
    rise = sums(soft, dlow)[0] - sums(soft, rounded_up(dlow, 2))[0]
    return 80 * rise >= 1_000 * weight


def answer(weight, rows, case):
    """The six fields of a page line after its place."""
    accel, site, slo, shi, klo, khi, rule = case
    demand = demand_of(weight, accel, site)
    soft, hard = parts_at(rows, slo, klo), parts_at(rows, shi, khi)
    dlow = design_displacement(soft, rule, demand)
    if dlow is None:
        return [BEYOND_RANGE, "-", "-", "-", "-", "-"]
    dhigh = design_displacement(hard, rule, demand)
    force = sums(hard, dlow)[0]
    back = "Y" if restores(weight, soft, dlow) else "N"
    return [0, dlow, dhigh, force, max(dlow, 250), back]


# -------------------------------------------------------------- the sheet


class Lines:
    """The lines of a sheet, taken one by one."""

    def __init__(self, sheet):
        *self.whole, self.rest = sheet.split(b"\n")
        self.place = 0

    def next(self):
        """The next line; 13 where it has no line end, 12 where the sheet is over."""
        self.place += 1
        if self.place <= len(self.whole):
            return self.whole[self.place - 1]
        raise Refused(VALUE_LINE if self.rest else NAMES_LINE, SHEET, self.place)

    def over(self):
        """Whether nothing stands after the lines taken."""
        return self.place == len(self.whole) and not self.rest


def check_names(lines, names):
    """The next line must be this names line."""
    if lines.next() != names:
        raise Refused(NAMES_LINE, SHEET, lines.place)


def check_form(right, line):
    """A value line must be of its form."""
    if not right:
        raise Refused(VALUE_LINE, SHEET, line)


def check_range(value, low, high, layer, line, field):
    """A number must be inside its range."""
    if not low <= value <= high:
        raise Refused(OUT_OF_RANGE, layer, line, field)


def are_numbers(fields):
    """Whether every field is a number of the format."""
    return all(NUMBER.fullmatch(field) for field in fields)


def weight_of(text, line):
    """The weight of the second line."""
    check_form(are_numbers([text]), line)
    check_range(int(text), 1, 1_000_000, BRIDGE, line, 1)
    return int(text)


def row_of(text, line, rows):
    """A row line as its count and its bearing."""
    kind, *fields = text.split(b",")
    check_form(kind in (b"L", b"P") and len(fields) == 6 and are_numbers(fields), line)
    count, *p = map(int, fields)
    check_range(count, 1, 20, BRIDGE, line, 2)
    ranges = LEAD_RUBBER_RANGES if kind == b"L" else PENDULUM_RANGES
    for place, (low, high) in enumerate(ranges):
        check_range(p[place], low, high, BEARING, line, 3 + place)
    if kind == b"L" and 3 * p[0] > p[2]:
        raise Refused(LEAD_TOO_WIDE, BEARING, line)
    bearing = lead_rubber(*p) if kind == b"L" else pendulum(*p)
    if strongest_force(bearing) > STRONGEST:
        raise Refused(TOO_STRONG, BEARING, line)
    if count * strongest_force(bearing) > STRONGEST:
        raise Refused(TOO_STRONG, BRIDGE, line)
    if len(rows) == MOST_ROWS:
        raise Refused(NO_PLACE, BRIDGE, line)
    return count, bearing


def case_of(text, line, cases):
    """A case line as acceleration, site, four bounds and rule."""
    fields = text.split(b",")
    check_form(len(fields) == 8, line)
    numbers, site, rule = fields[:2] + fields[3:7], fields[2], fields[7]
    check_form(are_numbers(numbers) and site in SITES and rule in RULES, line)
    place, accel, *bounds = map(int, numbers)
    check_range(place, len(cases) + 1, len(cases) + 1, SHEET, line, 1)
    check_range(accel, 1, 100, BRIDGE, line, 2)
    for field, bound in enumerate(bounds, 4):
        check_range(bound, 50, 300, BRIDGE, line, field)
    slo, shi, klo, khi = bounds
    if slo > shi or klo > khi:
        raise Refused(BOUNDS_REVERSED, BRIDGE, line)
    if len(cases) == MOST_CASES:
        raise Refused(NO_PLACE, BRIDGE, line)
    return accel, SITES[site], slo, shi, klo, khi, rule


def rows_of(lines):
    """The row lines and the names line after them."""
    rows = []
    text = lines.next()
    while not text.startswith(b"case"):
        rows.append(row_of(text, lines.place, rows))
        text = lines.next()
    if not rows or text != NAMES_3:
        raise Refused(NAMES_LINE, SHEET, lines.place)
    return rows


def cases_of(lines):
    """The case lines: at least one, up to the end of the sheet."""
    cases = []
    while not cases or not lines.over():
        cases.append(case_of(lines.next(), lines.place, cases))
    return cases


def read(sheet):
    """Weight, rows and cases of a sheet."""
    if len(sheet) > LONGEST_SHEET:
        raise Refused(SHEET_TOO_LONG, SHEET, 0)
    lines = Lines(sheet)
    check_names(lines, NAMES_1)
    weight = weight_of(lines.next(), lines.place)
    check_names(lines, NAMES_2)
    rows = rows_of(lines)
    return weight, rows, cases_of(lines)


# --------------------------------------------------------------- the page


def line_of(fields):
    """One line of the page."""
    return ",".join(map(str, fields)).encode() + b"\n"


def page_of(sheet: bytes) -> bytes:
    """The page of a sheet."""
    try:
        weight, rows, cases = read(sheet)
    except Refused as refusal:
        return b"refused,layer,line,field\n" + line_of(refusal.args)
    page = b"case,answer,dlow,dhigh,force,clear,restores\n"
    for place, case in enumerate(cases, 1):
        page += line_of([place] + answer(weight, rows, case))
    return page + line_of(["end", len(cases)])


def status_of(page: bytes) -> int:
    """The exit status that goes with a page."""
    return 1 if page.startswith(b"refused") else 0


def main():
    """Standard input to standard output."""
    page = page_of(sys.stdin.buffer.read())
    sys.stdout.buffer.write(page)
    return status_of(page)


if __name__ == "__main__":
    sys.exit(main())
