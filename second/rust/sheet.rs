//! The bytes of a sheet to a bridge and its load cases.

use crate::bearing::{Bearing, Row, TOP_FORCE};
use crate::bridge::{Bridge, Case};
use crate::damping::Rule;
use crate::refusal::{Layer, Reason, Refusal};

const LONGEST_SHEET: usize = 16_384;
const MOST_ROWS: usize = 64;
const MOST_CASES: usize = 16;

const NAMES_1: &[u8] = b"weight";
const NAMES_2: &[u8] = b"kind,count,p1,p2,p3,p4,p5";
const NAMES_3: &[u8] = b"case,accel,site,slo,shi,klo,khi,rule";

const LEAD_RUBBER_RANGES: [(u64, u64); 5] = [(10, 400), (50, 200), (100, 1_500), (40, 200), (20, 1_000)];
const PENDULUM_RANGES: [(u64, u64); 5] = [(10, 20_000), (10, 200), (200, 20_000), (0, 0), (0, 0)];

/// A line of the sheet and its place from 1.
#[derive(Clone, Copy)]
struct Line<'a> {
    text: &'a [u8],
    place: usize,
}

impl Line<'_> {
    fn refuse(self, reason: Reason, layer: Layer) -> Refusal {
        Refusal::of_line(reason, layer, self.place)
    }

    fn check_names(self, names: &[u8]) -> Result<(), Refusal> {
        if self.text == names {
            Ok(())
        } else {
            Err(self.refuse(Reason::NamesLine, Layer::Sheet))
        }
    }

    /// The value of a line of right form.
    fn formed<T>(self, value: Option<T>) -> Result<T, Refusal> {
        value.ok_or_else(|| self.refuse(Reason::ValueLine, Layer::Sheet))
    }

    fn check_range(self, value: u64, (low, high): (u64, u64), layer: Layer, field: usize) -> Result<(), Refusal> {
        if (low..=high).contains(&value) {
            Ok(())
        } else {
            Err(Refusal { reason: Reason::OutOfRange, layer, line: self.place, field })
        }
    }
}

/// The lines that are left of a sheet.
struct Lines<'a> {
    rest: &'a [u8],
    taken: usize,
}

impl<'a> Lines<'a> {
    fn next(&mut self) -> Result<Line<'a>, Refusal> {
        self.taken += 1;
        let Some(end) = self.rest.iter().position(|&b| b == b'\n') else {
            let reason = if self.rest.is_empty() { Reason::NamesLine } else { Reason::ValueLine };
            return Err(Refusal::of_line(reason, Layer::Sheet, self.taken));
        };
        let text = &self.rest[..end];
        self.rest = &self.rest[end + 1..];
        Ok(Line { text, place: self.taken })
    }
}

/// A number of the format: 1 to 7 digits without a leading zero.
fn number(text: &[u8]) -> Option<u64> {
    if text.is_empty() || text.len() > 7 || (text[0] == b'0' && text.len() > 1) {
        return None;
    }
    text.iter().try_fold(0, |n, b| b.is_ascii_digit().then(|| 10 * n + u64::from(b - b'0')))
}

/// The next N fields, all of them numbers.
fn numbers<'a, const N: usize>(fields: &mut impl Iterator<Item = &'a [u8]>) -> Option<[u64; N]> {
    let mut found = [0; N];
    for place in &mut found {
        *place = number(fields.next()?)?;
    }
    Some(found)
}

fn fields_of(text: &[u8]) -> impl Iterator<Item = &[u8]> {
    text.split(|&b| b == b',')
}

/// Kind, count and p1 to p5 of a row line.
fn row_form(text: &[u8]) -> Option<(u8, u64, [u64; 5])> {
    let mut fields = fields_of(text);
    let kind = match fields.next()? {
        b"L" => b'L',
        b"P" => b'P',
        _ => return None,
    };
    let [count] = numbers(&mut fields)?;
    let p = numbers(&mut fields)?;
    fields.next().is_none().then_some((kind, count, p))
}

fn bearing_of(line: Line, kind: u8, p: [u64; 5]) -> Result<Bearing, Refusal> {
    let ranges = if kind == b'L' { LEAD_RUBBER_RANGES } else { PENDULUM_RANGES };
    for (place, (value, range)) in p.into_iter().zip(ranges).enumerate() {
        line.check_range(value, range, Layer::Bearing, 3 + place)?;
    }
    if kind == b'L' && 3 * p[0] > p[2] {
        return Err(line.refuse(Reason::LeadTooWide, Layer::Bearing));
    }
    let bearing = if kind == b'L' { Bearing::lead_rubber(p) } else { Bearing::pendulum(p) };
    if bearing.greatest_force() > TOP_FORCE {
        return Err(line.refuse(Reason::TooStrong, Layer::Bearing));
    }
    Ok(bearing)
}

fn row_of(line: Line) -> Result<Row, Refusal> {
    let (kind, count, p) = line.formed(row_form(line.text))?;
    line.check_range(count, (1, 20), Layer::Bridge, 2)?;
    let bearing = bearing_of(line, kind, p)?;
    if count * bearing.greatest_force() > TOP_FORCE {
        return Err(line.refuse(Reason::TooStrong, Layer::Bridge));
    }
    Ok(Row { count, bearing })
}

fn site_of(text: &[u8]) -> Option<u64> {
    match text {
        b"I" => Some(10),
        b"II" => Some(15),
        b"III" => Some(20),
        b"IV" => Some(27),
        _ => None,
    }
}

fn rule_of(text: &[u8]) -> Option<Rule> {
    match text {
        b"T" => Some(Rule::Table),
        b"E" => Some(Rule::Eurocode),
        _ => None,
    }
}

/// The number of a case line and its case, in range or not.
fn case_form(text: &[u8]) -> Option<(u64, Case)> {
    let mut fields = fields_of(text);
    let [place, accel] = numbers(&mut fields)?;
    let site = site_of(fields.next()?)?;
    let [slo, shi, klo, khi] = numbers(&mut fields)?;
    let rule = rule_of(fields.next()?)?;
    let case = Case { accel, site, slo, shi, klo, khi, rule };
    fields.next().is_none().then_some((place, case))
}

fn case_of(line: Line, due: u64) -> Result<Case, Refusal> {
    let (place, case) = line.formed(case_form(line.text))?;
    line.check_range(place, (due, due), Layer::Sheet, 1)?;
    line.check_range(case.accel, (1, 100), Layer::Bridge, 2)?;
    for (field, bound) in [case.slo, case.shi, case.klo, case.khi].into_iter().enumerate() {
        line.check_range(bound, (50, 300), Layer::Bridge, 4 + field)?;
    }
    if case.slo > case.shi || case.klo > case.khi {
        return Err(line.refuse(Reason::BoundsReversed, Layer::Bridge));
    }
    Ok(case)
}

fn weight_of(line: Line) -> Result<u64, Refusal> {
    let weight = line.formed(number(line.text))?;
    line.check_range(weight, (1, 1_000_000), Layer::Bridge, 1)?;
    Ok(weight)
}

/// The row lines and the names line after them.
fn rows_of(lines: &mut Lines) -> Result<Vec<Row>, Refusal> {
    let mut rows = Vec::new();
    loop {
        let line = lines.next()?;
        if line.text.starts_with(b"case") {
            if rows.is_empty() {
                return Err(line.refuse(Reason::NamesLine, Layer::Sheet));
            }
            return line.check_names(NAMES_3).map(|()| rows);
        }
        let row = row_of(line)?;
        if rows.len() == MOST_ROWS {
            return Err(line.refuse(Reason::NoPlace, Layer::Bridge));
        }
        rows.push(row);
    }
}

/// The case lines: at least one, up to the end of the sheet.
fn cases_of(lines: &mut Lines) -> Result<Vec<Case>, Refusal> {
    let mut cases = Vec::new();
    while cases.is_empty() || !lines.rest.is_empty() {
        let line = lines.next()?;
        let case = case_of(line, cases.len() as u64 + 1)?;
        if cases.len() == MOST_CASES {
            return Err(line.refuse(Reason::NoPlace, Layer::Bridge));
        }
        cases.push(case);
    }
    Ok(cases)
}

/// The bridge of a sheet and its load cases.
pub fn read(sheet: &[u8]) -> Result<(Bridge, Vec<Case>), Refusal> {
    if sheet.len() > LONGEST_SHEET {
        return Err(Refusal::of_line(Reason::SheetTooLong, Layer::Sheet, 0));
    }
    let mut lines = Lines { rest: sheet, taken: 0 };
    lines.next()?.check_names(NAMES_1)?;
    let weight = weight_of(lines.next()?)?;
    lines.next()?.check_names(NAMES_2)?;
    let rows = rows_of(&mut lines)?;
    let cases = cases_of(&mut lines)?;
    Ok((Bridge { weight, rows }, cases))
}
