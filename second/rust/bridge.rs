//! A bridge and its answers to load cases.

use crate::bearing::{Row, TOP_TRAVEL};
use crate::damping::Rule;

/// A load case: acceleration in hundredths of g, site coefficient in tenths, bounds of the factors, damping rule.
pub struct Case {
    pub accel: u64,
    pub site: u64,
    pub slo: u64,
    pub shi: u64,
    pub klo: u64,
    pub khi: u64,
    pub rule: Rule,
}

pub struct Bridge {
    pub weight: u64,
    pub rows: Vec<Row>,
}

pub struct Answer {
    pub dlow: u64,
    pub dhigh: u64,
    pub force: u64,
    pub clear: u64,
    pub restores: bool,
}

/// A way to find the first displacement from 1 to 10,000 at which a demand is met.
pub trait Search {
    fn first(met: impl Fn(u64) -> bool) -> Option<u64>;
}

/// Halves the displacements that are left: what is met once is met at every larger displacement.
pub struct Halving;

/// Tries every displacement in turn.
pub struct Scan;

impl Search for Halving {
    fn first(met: impl Fn(u64) -> bool) -> Option<u64> {
        let (mut low, mut high) = (1, TOP_TRAVEL + 1);
        while low < high {
            let middle = low + (high - low) / 2;
            if met(middle) {
                high = middle;
            } else {
                low = middle + 1;
            }
        }
        (low <= TOP_TRAVEL).then_some(low)
    }
}

impl Search for Scan {
    fn first(met: impl Fn(u64) -> bool) -> Option<u64> {
        (1..=TOP_TRAVEL).find(|&d| met(d))
    }
}

impl Bridge {
    /// Answers a case; none where no displacement in range meets the demand.
    pub fn answer<S: Search>(&self, case: &Case) -> Option<Answer> {
        let demand = self.demand(case);
        let design = |s, k| S::first(|d| self.is_met(case.rule, s, k, demand, d));
        let dlow = design(case.slo, case.klo)?;
        let dhigh = design(case.shi, case.khi)?;
        let (force, _) = self.totals(case.shi, case.khi, dlow);
        let restores = self.restores(case.slo, case.klo, dlow);
        Some(Answer { dlow, dhigh, force, clear: dlow.max(250), restores })
    }

    fn demand(&self, case: &Case) -> u64 {
        (251_519 * (case.accel * case.site).pow(2) * self.weight).div_ceil(100_000)
    }

    fn is_met(&self, rule: Rule, s: u64, k: u64, demand: u64, d: u64) -> bool {
        let (force, energy) = self.totals(s, k, d);
        rule.meets(energy, d * force, demand)
    }

    /// Force and energy of all rows together.
    fn totals(&self, s: u64, k: u64, d: u64) -> (u64, u64) {
        self.rows.iter().fold((0, 0), |(force, energy), row| {
            let (f, e) = row.bearing.answer(s, k, d);
            (force + row.count * f, energy + row.count * e)
        })
    }

    /// Whether the force rises by an 80th of the weight from half the displacement to the whole.
    fn restores(&self, s: u64, k: u64, dlow: u64) -> bool {
        let (whole, _) = self.totals(s, k, dlow);
        let (half, _) = self.totals(s, k, dlow.div_ceil(2));
        80 * (whole - half) >= 1_000 * self.weight
    }
}
