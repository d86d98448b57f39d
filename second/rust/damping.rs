//! Damping rules: whether an energy and a product of displacement and force meet a demand.

#[derive(Clone, Copy)]
pub enum Rule {
    Table,
    Eurocode,
}

impl Rule {
    pub fn meets(self, energy: u64, product: u64, demand: u64) -> bool {
        match self {
            Rule::Table => product > 0 && table_meets(energy, product, demand),
            Rule::Eurocode => {
                355 * product + 4_520 * energy >= 710 * demand && 400 * product >= 121 * demand
            }
        }
    }
}

/// Product times the square of the table's factor against the demand.
fn table_meets(energy: u64, product: u64, demand: u64) -> bool {
    let scaled = u128::from(scaled_factor(energy, product));
    scaled * scaled >= 21_300 * 21_300 * u128::from(product) * u128::from(demand)
}

/// 21,300 times the product times the table's factor at the damping of 4,520 E / (71 P) percent.
fn scaled_factor(energy: u64, product: u64) -> u64 {
    let (n, d) = (4_520 * energy, 71 * product);
    if n <= 2 * d {
        17_040 * product
    } else if n <= 5 * d {
        14_200 * product + 90_400 * energy
    } else if n <= 10 * d {
        17_040 * product + 54_240 * energy
    } else if n <= 20 * d {
        19_170 * product + 40_680 * energy
    } else if n <= 40 * d {
        23_430 * product + 27_120 * energy
    } else if n <= 50 * d {
        31_950 * product + 13_560 * energy
    } else {
        42_600 * product
    }
}
