//! Bearings: force in newtons and energy in newtons times tenths of a millimetre.

pub const TOP_FORCE: u64 = 100_000_000;
pub const TOP_FACTOR: u64 = 300;
pub const TOP_TRAVEL: u64 = 10_000;

/// A bearing as the constants of its formulas.
pub enum Bearing {
    LeadRubber { strength: u64, stiffness: u64, yields: u64 },
    Pendulum { friction: u64, slope: u64, radius: u64 },
}

impl Bearing {
    pub fn lead_rubber([lead, stress, bonded, modulus, rubber]: [u64; 5]) -> Bearing {
        let strength = 355 * lead * lead * stress * 9 / 45_200;
        let stiffness = 3_905 * modulus * (bonded * bonded - lead * lead) / (452_000 * rubber);
        let yields = (10 * strength).div_ceil(9 * stiffness);
        Bearing::LeadRubber { strength, stiffness, yields }
    }

    pub fn pendulum([load, friction, radius, ..]: [u64; 5]) -> Bearing {
        Bearing::Pendulum { friction: load * friction, slope: 100 * load, radius }
    }

    /// Force and energy at a strength factor, a stiffness factor and a displacement of at least 1.
    pub fn answer(&self, s: u64, k: u64, d: u64) -> (u64, u64) {
        match *self {
            Bearing::LeadRubber { strength, stiffness, yields } => {
                let q = strength * s / 100;
                let slope = stiffness * k;
                if d < yields {
                    ((q + slope * yields / 1_000) * d / yields, 0)
                } else {
                    (q + slope * d / 1_000, q * (d - yields))
                }
            }
            Bearing::Pendulum { friction, slope, radius } => {
                let q = friction * s / 100;
                (q + slope * d / radius, q * d)
            }
        }
    }

    /// The force at the greatest factors and displacement.
    pub fn greatest_force(&self) -> u64 {
        self.answer(TOP_FACTOR, TOP_FACTOR, TOP_TRAVEL).0
    }
}

/// A row of a bridge: equal bearings side by side.
pub struct Row {
    pub count: u64,
    pub bearing: Bearing,
}
