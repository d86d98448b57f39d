//! Why a sheet is refused, and where.

#[derive(Clone, Copy)]
pub enum Reason {
    OutOfRange = 1,
    LeadTooWide = 2,
    TooStrong = 3,
    NoPlace = 4,
    BoundsReversed = 7,
    NamesLine = 12,
    ValueLine = 13,
    SheetTooLong = 14,
}

#[derive(Clone, Copy)]
pub enum Layer {
    Bearing = 1,
    Bridge = 2,
    Sheet = 3,
}

#[derive(Clone, Copy)]
pub struct Refusal {
    pub reason: Reason,
    pub layer: Layer,
    pub line: usize,
    pub field: usize,
}

impl Refusal {
    /// A refusal of a whole line.
    pub fn of_line(reason: Reason, layer: Layer, line: usize) -> Refusal {
        Refusal { reason, layer, line, field: 0 }
    }
}
