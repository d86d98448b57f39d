//! The same job in plain Rust, by the same method as the library: the yardstick for its speed.

mod bearing;
mod bridge;
mod damping;
mod page;
mod refusal;
mod sheet;

pub mod framing;

pub use bridge::{Halving, Scan, Search};
pub use page::page_of;
