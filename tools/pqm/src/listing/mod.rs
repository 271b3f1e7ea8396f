//! Listings by their parts.

pub mod entries;
pub mod sizes;
pub mod wires;

pub use entries::{Entry, Listing};
pub use sizes::Sizes;
pub use wires::{Examined, Fault, Made, Taker, Wrong};

/// The kind bytes of inputs; that of a gate is its number.
pub const BIT_INPUT: u8 = 128;
pub const QUBIT_INPUT: u8 = 129;

/// The slots of an entry, and what stands in one that takes no wire.
pub const SLOTS: usize = 3;
pub const NO_WIRE: u16 = 65_535;
