//! The sizes of a listing, and the length that they give.

use super::SLOTS;
use crate::entries::MOST_LABELS;
pub use crate::gates::MOST_GATES;

/// The most of each other size; the least is 0.
pub const MOST_INPUTS: usize = MOST_LABELS;
pub const MOST_OUTPUTS: usize = 256;

/// The length of the sizes.
pub const SIZES: usize = 6;

/// The length of an entry: its kind and its slots.
const ENTRY: usize = 1 + 2 * SLOTS;

/// The length of the longest listing, which 02 names.
pub const LONGEST: usize = Sizes::MOST.length();
const _: () = assert!(LONGEST == 15_302);

/// The most wires: a gate makes at most as many as there are slots.
pub const MOST_WIRES: usize = MOST_INPUTS + SLOTS * MOST_GATES;

/// L, G and O.
#[derive(Clone, Copy, PartialEq, Eq, Debug)]
pub struct Sizes {
    pub inputs: usize,
    pub gates: usize,
    pub outputs: usize,
}

impl Sizes {
    /// The most of each.
    pub const MOST: Sizes = Sizes {
        inputs: MOST_INPUTS,
        gates: MOST_GATES,
        outputs: MOST_OUTPUTS,
    };

    /// The sizes with which these bytes start.
    pub fn of_bytes(bytes: &[u8]) -> Option<Sizes> {
        let size = |at: usize| usize::from(u16::from_le_bytes([bytes[at], bytes[at + 1]]));
        let sizes = || Sizes {
            inputs: size(0),
            gates: size(2),
            outputs: size(4),
        };
        (bytes.len() >= SIZES).then(sizes)
    }

    /// Inputs and gates.
    pub const fn entries(&self) -> usize {
        self.inputs + self.gates
    }

    pub fn in_range(&self) -> bool {
        self.inputs <= MOST_INPUTS && self.gates <= MOST_GATES && self.outputs <= MOST_OUTPUTS
    }

    /// The length of a listing of these sizes.
    pub const fn length(&self) -> usize {
        SIZES + ENTRY * self.entries() + 2 * self.outputs
    }
}
