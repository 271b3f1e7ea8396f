//! The least lengths of the buffers that the cabinet's operations are lent, by the names
//! of the header, in the order in which they are lent.

use crate::gates::MOST_GATES;
use crate::listing::sizes::{LONGEST, MOST_INPUTS, MOST_WIRES, SIZES};

pub type Buffer = (&'static str, usize);

pub const CHECK: [Buffer; 2] = [("out", 512), ("work", 54_880)];

pub const RUN: [Buffer; 11] = [
    ("out", LONGEST),
    ("nodes", 65_536),
    ("stack", 32_768),
    ("types", 1_152),
    ("frames", 32_776),
    ("gates", 32_768),
    ("circuits", 2_048),
    ("results0", 65_536),
    ("results1", 65_536),
    ("results2", 65_536),
    ("results3", 65_536),
];

/// Of the check of a listing.
pub const LISTING: [Buffer; 1] = [("work", MOST_WIRES)];

/// No line of a gate is longer, and neither are the two lines of an input.
const LINE: usize = 26;

/// No text of a listing is longer: two lines, those of the inputs and of the gates, and
/// the outputs.
pub const LONGEST_TEXT: usize = 36 + LINE * MOST_INPUTS + LINE * MOST_GATES + 7 + 4 * MOST_INPUTS;

pub const EXPORT: [Buffer; 2] = [("out", LONGEST_TEXT), ("work", MOST_WIRES)];

pub const IMPORT: [Buffer; 5] = [
    ("out", LONGEST),
    ("slots", LONGEST - SIZES - (MOST_INPUTS + MOST_GATES)),
    ("listing", LONGEST),
    ("table", MOST_WIRES),
    ("exported", LONGEST_TEXT),
];

/// The lengths alone.
pub const fn lengths<const N: usize>(buffers: [Buffer; N]) -> [usize; N] {
    let mut lengths = [0; N];
    let mut at = 0;
    while at < N {
        lengths[at] = buffers[at].1;
        at += 1;
    }
    lengths
}
