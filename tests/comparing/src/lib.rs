//! What the comparisons have in common: what is known of a program, the cases
//! of 01 and 02, programs written by hand and those broken, the buffers that are lent,
//! an answer as one number, what is counted, and the process and the stack on
//! which all this is done.

pub mod cases;
pub mod copied_pairs;
pub mod counts;
pub mod files;
pub mod first_faults;
pub mod guarded;
pub mod helpers;
pub mod known;
pub mod lent;
pub mod one_kind;
pub mod packed;
pub mod pairs;
pub mod planted;
pub mod process;
pub mod quiet;
pub mod stack;
pub mod tally;
pub mod three_wires;
pub mod without_box;
pub mod written;

pub use counts::Counts;
pub use known::Known;
pub use lent::{Expected, Lent};
pub use pairs::Pairs;
pub use planted::Planted;
