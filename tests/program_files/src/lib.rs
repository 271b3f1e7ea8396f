//! Program files, with the trees, the writer and the reader of tools/pqm: a seeded
//! generator of files that the reader accepts, and faults for such files.

pub mod faults;
pub mod generate;
pub mod random;

pub use generate::{Generator, Grouping, Lean, Shape};
pub use pqm::encode::{encode, Positions};
pub use pqm::entries::{Entries, Entry, Sizes};
pub use pqm::gates::{Gate, GATES};
pub use pqm::read::{self, read, Accepted};
pub use pqm::trees::{Program, Term, Type, Wire};
pub use pqm::{entries, gates, kinds, Refusal};
pub use random::Random;
