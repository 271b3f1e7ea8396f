//! Programs for the cabinet, built from Rust. This library is not proved: the
//! cabinet's own check decides what it takes.
//!
//! ```
//! use pqm::{apply, boxed_lambda, file, label, let_pair, types::qubits, Wire::Qubit, CNOT, H, MEAS};
//!
//! let entangle = boxed_lambda(qubits(2), |wires| {
//!     let_pair(wires, |a, b| apply(CNOT, (apply(H, a), b)))
//! });
//! let term = let_pair(apply(entangle, (label(0), label(1))), |a, b| (apply(MEAS, a), b));
//! let bytes = file(&[Qubit, Qubit], term).expect("a file");
//! assert_eq!(bytes.len(), 87);
//! ```
//!
//! `file` refuses what the reading of the file would refuse (too many entries, a label
//! or a variable that is not there, a box at no wire type) and says where in the Rust
//! source it stands. Types are the check's to judge.
//!
//! Besides: the reader, the writer and the types of every node of a program, and the
//! parts of a listing. The command `pqm` and the comparisons in tests/ stand on them.

pub mod builder;
pub mod encode;
pub mod entries;
pub mod error;
pub mod gates;
pub mod kinds;
pub mod lengths;
pub mod listing;
pub mod read;
pub mod refusal;
pub mod survey;
pub mod traversal;
pub mod trees;
pub mod types;

pub use builder::{
    application, apply, bind, boxed, boxed_lambda, file, force, gate, label, lambda, let_pair,
    lift, pair, sequence, unit_value, Named, Sequence, Variable,
};
pub use error::Error;
pub use gates::{BX, BZ, CCX, CNOT, DISCARD, H, INIT, MEAS, S, T, X, Z};
pub use refusal::Refusal;
pub use trees::{Type, Wire};
