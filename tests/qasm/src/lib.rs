//! OpenQASM 2.0: a printer of listings, a strict parser of what it prints, a
//! reader of the language's own grammar, a simulation of texts and listings,
//! what an export and an import answer, tables of cases, and damage for texts.

pub mod answer;
pub mod cases;
pub mod compare;
pub mod damaged;
pub mod grammar;
pub mod lengths;
pub mod loose;
pub mod parse;
pub mod print;
pub mod simulate;
pub mod traced;

pub use answer::{export, import, Answer};
pub use compare::CompareTexts;
pub use parse::parse;
pub use print::print;
