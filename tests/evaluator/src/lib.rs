//! A second evaluator: a program file is read, checked by derivations and run
//! by the rules of the stacked semantics, with terms as trees. Each step looks
//! for the redex from the root of the innermost frame's term, substitutes and
//! gives a new configuration.

pub mod answer;
pub mod circuits;
pub mod configurations;
pub mod contexts;
pub mod listing;
pub mod run;
pub mod terms;
pub mod text;

pub use answer::Answer;
pub use configurations::Configuration;
pub use run::{prepare, run, Prepared};
