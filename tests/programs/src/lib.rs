//! Programs and their types: the check, by derivations on trees; the places of
//! its refusals; a seeded generator of well-typed programs; and programs that
//! are broken in one spot.

pub mod blocks;
pub mod broken;
pub mod check;
pub mod edit;
pub mod extremes;
pub mod nested;
pub mod plain;
pub mod rules;
pub mod search;
pub mod sequent;
pub mod sets;
pub mod terms;
pub mod typed;
pub mod types;

pub use check::check;
pub use pqm::survey;
