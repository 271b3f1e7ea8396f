//! Listings: their entries and bytes, what a check of them answers, a check that
//! counts, a table of cases, a seeded generator of listings that are accepted,
//! and faults for them.

pub mod answer;
pub mod broken;
pub mod cases;
pub mod compare;
pub mod counting;
pub mod generate;

pub use answer::Answer;
pub use compare::CompareListings;
pub use pqm::listing::{entries, sizes, Entry, Listing, Sizes};
