//! The check of listings that is under test, and generated listings.

pub mod changed;
pub mod families;
pub mod small;
pub mod under_test;
