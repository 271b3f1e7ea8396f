//! The run that is under test, what it is lent, and its answer.

pub mod interface;
pub mod under_test;
