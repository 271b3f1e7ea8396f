//! The exported check, a check that counts, and generated programs.

pub mod counting;
pub mod families;
pub mod library;
