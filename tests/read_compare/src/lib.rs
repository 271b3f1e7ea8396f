//! The files that the readers are compared by.

pub mod by_hand;
pub mod families;
