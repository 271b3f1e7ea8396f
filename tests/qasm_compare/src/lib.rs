//! The export and the import of OpenQASM that are under test, and texts with damage.

pub mod damage;
pub mod under_test;
