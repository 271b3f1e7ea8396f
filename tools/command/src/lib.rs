//! The command `pqm`: program files taken apart, refusals explained, listings drawn.
//! Not proved; what is refused and where is the proved library's word.

pub mod draw;
pub mod dump;
pub mod explain;
pub mod file;
pub mod meanings;
pub mod terminal;
pub mod words;
