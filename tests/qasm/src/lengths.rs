//! The least lengths of the buffers that an export and an import are lent.

pub use pqm::lengths::LONGEST_TEXT;
use pqm::lengths::{self, lengths};

/// Output buffer and working memory of an export.
pub const EXPORT: [usize; 2] = lengths(lengths::EXPORT);

/// Output buffer of an import, and its working memory: slots and outputs,
/// listing, table and text.
pub const IMPORT: [usize; 5] = lengths(lengths::IMPORT);
