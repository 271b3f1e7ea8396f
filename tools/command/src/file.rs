//! The bytes of a program file, damaged or not, as entries.

use pqm::entries::Sizes;
use pqm::kinds;

/// The length of the sizes.
const SIZES: usize = 6;

#[derive(Clone, Copy, PartialEq, Eq, Debug)]
pub enum Section {
    Labels,
    Types,
    Terms,
}

impl Section {
    pub fn word(self) -> &'static str {
        match self {
            Section::Labels => "label",
            Section::Types => "type",
            Section::Terms => "term",
        }
    }

    /// The word for a kind, if it is one of this section.
    pub fn kind_word(self, kind: u8) -> Option<&'static str> {
        match self {
            Section::Labels if kinds::is_label_kind(kind) => kinds::type_word(kind),
            Section::Labels => None,
            Section::Types => kinds::type_word(kind),
            Section::Terms => kinds::term_word(kind),
        }
    }
}

/// As much of a file as is there.
pub struct File<'a> {
    pub bytes: &'a [u8],
    /// Zero if not all of them are there.
    pub sizes: Sizes,
}

impl<'a> File<'a> {
    pub fn new(bytes: &'a [u8]) -> File<'a> {
        let size = |at: usize| usize::from(u16::from_le_bytes([bytes[at], bytes[at + 1]]));
        let sizes = || Sizes {
            labels: size(0),
            types: size(2),
            terms: size(4),
        };
        let sizes = (bytes.len() >= SIZES).then(sizes).unwrap_or_default();
        File { bytes, sizes }
    }

    /// Whether not all sizes are there.
    pub fn is_short(&self) -> bool {
        self.bytes.len() < SIZES
    }

    /// The length that the sizes give.
    pub fn length(&self) -> usize {
        SIZES + 3 * self.sizes.all()
    }

    /// How many entries have their kind in the file.
    pub fn present(&self) -> usize {
        let there = self.bytes.len().saturating_sub(SIZES);
        self.sizes.all().min(there)
    }

    pub fn section(&self, entry: usize) -> Section {
        if entry < self.sizes.labels {
            Section::Labels
        } else if entry < self.sizes.first_term() {
            Section::Types
        } else {
            Section::Terms
        }
    }

    pub fn kind(&self, entry: usize) -> Option<u8> {
        (entry < self.present()).then(|| self.bytes[SIZES + entry])
    }

    pub fn argument(&self, entry: usize) -> Option<u16> {
        let at = SIZES + self.sizes.all() + 2 * entry;
        let bytes = self.bytes.get(at..at + 2)?;
        Some(u16::from_le_bytes([bytes[0], bytes[1]]))
    }

    /// The kinds of the type section from an entry on.
    pub fn types_from(&self, entry: usize) -> &'a [u8] {
        let to = self.present().min(self.sizes.first_term());
        let kinds = self.bytes.get(SIZES..SIZES + to).unwrap_or_default();
        &kinds[to.min(entry)..]
    }
}
