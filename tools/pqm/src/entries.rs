//! The entries of a program file, and its bytes.

/// The most of each size; the least number of terms is 1, of the others 0.
pub const MOST_LABELS: usize = 64;
pub const MOST_TYPES: usize = 512;
pub const MOST_TERMS: usize = 2_048;

/// The length of the longest file.
pub const LONGEST: usize = 6 + 3 * (MOST_LABELS + MOST_TYPES + MOST_TERMS);

/// L, P and N.
#[derive(Clone, Copy, PartialEq, Eq, Default, Debug)]
pub struct Sizes {
    pub labels: usize,
    pub types: usize,
    pub terms: usize,
}

impl Sizes {
    /// E.
    pub fn all(&self) -> usize {
        self.labels + self.types + self.terms
    }

    /// The number of the first term's entry.
    pub fn first_term(&self) -> usize {
        self.labels + self.types
    }

    pub fn in_range(&self) -> bool {
        self.labels <= MOST_LABELS
            && self.types <= MOST_TYPES
            && (1..=MOST_TERMS).contains(&self.terms)
    }
}

#[derive(Clone, Copy, PartialEq, Eq, Debug)]
pub struct Entry {
    pub kind: u8,
    pub argument: u16,
}

impl Entry {
    pub fn new(kind: u8, argument: u16) -> Entry {
        Entry { kind, argument }
    }
}

/// The three sections, well formed or not.
#[derive(Clone, PartialEq, Eq, Debug)]
pub struct Entries {
    pub labels: Vec<Entry>,
    pub types: Vec<Entry>,
    pub terms: Vec<Entry>,
}

impl Entries {
    /// The kinds of the labels, those of the types, and the term with arguments.
    pub fn new(labels: &[u8], types: &[u8], terms: &[(u8, u16)]) -> Entries {
        let plain = |kinds: &[u8]| kinds.iter().map(|&kind| Entry::new(kind, 0)).collect();
        let terms = terms.iter();
        Entries {
            labels: plain(labels),
            types: plain(types),
            terms: terms
                .map(|&(kind, argument)| Entry::new(kind, argument))
                .collect(),
        }
    }

    pub fn sizes(&self) -> Sizes {
        Sizes {
            labels: self.labels.len(),
            types: self.types.len(),
            terms: self.terms.len(),
        }
    }

    /// All entries in the order of their numbers.
    pub fn all(&self) -> impl Iterator<Item = &Entry> {
        self.labels.iter().chain(&self.types).chain(&self.terms)
    }

    /// The file: three sizes, the kind bytes, the arguments.
    pub fn bytes(&self) -> Vec<u8> {
        let mut bytes = Vec::with_capacity(6 + 3 * self.sizes().all());
        for size in [self.labels.len(), self.types.len(), self.terms.len()] {
            let size = u16::try_from(size).expect("a size has 16 bits");
            bytes.extend_from_slice(&size.to_le_bytes());
        }
        bytes.extend(self.all().map(|entry| entry.kind));
        bytes.extend(self.all().flat_map(|entry| entry.argument.to_le_bytes()));
        bytes
    }
}
