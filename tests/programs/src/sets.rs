//! Sets of small numbers.

/// Words of 64 members each. The last word is not 0, so that sets with the
/// same members are equal.
#[derive(Clone, PartialEq, Eq, Debug, Default)]
pub struct Set {
    words: Vec<u64>,
}

impl Set {
    pub fn new() -> Set {
        Set::default()
    }

    /// All numbers under the bound.
    pub fn below(bound: usize) -> Set {
        let mut set = Set::new();
        for member in 0..bound {
            set.insert(member);
        }
        set
    }

    pub fn is_empty(&self) -> bool {
        self.words.is_empty()
    }

    pub fn contains(&self, member: usize) -> bool {
        let word = self.words.get(member / 64).copied().unwrap_or(0);
        word >> (member % 64) & 1 == 1
    }

    /// Whether this is its only member.
    pub fn is_only(&self, member: usize) -> bool {
        let mut only = Set::new();
        only.insert(member);
        *self == only
    }

    pub fn insert(&mut self, member: usize) {
        let at = member / 64;
        if self.words.len() <= at {
            self.words.resize(at + 1, 0);
        }
        self.words[at] |= 1 << (member % 64);
    }

    pub fn remove(&mut self, member: usize) {
        if let Some(word) = self.words.get_mut(member / 64) {
            *word &= !(1 << (member % 64));
        }
        self.trim();
    }

    /// Puts the other's members in.
    pub fn add(&mut self, other: &Set) {
        if self.words.len() < other.words.len() {
            self.words.resize(other.words.len(), 0);
        }
        for (word, more) in self.words.iter_mut().zip(&other.words) {
            *word |= more;
        }
    }

    /// The members of both.
    pub fn both(&self, other: &Set) -> Set {
        let words = self.words.iter().zip(&other.words);
        let mut set = Set {
            words: words.map(|(word, other)| word & other).collect(),
        };
        set.trim();
        set
    }

    /// The members in order.
    pub fn members(&self) -> Vec<usize> {
        (0..64 * self.words.len())
            .filter(|&member| self.contains(member))
            .collect()
    }

    fn trim(&mut self) {
        while self.words.last() == Some(&0) {
            self.words.pop();
        }
    }
}
