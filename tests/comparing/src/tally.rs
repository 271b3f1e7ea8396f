//! How often something was seen that must be seen.

use std::collections::BTreeMap;

/// What can be seen.
pub trait Seen: Copy + Ord {
    fn words(self) -> String;

    /// All that must be seen, and how often.
    fn wanted() -> Vec<(Self, usize)>;
}

#[derive(Clone)]
pub struct Tally<What>(BTreeMap<What, usize>);

impl<What> Default for Tally<What> {
    fn default() -> Tally<What> {
        Tally(BTreeMap::new())
    }
}

impl<What: Seen> Tally<What> {
    pub fn add(&mut self, what: What) {
        *self.0.entry(what).or_default() += 1;
    }

    pub fn of(&self, what: What) -> usize {
        self.0.get(&what).copied().unwrap_or(0)
    }

    pub fn report(&self) {
        for (what, _) in What::wanted() {
            println!("{:>9} {}", self.of(what), what.words());
        }
    }

    /// Fails if too little has been seen.
    pub fn assert(&self) {
        for (what, least) in What::wanted() {
            assert!(self.of(what) >= least, "too few {}", what.words());
        }
    }
}
