//! Pairs that may be copied, counted by how deep they are and by how they are
//! used.

/// So many of each use at each depth; the last depth counts for all deeper
/// ones.
pub struct Pairs<const DEEPEST: usize> {
    seen: [[usize; 3]; DEEPEST],
}

impl<const DEEPEST: usize> Default for Pairs<DEEPEST> {
    fn default() -> Self {
        Pairs {
            seen: [[0; 3]; DEEPEST],
        }
    }
}

impl<const DEEPEST: usize> Pairs<DEEPEST> {
    /// Counts a pair of this depth, 1 or more, for one of the three uses.
    pub fn count(&mut self, depth: usize, to: usize) {
        self.seen[depth.min(DEEPEST) - 1][to] += 1;
    }

    pub fn add(&mut self, more: &Self) {
        let seen = self.seen.iter_mut().flatten();
        for (seen, more) in seen.zip(more.seen.iter().flatten()) {
            *seen += more;
        }
    }

    /// One line for each depth, with the names of the uses.
    pub fn report(&self, uses: [&str; 3]) {
        for (depth, [one, two, three]) in (1..).zip(self.seen) {
            let more = if depth == DEEPEST { " or more" } else { "" };
            let [first, second, third] = uses;
            println!(
                "pairs that may be copied, {depth}{more} deep: \
                 {one} {first}, {two} {second}, {three} {third}"
            );
        }
    }

    /// Fails if there are too few of some use at some depth.
    pub fn assert(&self, least: [usize; 3]) {
        for (depth, seen) in (1..).zip(self.seen) {
            let enough = seen.iter().zip(least).all(|(&seen, least)| seen >= least);
            assert!(enough, "too few pairs {depth} deep: {seen:?}");
        }
    }
}
