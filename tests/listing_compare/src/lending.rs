//! Working memory of every length below the least, and of many above.

use crate::compare::Comparison;
use listing_compare::under_test::LEAST_WORK;
use listings::generate::{valid, Shape};
use listings::{cases, CompareListings};
use program_files::Random;

/// Longer ones.
const LONGER: [usize; 10] = [
    LEAST_WORK + 1,
    LEAST_WORK + 2,
    LEAST_WORK + 7,
    LEAST_WORK + 64,
    7_000,
    8_192,
    65_535,
    65_536,
    65_537,
    131_072,
];

pub fn compare(comparison: &mut Comparison) {
    comparison.group("with working memory of many lengths");
    let mut random = Random::new(5);
    let shape = Shape::new(3, 12);
    let mut listing = valid(&mut random, &shape);
    comparison.lengths(&listing.bytes(), 0..=LEAST_WORK + 16);
    listing.outputs.pop();
    comparison.lengths(&listing.bytes(), 0..=LEAST_WORK + 16);
    for case in cases::all() {
        let near = LEAST_WORK - 2..=LEAST_WORK + 2;
        let shorter = [0, 1, 6, 64, 256, 2_048, 4_096, random.below(LEAST_WORK)];
        let lengths = shorter.into_iter().chain(near).chain(LONGER);
        comparison.lengths(&case.bytes, lengths);
    }
}
