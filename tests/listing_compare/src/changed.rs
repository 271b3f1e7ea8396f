//! Listings with one byte changed: every byte of small ones to every other
//! value, every byte of large ones to some.

use comparing::Known;
use listings::cases::all;
use listings::generate::{valid, Shape};
use listings::CompareListings;
use program_files::Random;

/// Every value is tried in listings of at most so many bytes.
const SMALL: usize = 64;

/// So many small listings besides the cases, and so many large ones.
const MORE_SMALL: usize = 12;
const LARGE: usize = 3;

pub fn compare(comparison: &mut impl CompareListings) {
    let mut random = Random::new(3);
    comparison.group("with one byte changed to every value");
    let accepted = all().into_iter().filter(|case| case.answer.is_ok());
    for case in accepted.filter(|case| case.bytes.len() <= SMALL) {
        every_value(comparison, &case.bytes);
    }
    for _ in 0..MORE_SMALL {
        let shape = Shape::any(&mut random, 4, 5);
        let bytes = valid(&mut random, &shape).bytes();
        every_value(comparison, &bytes);
    }
    comparison.group("with one byte of many changed");
    for _ in 0..LARGE {
        let shape = Shape::most(&mut random);
        let bytes = valid(&mut random, &shape).bytes();
        some_values(comparison, &mut random, &bytes);
    }
}

fn every_value(comparison: &mut impl CompareListings, bytes: &[u8]) {
    for at in 0..bytes.len() {
        for value in 0..=255 {
            let mut changed = bytes.to_vec();
            changed[at] = value;
            comparison.listing(&changed, &Known::Nothing);
        }
    }
}

/// The next value, or any.
fn some_values(comparison: &mut impl CompareListings, random: &mut Random, bytes: &[u8]) {
    for at in 0..bytes.len() {
        let mut changed = bytes.to_vec();
        changed[at] = match random.below(2) {
            0 => changed[at].wrapping_add(1),
            _ => random.byte(),
        };
        comparison.listing(&changed, &Known::Nothing);
    }
}
