//! Buffers of many lengths below the least and above.

use crate::compare::Comparison;
use listings::cases::all;
use listings::generate::{valid, Shape};
use program_files::Random;
use qasm::cases::{exports, texts, wordless};
use qasm::lengths;

/// So many texts and listings of the tables are tried with many lengths.
const STEP: usize = 6;

pub fn compare(comparison: &mut Comparison) {
    comparison.group("with buffers of many lengths");
    let mut random = Random::new(6);
    let shape = Shape::new(3, 12).without_helpers();
    let mut listing = valid(&mut random, &shape);
    let text = qasm::print(&listing);
    let right = listing.bytes();
    listing.outputs.pop();
    let wrong = listing.bytes();
    let helped = wordless()[0].listing.bytes();
    for buffer in 0..lengths::EXPORT.len() {
        for length in some_lengths(&mut random, lengths::EXPORT[buffer]) {
            let mut lengths = lengths::EXPORT;
            lengths[buffer] = length;
            comparison.export_lengths(&right, lengths);
            comparison.export_lengths(&wrong, lengths);
            comparison.export_lengths(&helped, lengths);
        }
    }
    for buffer in 0..lengths::IMPORT.len() {
        for length in some_lengths(&mut random, lengths::IMPORT[buffer]) {
            let mut lengths = lengths::IMPORT;
            lengths[buffer] = length;
            comparison.import_lengths(&text, lengths);
            comparison.import_lengths(&text[1..], lengths);
        }
    }
    let exported = exports().into_iter().map(|case| case.listing.bytes());
    for bytes in exported.chain(all().into_iter().step_by(STEP).map(|case| case.bytes)) {
        for _ in 0..12 {
            let lengths = lengths::EXPORT.map(|least| any_length(&mut random, least));
            comparison.export_lengths(&bytes, lengths);
        }
    }
    let exported = exports().into_iter().map(|case| case.text.into_bytes());
    for text in exported.chain(texts().into_iter().step_by(STEP).map(|case| case.text)) {
        for _ in 0..12 {
            let lengths = lengths::IMPORT.map(|least| any_length(&mut random, least));
            comparison.import_lengths(&text, lengths);
        }
    }
}

/// The lengths around the least, many shorter and some longer ones.
fn some_lengths(random: &mut Random, least: usize) -> Vec<usize> {
    let mut lengths: Vec<usize> = (0..64).chain(least - 64..=least + 64).collect();
    lengths.extend([least / 2, least + 4_096, 65_535, 65_536, 65_537, 131_072]);
    lengths.extend((0..200).map(|_| random.below(least)));
    lengths
}

/// Mostly the least, else one near it or any.
fn any_length(random: &mut Random, least: usize) -> usize {
    match random.below(8) {
        0 => least - 1,
        1 => random.below(least),
        2 => least + 1,
        3 => least + random.below(65_536),
        _ => least,
    }
}
