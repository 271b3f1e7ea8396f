//! Sizes and lengths around the limits.

use crate::compare::Comparison;
use comparing::Known;
use evaluator::listing::SLOTS;
use listings::broken::{broken, WAYS};
use listings::generate::{self, valid, Shape};
use listings::sizes::{LONGEST, MOST_GATES, MOST_INPUTS, MOST_OUTPUTS, MOST_WIRES};
use listings::{CompareListings, Entry, Listing, Sizes};
use program_files::{Random, Wire, GATES};

pub fn compare(comparison: &mut Comparison) {
    comparison.group("of sizes and lengths around the limits");
    for inputs in [0, 1, 63, 64, 65, 66, 128, 256, 320, 4_096] {
        for gates in [0, 1, 2_047, 2_048, 2_049, 4_096] {
            for outputs in [0, 1, 63, 64, 65, 255, 256, 257, 320] {
                let sizes = Sizes {
                    inputs,
                    gates,
                    outputs,
                };
                around(comparison, &sizes);
            }
        }
    }
    let mut random = Random::new(4);
    longer_and_shorter(comparison, &mut random);
    other_slots(comparison, &mut random);
    longest(comparison, &mut random);
    comparison.group("of the most inputs and gates, broken");
    for way in WAYS {
        for _ in 0..20 {
            let shape = Shape::most(&mut random);
            let listing = valid(&mut random, &shape);
            if let Some((listing, known)) = broken(&mut random, &listing, way) {
                comparison.listing(&listing.bytes(), &known);
            }
        }
    }
    at_the_last_places(comparison);
    with_most_wires(comparison, &mut random);
}

/// A listing of these sizes: each gate takes its predecessor's wire, and the
/// first outputs are there.
fn of_sizes(sizes: &Sizes) -> Listing {
    let input = |_| Entry::input(Wire::Qubit);
    let mut last = 0;
    let mut gate = |gate: usize| {
        let entry = Entry::gate(1, &[last]);
        last = (sizes.inputs + gate) as u16;
        entry
    };
    Listing {
        inputs: (0..sizes.inputs).map(input).collect(),
        gates: (0..sizes.gates).map(&mut gate).collect(),
        outputs: std::iter::once(last)
            .chain(1..)
            .take(sizes.outputs)
            .collect(),
    }
}

/// The length that fits, and those around it.
fn around(comparison: &mut Comparison, sizes: &Sizes) {
    let bytes = of_sizes(sizes).bytes();
    let known = match sizes.in_range() {
        true => Known::Nothing,
        false => Known::Refused(24, 0),
    };
    comparison.listing(&bytes, &known);
    for length in [bytes.len() - 1, bytes.len() + 1, bytes.len() + 65_536, 6] {
        if length != bytes.len() {
            let mut bytes = bytes.clone();
            bytes.resize(length, 255);
            comparison.listing(&bytes, &Known::Refused(24, 0));
        }
    }
}

/// Listings that are accepted with some bytes more or fewer, or with one size
/// changed.
fn longer_and_shorter(comparison: &mut Comparison, random: &mut Random) {
    comparison.group("of another length than the sizes give");
    for _ in 0..2_000 {
        let shape = Shape::any(random, 6, 20);
        let bytes = valid(random, &shape).bytes();
        let mut other = bytes.clone();
        match random.below(3) {
            0 => other.truncate(random.below(bytes.len())),
            1 => other.extend((0..random.between(1, 12)).map(|_| 255)),
            _ => {
                let at = random.below(6);
                other[at] = other[at].wrapping_add(random.between(1, 255) as u8);
            }
        }
        comparison.listing(&other, &Known::Refused(24, 0));
    }
}

/// Listings that are accepted with a slot less or more in each entry.
fn other_slots(comparison: &mut Comparison, random: &mut Random) {
    comparison.group("of entries with two slots or four");
    for round in 0..2_000 {
        let mut shape = match round % 100 {
            0 => Shape::most(random),
            _ => Shape::any(random, 6, 20),
        };
        shape.inputs = shape.inputs.max(1);
        let listing = valid(random, &shape);
        for count in [SLOTS - 1, SLOTS + 1] {
            let bytes = listing.with_slots(count);
            comparison.listing(&bytes, &Known::Refused(24, 0));
        }
    }
}

/// The longest listings: more outputs than wires that are there, or the last
/// output wrong.
fn longest(comparison: &mut Comparison, random: &mut Random) {
    comparison.group("of the most inputs, gates and outputs");
    for _ in 0..100 {
        let shape = Shape::most(random).without_helpers();
        let mut listing = valid(random, &shape);
        let count = listing.outputs.len();
        let again = (0..MOST_OUTPUTS - count).map(|_| random.below(9_000) as u16);
        listing.outputs.extend(again.collect::<Vec<u16>>());
        let place = listing.sizes().entries() + count;
        let bytes = listing.bytes();
        assert_eq!(bytes.len(), LONGEST, "the longest listing");
        comparison.listing(&bytes, &Known::Refused(26, place));
        let mut listing = generate::longest(random);
        listing.outputs[MOST_OUTPUTS - 1] = listing.outputs[random.below(MOST_OUTPUTS - 1)];
        let place = listing.sizes().entries() + MOST_OUTPUTS - 1;
        comparison.listing(&listing.bytes(), &Known::Refused(26, place));
    }
}

/// As many wires as there can be, and then each output missing, or one past the
/// last wire.
fn with_most_wires(comparison: &mut Comparison, random: &mut Random) {
    comparison.group("of the most wires");
    for _ in 0..20 {
        let shape = Shape::most_wires(random);
        let listing = valid(random, &shape);
        comparison.accepted(&listing);
        let output = |at: usize| listing.sizes().entries() + at;
        for at in 0..listing.outputs.len() {
            let mut missing = listing.clone();
            missing.outputs.remove(at);
            comparison.listing(&missing.bytes(), &Known::Number(26));
            let mut past = listing.clone();
            past.outputs[at] = MOST_WIRES as u16;
            comparison.listing(&past.bytes(), &Known::Refused(26, output(at)));
        }
    }
}

type Change = fn(&mut Entry);

/// The last entry wrong by its kind, by its slot and by its wire.
fn at_the_last_places(comparison: &mut Comparison) {
    comparison.group("wrong in the last entry");
    let right = of_sizes(&Sizes {
        inputs: MOST_INPUTS,
        gates: MOST_GATES,
        outputs: MOST_INPUTS,
    });
    comparison.accepted(&right);
    let last = right.sizes().entries() - 1;
    let changes: [(u8, Change); 4] = [
        (25, |entry| entry.kind = GATES.len() as u8),
        (25, |entry| entry.slots[1] = 0),
        (25, |entry| entry.slots[2] = 0),
        (26, |entry| entry.slots[0] += 1),
    ];
    for (number, change) in changes {
        let mut wrong = right.clone();
        change(wrong.gates.last_mut().expect("a gate"));
        comparison.listing(&wrong.bytes(), &Known::Refused(number, last));
    }
}
