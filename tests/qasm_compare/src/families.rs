//! Generated listings: those that are accepted, whose texts are imported, too,
//! and those broken in one way or in several.

use crate::compare::Comparison;
use comparing::Known;
use listings::broken::{broken, often_broken, WAYS};
use listings::generate::{foreign, valid, Shape, FOREIGN, ORDERS};
use listings::sizes::{MOST_GATES, MOST_INPUTS};
use program_files::{Random, GATES};

/// How many listings have at most so many inputs and gates.
const SIZES: [(usize, usize, usize); 4] = [
    (20_000, 4, 6),
    (8_000, 16, 60),
    (400, 64, 400),
    (60, 64, 2_048),
];

/// The same of those with Init and Discard.
const HELPERS: [(usize, usize, usize); 5] = [
    (4_000, 0, 8),
    (8_000, 4, 8),
    (3_000, 16, 60),
    (100, 64, 400),
    (20, 64, 2_048),
];

/// The same of those with CCX, half of which have Init or Discard, too.
const THREE_WIRES: [(usize, usize, usize); 4] = [
    (6_000, 3, 3),
    (4_000, 16, 40),
    (100, 64, 400),
    (20, 64, 2_048),
];

/// The same for each way to break them.
const BROKEN: [(usize, usize, usize); 3] = [(600, 4, 6), (200, 16, 40), (10, 64, 2_048)];

pub fn compare(comparison: &mut Comparison) {
    let mut random = Random::new(1);
    comparison.group("generated");
    for (count, inputs, gates) in SIZES {
        for _ in 0..count {
            let shape = Shape::any(&mut random, inputs, gates).without_helpers();
            comparison.accepted(&valid(&mut random, &shape));
        }
    }
    comparison.group("generated, with Init and Discard");
    for (count, inputs, gates) in HELPERS {
        for _ in 0..count {
            let shape = match random.below(2) {
                0 => Shape::helpers(&mut random, inputs, gates),
                _ => Shape::any(&mut random, inputs, gates),
            };
            comparison.sound(&valid(&mut random, &shape));
        }
    }
    comparison.group("generated, with CCX");
    for (count, inputs, gates) in THREE_WIRES {
        for round in 0..count {
            let shape = Shape::three_wires(&mut random, inputs, gates);
            comparison.sound(&valid(
                &mut random,
                &match round % 2 {
                    0 => shape.without_helpers(),
                    _ => shape,
                },
            ));
        }
    }
    comparison.group("generated, of one gate");
    for number in 0..GATES.len() as u8 {
        for lines in [2, 11, MOST_INPUTS] {
            let mut shape = Shape::new(lines, 200);
            shape.bits = lines / 2;
            shape.numbers = vec![number];
            shape.taken = random.pick(&ORDERS);
            comparison.sound(&valid(&mut random, &shape));
        }
    }
    comparison.group("generated, of so many inputs");
    for inputs in 0..=MOST_INPUTS {
        for gates in [0, 1, 2, 40] {
            let mut shape = Shape::any(&mut random, inputs, gates).without_helpers();
            (shape.inputs, shape.gates) = (inputs, gates);
            shape.bits = random.between(0, inputs);
            comparison.accepted(&valid(&mut random, &shape));
        }
    }
    comparison.group("generated with the most inputs and gates");
    for _ in 0..40 {
        let shape = Shape::most(&mut random).without_helpers();
        let listing = valid(&mut random, &shape);
        assert_eq!(listing.gates.len(), MOST_GATES, "so many gates");
        comparison.accepted(&listing);
    }
    comparison.group("that no run would write");
    for of in FOREIGN {
        for _ in 0..300 {
            comparison.sound(&foreign(&mut random, of));
        }
    }
    broken_ones(comparison, &mut random);
}

fn broken_ones(comparison: &mut Comparison, random: &mut Random) {
    comparison.group("broken in one way");
    for way in WAYS {
        for (count, inputs, gates) in BROKEN {
            for _ in 0..count {
                let mut shape = Shape::any(random, inputs, gates);
                shape.inputs = shape.inputs.max(1);
                shape.bits = shape.bits.min(shape.inputs - 1);
                let listing = valid(random, &shape);
                if let Some((listing, known)) = broken(random, &listing, way) {
                    comparison.listing(&listing.bytes(), &known);
                }
            }
        }
    }
    comparison.group("with CCX, broken in one way");
    for way in WAYS {
        for _ in 0..300 {
            let shape = Shape::three_wires(random, 6, 6);
            let listing = valid(random, &shape);
            if let Some((listing, known)) = broken(random, &listing, way) {
                comparison.listing(&listing.bytes(), &known);
            }
        }
    }
    comparison.group("broken in several ways");
    for (count, inputs, gates) in BROKEN {
        for _ in 0..4 * count {
            let shape = Shape::any(random, inputs, gates);
            let listing = valid(random, &shape);
            let listing = often_broken(random, &listing);
            comparison.listing(&listing.bytes(), &Known::Nothing);
        }
    }
    comparison.group("of another length");
    for _ in 0..1_000 {
        let shape = Shape::any(random, 6, 20);
        let mut bytes = valid(random, &shape).bytes();
        match random.below(2) {
            0 => bytes.truncate(random.below(bytes.len())),
            _ => bytes.extend((0..random.between(1, 12)).map(|_| 255)),
        }
        comparison.listing(&bytes, &Known::Refused(24, 0));
    }
}
