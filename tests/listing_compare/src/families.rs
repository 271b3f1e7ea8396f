//! Generated listings: those that are accepted, some of which no run would
//! write, those broken in one way or in several, and random bytes.

use comparing::Known;
use evaluator::listing::{BIT_INPUT, NO_WIRE};
use listings::broken::{broken, often_broken, Way, WAYS};
use listings::generate::{foreign, longest, making, valid, Shape, FOREIGN};
use listings::{CompareListings, Entry, Listing, Sizes};
use program_files::{Random, GATES};

/// How many listings have at most so many inputs and gates.
const SIZES: [(usize, usize, usize); 4] = [
    (6_000, 4, 6),
    (3_000, 16, 60),
    (300, 64, 400),
    (60, 64, 2_048),
];

/// The same of those with Qubits that come and go.
const HELPERS: [(usize, usize, usize); 4] =
    [(3_000, 0, 8), (3_000, 3, 8), (600, 8, 100), (40, 64, 2_048)];

/// The same of those with CCX.
const THREE_WIRES: [(usize, usize, usize); 4] = [
    (3_000, 3, 3),
    (3_000, 5, 8),
    (600, 16, 100),
    (40, 64, 2_048),
];

/// The same for each way to break them.
const BROKEN: [(usize, usize, usize); 3] = [(1_500, 4, 6), (500, 16, 40), (20, 64, 2_048)];

pub fn compare(comparison: &mut impl CompareListings) {
    let mut random = Random::new(1);
    accepted(comparison, &mut random);
    broken_ones(comparison, &mut random);
    random_ones(comparison, &mut random);
}

fn accepted(comparison: &mut impl CompareListings, random: &mut Random) {
    comparison.group("generated");
    for (count, inputs, gates) in SIZES {
        for _ in 0..count {
            let shape = Shape::any(random, inputs, gates);
            comparison.accepted(&valid(random, &shape));
        }
    }
    comparison.group("generated with the most inputs and gates");
    for _ in 0..80 {
        let shape = Shape::most(random);
        comparison.accepted(&valid(random, &shape));
    }
    comparison.group("generated of the greatest length");
    for _ in 0..60 {
        comparison.accepted(&longest(random));
    }
    comparison.group("generated with Qubits that come and go");
    for (count, inputs, gates) in HELPERS {
        for _ in 0..count {
            let shape = Shape::helpers(random, inputs, gates);
            comparison.accepted(&valid(random, &shape));
        }
    }
    comparison.group("generated with CCX");
    for (count, inputs, gates) in THREE_WIRES {
        for _ in 0..count {
            let shape = Shape::three_wires(random, inputs, gates);
            comparison.accepted(&valid(random, &shape));
        }
    }
    comparison.group("that no run would write");
    for of in FOREIGN {
        for _ in 0..1_000 {
            comparison.accepted(&foreign(random, of));
        }
    }
}

fn broken_ones(comparison: &mut impl CompareListings, random: &mut Random) {
    comparison.group("broken in one way");
    for way in WAYS {
        for (count, inputs, gates) in BROKEN {
            for _ in 0..count {
                let listing = room_for_faults(random, inputs, gates);
                if let Some((listing, known)) = broken(random, &listing, way) {
                    comparison.listing(&listing.bytes(), &known);
                }
            }
        }
    }
    comparison.group("with Qubits that come and go, broken in one way");
    for way in WAYS {
        for _ in 0..1_000 {
            let shape = Shape::helpers(random, 3, 8);
            let listing = valid(random, &shape);
            if let Some((listing, known)) = broken(random, &listing, way) {
                comparison.listing(&listing.bytes(), &known);
            }
        }
    }
    comparison.group("with CCX, broken in one way");
    for way in WAYS {
        for _ in 0..2_000 {
            let shape = Shape::three_wires(random, 6, 6);
            let listing = valid(random, &shape);
            if let Some((listing, known)) = broken(random, &listing, way) {
                comparison.listing(&listing.bytes(), &known);
            }
        }
    }
    comparison.group("with wires left over of gates that make two or three");
    for wires in [2, 3] {
        for _ in 0..8_000 {
            let mut shape = Shape::any(random, 8, 8);
            shape.numbers = making(wires);
            let listing = valid(random, &shape);
            if let Some((listing, known)) = broken(random, &listing, Way::OutputsMissing) {
                comparison.listing(&listing.bytes(), &known);
            }
        }
    }
    comparison.group("broken in several ways");
    for (count, inputs, gates) in BROKEN {
        for _ in 0..8 * count {
            let listing = room_for_faults(random, inputs, gates);
            let listing = often_broken(random, &listing);
            comparison.listing(&listing.bytes(), &Known::Nothing);
        }
    }
}

/// A listing that is accepted, with an input and mostly with gates.
fn room_for_faults(random: &mut Random, inputs: usize, gates: usize) -> Listing {
    let mut shape = Shape::any(random, inputs, gates);
    shape.inputs = shape.inputs.max(1);
    shape.gates = shape.gates.max(2);
    shape.bits = shape.bits.min(shape.inputs - 1);
    valid(random, &shape)
}

fn random_ones(comparison: &mut impl CompareListings, random: &mut Random) {
    comparison.group("random bytes of a length that fits");
    for _ in 0..10_000 {
        let sizes = random_sizes(random);
        let mut bytes: Vec<u8> = (0..sizes.length()).map(|_| random.byte()).collect();
        for (at, size) in [sizes.inputs, sizes.gates, sizes.outputs]
            .iter()
            .enumerate()
        {
            bytes[2 * at..][..2].copy_from_slice(&(*size as u16).to_le_bytes());
        }
        comparison.listing(&bytes, &Known::Nothing);
    }
    comparison.group("random wires with kinds that are allowed");
    for _ in 0..20_000 {
        let listing = random_wires(random);
        comparison.listing(&listing.bytes(), &Known::Nothing);
    }
}

fn random_sizes(random: &mut Random) -> Sizes {
    Sizes {
        inputs: random.below(5),
        gates: random.below(5),
        outputs: random.below(6),
    }
}

/// Wires below twelve, or now and then any.
fn random_wires(random: &mut Random) -> Listing {
    let sizes = random_sizes(random);
    let wire = |random: &mut Random| match random.below(32) {
        0 => NO_WIRE,
        1 => random.draw() as u16,
        _ => random.below(12) as u16,
    };
    let mut listing = Listing::default();
    for _ in 0..sizes.inputs {
        let kind = BIT_INPUT + random.below(2) as u8;
        listing.inputs.push(Entry {
            kind,
            ..Entry::gate(0, &[])
        });
    }
    for _ in 0..sizes.gates {
        let number = random.below(GATES.len());
        let wires = GATES[number].takes.iter().map(|_| wire(random));
        let wires: Vec<u16> = wires.collect();
        listing.gates.push(Entry::gate(number as u8, &wires));
    }
    listing.outputs = (0..sizes.outputs).map(|_| wire(random)).collect();
    listing
}
