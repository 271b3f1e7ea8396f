//! All small byte strings and all small listings.

use comparing::Known;
use evaluator::listing::{BIT_INPUT, NO_WIRE, QUBIT_INPUT, SLOTS};
use listings::sizes::SIZES;
use listings::{CompareListings, Entry, Listing};
use program_files::GATES;

/// The number of the gate.
const CCX: u16 = 11;

pub fn compare(comparison: &mut impl CompareListings) {
    comparison.group("all byte strings of at most 6 bytes of a few values");
    for length in 0..=SIZES {
        let values = vec![vec![0, 1, 2, 3, 64, 255]; length];
        choices(&values, |bytes| {
            comparison.listing(bytes, &Known::Nothing);
        });
    }
    comparison.group("all of at most two inputs, one gate and two outputs");
    let kinds: Vec<u16> = (0..GATES.len() as u16).collect();
    let any: &[u16] = &[0, 1, 2, 3, NO_WIRE];
    let slots = [any, any, &[0, 2, NO_WIRE]];
    let wires = [0, 1, 2, 3, 4, NO_WIRE];
    for inputs in 0..=2 {
        for outputs in 0..=2 {
            all(comparison, [inputs, 0, outputs], &kinds, slots, &wires);
            all(comparison, [inputs, 1, outputs], &kinds, slots, &wires);
        }
    }
    comparison.group("all of three inputs, CCX and two or three outputs");
    for outputs in 2..=3 {
        let wires = [2, 3, 4, 5];
        all(comparison, [3, 1, outputs], &[CCX], [any; SLOTS], &wires);
    }
    comparison.group("all of one input, two gates and at most two outputs");
    // One gate of each shape and type.
    let kinds = [0, 5, 6, 7, 9, 10, CCX];
    let few: &[u16] = &[0, 1, NO_WIRE];
    let slots = [few, few, &[2, NO_WIRE]];
    for outputs in 0..=2 {
        let wires = [0, 1, 2, 3];
        all(comparison, [1, 2, outputs], &kinds, slots, &wires);
    }
}

/// All listings of these sizes whose gates have these kinds and these wires in each of
/// their slots, and with these outputs.
fn all(
    comparison: &mut impl CompareListings,
    [inputs, gates, outputs]: [usize; 3],
    kinds: &[u16],
    slots: [&[u16]; SLOTS],
    wires: &[u16],
) {
    let mut values = vec![vec![u16::from(BIT_INPUT), u16::from(QUBIT_INPUT)]; inputs];
    for _ in 0..gates {
        values.push(kinds.to_vec());
        values.extend(slots.map(<[u16]>::to_vec));
    }
    values.extend(vec![wires.to_vec(); outputs]);
    choices(&values, |chosen| {
        let (first, rest) = chosen.split_at(inputs);
        let (second, outputs) = rest.split_at((1 + SLOTS) * gates);
        let input = |&kind: &u16| Entry {
            kind: kind as u8,
            slots: [NO_WIRE; SLOTS],
        };
        let gate = |gate: &[u16]| Entry::gate(gate[0] as u8, &gate[1..]);
        let listing = Listing {
            inputs: first.iter().map(input).collect(),
            gates: second.chunks_exact(1 + SLOTS).map(gate).collect(),
            outputs: outputs.to_vec(),
        };
        comparison.listing(&listing.bytes(), &Known::Nothing);
    });
}

/// Every choice of one value from each row.
fn choices<T: Copy>(rows: &[Vec<T>], mut chosen: impl FnMut(&[T])) {
    let count: usize = rows.iter().map(Vec::len).product();
    for number in 0..count {
        let mut rest = number;
        let choice = rows.iter().map(|row| {
            let value = row[rest % row.len()];
            rest /= row.len();
            value
        });
        chosen(&choice.collect::<Vec<T>>());
    }
}
