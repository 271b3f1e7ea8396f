//! Faults for listings that are accepted.

use crate::entries::{Entry, Listing};
use crate::generate::wire_types;
use comparing::Known;
use evaluator::listing::{BIT_INPUT, NO_WIRE, QUBIT_INPUT, SLOTS};
use program_files::{Random, Wire, GATES};

/// A way to break a listing.
#[derive(Clone, Copy, PartialEq, Eq, Debug)]
pub enum Way {
    InputKind,
    GateKind,
    InputSlot,
    GateSlot,
    NotMade,
    OtherType,
    GoneToGate,
    GoneToItself,
    OutputNotMade,
    OutputGoneToGate,
    OutputTwice,
    OutputsMissing,
    OtherGate,
    GatesExchanged,
    GateMissing,
}

pub const WAYS: [Way; 15] = [
    Way::InputKind,
    Way::GateKind,
    Way::InputSlot,
    Way::GateSlot,
    Way::NotMade,
    Way::OtherType,
    Way::GoneToGate,
    Way::GoneToItself,
    Way::OutputNotMade,
    Way::OutputGoneToGate,
    Way::OutputTwice,
    Way::OutputsMissing,
    Way::OtherGate,
    Way::GatesExchanged,
    Way::GateMissing,
];

/// Each way chooses where it breaks the listing, and tries so often.
const TRIES: usize = 8;

/// The listing broken in this way, and what is then known if it was accepted;
/// none if it cannot be broken so.
pub fn broken(random: &mut Random, listing: &Listing, way: Way) -> Option<(Listing, Known)> {
    (0..TRIES).find_map(|_| {
        let mut listing = listing.clone();
        let known = break_listing(random, &mut listing, way)?;
        Some((listing, known))
    })
}

/// The listing broken two to five times, in any ways.
pub fn often_broken(random: &mut Random, listing: &Listing) -> Listing {
    let mut listing = listing.clone();
    for _ in 0..random.between(2, 5) {
        let way = random.pick(&WAYS);
        if let Some((more, _)) = broken(random, &listing, way) {
            listing = more;
        }
    }
    listing
}

fn break_listing(random: &mut Random, listing: &mut Listing, way: Way) -> Option<Known> {
    match way {
        Way::InputKind | Way::InputSlot => break_input(random, listing, way),
        Way::GateKind | Way::GateSlot => break_entry_of_gate(random, listing, way),
        Way::NotMade | Way::OtherType | Way::GoneToGate | Way::GoneToItself => {
            break_slot(random, listing, way)
        }
        Way::OutputNotMade | Way::OutputGoneToGate | Way::OutputTwice => {
            break_output(random, listing, way)
        }
        Way::OutputsMissing => drop_outputs(random, listing),
        Way::OtherGate | Way::GatesExchanged | Way::GateMissing => {
            change_gates(random, listing, way)
        }
    }
}

/// A number below the count, if there is one.
fn any(random: &mut Random, count: usize) -> Option<usize> {
    (count > 0).then(|| random.below(count))
}

fn break_input(random: &mut Random, listing: &mut Listing, way: Way) -> Option<Known> {
    let at = any(random, listing.inputs.len())?;
    let entry = &mut listing.inputs[at];
    match way {
        Way::InputKind => {
            entry.kind = match random.below(3) {
                0 => random.below(GATES.len()) as u8,
                1 => random.pick(&[BIT_INPUT - 1, QUBIT_INPUT + 1]),
                _ => random.byte(),
            };
            entry.as_input().is_none().then_some(())?;
        }
        _ => put_wire(random, entry, 0)?,
    }
    Some(Known::Refused(25, at))
}

fn break_entry_of_gate(random: &mut Random, listing: &mut Listing, way: Way) -> Option<Known> {
    let at = any(random, listing.gates.len())?;
    let entry = &mut listing.gates[at];
    match way {
        Way::GateKind => {
            // An input would use no slot.
            if random.one_in(3) {
                *entry = Entry::gate(random.pick(&[BIT_INPUT, QUBIT_INPUT]), &[]);
            } else {
                entry.kind = match random.below(2) {
                    0 => GATES.len() as u8,
                    _ => random.byte(),
                };
            }
            entry.as_gate().is_none().then_some(())?;
        }
        _ => put_wire(random, entry, entry.as_gate()?.takes.len())?,
    }
    Some(Known::Refused(25, listing.inputs.len() + at))
}

/// Puts a wire into one of the unused slots.
fn put_wire(random: &mut Random, entry: &mut Entry, used: usize) -> Option<()> {
    let slot = used + any(random, SLOTS - used)?;
    entry.slots[slot] = match random.below(4) {
        0 => 0,
        1 => NO_WIRE - 1,
        2 => NO_WIRE ^ 1 << random.below(16),
        _ => random.below(8) as u16,
    };
    Some(())
}

/// The wires that are made before a gate, with their types, and whether each is
/// gone to a gate.
fn wires_before(listing: &Listing, gate: usize) -> Vec<(Wire, bool)> {
    let before = Listing {
        inputs: listing.inputs.clone(),
        gates: listing.gates[..gate].to_vec(),
        outputs: Vec::new(),
    };
    let types = wire_types(&before);
    let mut wires: Vec<(Wire, bool)> = types.into_iter().map(|of| (of, false)).collect();
    for wire in before.gates.iter().flat_map(|entry| entry.slots) {
        if let Some((_, gone)) = wires.get_mut(usize::from(wire)) {
            *gone = true;
        }
    }
    wires
}

/// One of the wires for which this holds.
fn such_wire(
    random: &mut Random,
    wires: &[(Wire, bool)],
    such: impl Fn(Wire, bool) -> bool,
) -> Option<u16> {
    let all = (0..wires.len()).filter(|&wire| such(wires[wire].0, wires[wire].1));
    let all: Vec<usize> = all.collect();
    any(random, all.len()).map(|at| all[at] as u16)
}

/// A wire that is not among the first so many.
fn not_made(random: &mut Random, made: usize) -> u16 {
    let wire = match random.below(4) {
        0 => made,
        1 => made + random.below(4),
        2 => random.between(made, usize::from(NO_WIRE)),
        _ => usize::from(NO_WIRE),
    };
    wire as u16
}

fn break_slot(random: &mut Random, listing: &mut Listing, way: Way) -> Option<Known> {
    let at = any(random, listing.gates.len())?;
    let takes = listing.gates[at].as_gate()?.takes;
    let slot = any(random, takes.len())?;
    let wires = wires_before(listing, at);
    let wire = match way {
        Way::NotMade => not_made(random, wires.len()),
        Way::OtherType => such_wire(random, &wires, |of, gone| of != takes[slot] && !gone)?,
        Way::GoneToGate => such_wire(random, &wires, |of, gone| of == takes[slot] && gone)?,
        _ => listing.gates[at].slots[any(random, slot)?],
    };
    listing.gates[at].slots[slot] = wire;
    Some(Known::Refused(26, listing.inputs.len() + at))
}

fn break_output(random: &mut Random, listing: &mut Listing, way: Way) -> Option<Known> {
    let at = any(random, listing.outputs.len())?;
    let wires = wires_before(listing, listing.gates.len());
    listing.outputs[at] = match way {
        Way::OutputNotMade => not_made(random, wires.len()),
        Way::OutputGoneToGate => such_wire(random, &wires, |_, gone| gone)?,
        _ => listing.outputs[any(random, at)?],
    };
    Some(Known::Refused(26, listing.sizes().entries() + at))
}

/// Drops up to three outputs.
fn drop_outputs(random: &mut Random, listing: &mut Listing) -> Option<Known> {
    let mut dropped = Vec::new();
    for _ in 0..random.between(1, 3) {
        if let Some(at) = any(random, listing.outputs.len()) {
            dropped.push(usize::from(listing.outputs.remove(at)));
        }
    }
    let lowest = dropped.into_iter().min()?;
    Some(Known::Refused(26, maker(listing, lowest)?))
}

/// The entry that made a wire.
fn maker(listing: &Listing, wire: usize) -> Option<usize> {
    let mut made = 0;
    listing.entries().position(|entry| {
        made += entry.as_input().iter().len();
        made += entry.as_gate().map_or(0, |gate| gate.makes.len());
        made > wire
    })
}

/// Changes gates so that nothing is known.
fn change_gates(random: &mut Random, listing: &mut Listing, way: Way) -> Option<Known> {
    let at = any(random, listing.gates.len())?;
    match way {
        Way::OtherGate => {
            let takes = listing.gates[at].as_gate()?.takes.len();
            let number = random.below(GATES.len());
            (GATES[number].takes.len() == takes).then_some(())?;
            listing.gates[at].kind = number as u8;
        }
        Way::GatesExchanged => {
            let other = any(random, listing.gates.len())?;
            listing.gates.swap(at, other);
        }
        _ => drop(listing.gates.remove(at)),
    }
    Some(Known::Nothing)
}
