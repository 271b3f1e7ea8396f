//! The check of a listing in plain Rust, with a lent byte for each wire: 0 where
//! it is not there, else its type.

use crate::memory::{self, NO_WIRE, SLOTS};
use crate::{ENTRY, MOST_OUTPUTS};
use program_files::entries::MOST_LABELS;
use program_files::{Refusal, Wire, GATES};

/// The least length of the lent bytes.
pub const LEAST_WORK: usize = MOST_LABELS + SLOTS * memory::GATES;

/// The kind byte of an input that is a Bit; that of a Qubit follows.
pub(crate) const BIT_INPUT: u8 = 128;
const QUBIT_INPUT: u8 = BIT_INPUT + 1;

/// L, G and O.
#[derive(Clone, Copy, PartialEq, Eq, Debug)]
pub struct Sizes {
    pub inputs: usize,
    pub gates: usize,
    pub outputs: usize,
}

/// The three parts of a listing behind its sizes.
pub(crate) struct Parts<'a> {
    inputs: usize,
    kinds: &'a [u8],
    slots: &'a [u8],
    pub(crate) outputs: &'a [u8],
}

/// Checks a listing. The lent bytes are zero afterwards, unless they are too
/// few.
pub fn check(listing: &[u8], work: &mut [u8]) -> Result<Sizes, Refusal> {
    if work.len() < LEAST_WORK {
        return refuse(19, 0);
    }
    let answer = check_in(listing, work);
    work.fill(0);
    answer
}

fn check_in(listing: &[u8], there: &mut [u8]) -> Result<Sizes, Refusal> {
    let Some((sizes, parts)) = parts(listing) else {
        return refuse(24, 0);
    };
    test_entries(&parts)?;
    let made = take_gates(&parts, there)?;
    take_outputs(&parts, &mut there[..made])?;
    match there[..made].iter().position(|&of| of != 0) {
        Some(wire) => refuse(26, parts.maker(wire)),
        None => Ok(sizes),
    }
}

fn refuse<T>(number: u8, place: usize) -> Result<T, Refusal> {
    Err(Refusal { number, place })
}

pub(crate) fn word(bytes: &[u8]) -> usize {
    usize::from(u16::from_le_bytes([bytes[0], bytes[1]]))
}

/// How a wire of this type that is there is marked.
pub(crate) fn mark(of: Wire) -> u8 {
    match of {
        Wire::Bit => 1,
        Wire::Qubit => 2,
    }
}

/// None if a size is too large or the length another one.
pub(crate) fn parts(listing: &[u8]) -> Option<(Sizes, Parts<'_>)> {
    let (head, rest) = listing.split_at_checked(6)?;
    let sizes = Sizes {
        inputs: word(head),
        gates: word(&head[2..]),
        outputs: word(&head[4..]),
    };
    let in_range = sizes.inputs <= MOST_LABELS
        && sizes.gates <= memory::GATES
        && sizes.outputs <= MOST_OUTPUTS;
    let entries = sizes.inputs + sizes.gates;
    if !in_range || rest.len() != ENTRY * entries + 2 * sizes.outputs {
        return None;
    }
    let (kinds, rest) = rest.split_at(entries);
    let (slots, outputs) = rest.split_at(2 * SLOTS * entries);
    let inputs = sizes.inputs;
    let parts = Parts {
        inputs,
        kinds,
        slots,
        outputs,
    };
    Some((sizes, parts))
}

impl Parts<'_> {
    /// The entries, each with its kind and its slots.
    pub(crate) fn entries(&self) -> impl Iterator<Item = (usize, u8, &[u8])> {
        let slots = self.slots.chunks_exact(2 * SLOTS);
        let entries = self.kinds.iter().zip(slots).enumerate();
        entries.map(|(at, (&kind, slots))| (at, kind, slots))
    }

    /// The entry that made a wire.
    fn maker(&self, wire: usize) -> usize {
        let mut made = self.inputs;
        if wire < made {
            return wire;
        }
        let gates = self.kinds[self.inputs..].iter();
        let before = gates.take_while(|&&kind| {
            made += GATES[usize::from(kind)].makes.len();
            made <= wire
        });
        self.inputs + before.count()
    }
}

/// Each kind is allowed where it stands, and unused slots are so.
fn test_entries(parts: &Parts) -> Result<(), Refusal> {
    for (at, kind, slots) in parts.entries() {
        let used = match at < parts.inputs {
            true => (BIT_INPUT..=QUBIT_INPUT).contains(&kind).then_some(0),
            false => GATES.get(usize::from(kind)).map(|gate| gate.takes.len()),
        };
        let Some(used) = used else {
            return refuse(25, at);
        };
        if slots[2 * used..]
            .chunks_exact(2)
            .any(|slot| slot != NO_WIRE.to_le_bytes())
        {
            return refuse(25, at);
        }
    }
    Ok(())
}

/// Makes the inputs; each gate takes its wires and makes others. How many were
/// made.
fn take_gates(parts: &Parts, there: &mut [u8]) -> Result<usize, Refusal> {
    let mut made = 0;
    for (at, kind, slots) in parts.entries() {
        if at < parts.inputs {
            there[made] = kind - BIT_INPUT + mark(Wire::Bit);
            made += 1;
            continue;
        }
        let gate = &GATES[usize::from(kind)];
        for (slot, &of) in slots.chunks_exact(2).zip(gate.takes) {
            match there[..made].get_mut(word(slot)) {
                Some(wire) if *wire == mark(of) => *wire = 0,
                _ => return refuse(26, at),
            }
        }
        for &of in gate.makes {
            there[made] = mark(of);
            made += 1;
        }
    }
    Ok(made)
}

/// Each output takes a wire that is there.
fn take_outputs(parts: &Parts, there: &mut [u8]) -> Result<(), Refusal> {
    for (at, output) in parts.outputs.chunks_exact(2).enumerate() {
        match there.get_mut(word(output)) {
            Some(wire) if *wire != 0 => *wire = 0,
            _ => return refuse(26, parts.kinds.len() + at),
        }
    }
    Ok(())
}
