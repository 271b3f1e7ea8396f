//! The entries and outputs of a listing, allowed or not, and its bytes.

use super::sizes::{Sizes, SIZES};
use super::{BIT_INPUT, NO_WIRE, QUBIT_INPUT, SLOTS};
use crate::gates::{Gate, GATES};
use crate::trees::Wire;
use std::iter;

/// An input or a gate.
#[derive(Clone, Copy, PartialEq, Eq, Debug)]
pub struct Entry {
    pub kind: u8,
    pub slots: [u16; SLOTS],
}

impl Entry {
    pub fn input(of: Wire) -> Entry {
        let kind = match of {
            Wire::Bit => BIT_INPUT,
            Wire::Qubit => QUBIT_INPUT,
        };
        Entry {
            kind,
            slots: [NO_WIRE; SLOTS],
        }
    }

    /// The gate of this number, which takes these wires.
    pub fn gate(number: u8, wires: &[u16]) -> Entry {
        let mut slots = [NO_WIRE; SLOTS];
        slots[..wires.len()].copy_from_slice(wires);
        Entry {
            kind: number,
            slots,
        }
    }

    /// The type of the input that this kind is.
    pub fn as_input(&self) -> Option<Wire> {
        match self.kind {
            BIT_INPUT => Some(Wire::Bit),
            QUBIT_INPUT => Some(Wire::Qubit),
            _ => None,
        }
    }

    /// The gate that this kind is.
    pub fn as_gate(&self) -> Option<&'static Gate> {
        GATES.get(usize::from(self.kind))
    }
}

/// A listing by its parts.
#[derive(Clone, PartialEq, Eq, Default, Debug)]
pub struct Listing {
    pub inputs: Vec<Entry>,
    pub gates: Vec<Entry>,
    pub outputs: Vec<u16>,
}

impl Listing {
    /// The parts of these bytes, whose length is the one that their sizes give.
    pub fn of_bytes(sizes: &Sizes, bytes: &[u8]) -> Listing {
        assert_eq!(bytes.len(), sizes.length(), "the length of a listing");
        let word = |at: usize| u16::from_le_bytes([bytes[at], bytes[at + 1]]);
        let slots = SIZES + sizes.entries();
        let outputs = slots + 2 * SLOTS * sizes.entries();
        let entry = |number: usize| Entry {
            kind: bytes[SIZES + number],
            slots: std::array::from_fn(|slot| word(slots + 2 * (SLOTS * number + slot))),
        };
        Listing {
            inputs: (0..sizes.inputs).map(entry).collect(),
            gates: (sizes.inputs..sizes.entries()).map(entry).collect(),
            outputs: (0..sizes.outputs)
                .map(|at| word(outputs + 2 * at))
                .collect(),
        }
    }

    pub fn sizes(&self) -> Sizes {
        Sizes {
            inputs: self.inputs.len(),
            gates: self.gates.len(),
            outputs: self.outputs.len(),
        }
    }

    /// The inputs, then the gates.
    pub fn entries(&self) -> impl Iterator<Item = &Entry> {
        self.inputs.iter().chain(&self.gates)
    }

    pub fn bytes(&self) -> Vec<u8> {
        self.with_slots(SLOTS)
    }

    /// The bytes with so many slots in each entry; those past its own have no wire.
    pub fn with_slots(&self, count: usize) -> Vec<u8> {
        let sizes = self.sizes();
        let mut bytes = Vec::with_capacity(sizes.length());
        for size in [sizes.inputs, sizes.gates, sizes.outputs] {
            bytes.extend(u16::try_from(size).expect("16 bits").to_le_bytes());
        }
        bytes.extend(self.entries().map(|entry| entry.kind));
        let slots = self.entries().flat_map(|entry| {
            let slots = entry.slots.into_iter();
            slots.chain(iter::repeat(NO_WIRE)).take(count)
        });
        for wire in slots.chain(self.outputs.iter().copied()) {
            bytes.extend(wire.to_le_bytes());
        }
        bytes
    }
}
