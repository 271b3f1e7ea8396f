//! The bytes of a listing.

use super::circuits::Circuit;
use pqm::listing;
use program_files::Wire;

/// Constants of its own, so that a fault can be planted in each.
pub const BIT_INPUT: u8 = listing::BIT_INPUT;
pub const QUBIT_INPUT: u8 = listing::QUBIT_INPUT;
pub const SLOTS: usize = listing::SLOTS;
pub const NO_WIRE: u16 = listing::NO_WIRE;

/// Sizes, kind bytes, slots and outputs of a circuit.
pub fn listing(circuit: &Circuit, outputs: &[usize]) -> Vec<u8> {
    let mut bytes = Vec::new();
    for size in [circuit.inputs.len(), circuit.gates.len(), outputs.len()] {
        bytes.extend(number(size));
    }
    for (_, wire) in &circuit.inputs {
        bytes.push(match wire {
            Wire::Bit => BIT_INPUT,
            Wire::Qubit => QUBIT_INPUT,
        });
    }
    for placed in &circuit.gates {
        bytes.push(u8::try_from(placed.gate).expect("a gate's number"));
    }
    for _ in &circuit.inputs {
        bytes.extend([NO_WIRE.to_le_bytes(); SLOTS].concat());
    }
    for placed in &circuit.gates {
        for slot in 0..SLOTS {
            bytes.extend(match placed.takes.get(slot) {
                Some(&wire) => number(wire),
                None => NO_WIRE.to_le_bytes(),
            });
        }
    }
    for &wire in outputs {
        bytes.extend(number(wire));
    }
    bytes
}

/// 16 bits, low byte first.
fn number(number: usize) -> [u8; 2] {
    u16::try_from(number).expect("16 bits").to_le_bytes()
}
