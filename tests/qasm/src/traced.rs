//! What a text means against what a listing means. The line of a wire is found
//! by going back: a gate's outputs lie where its inputs do, slot by slot, and an
//! input lies on its own line.

use crate::grammar::{self, Action, Condition, Element, Of, Operation, Program, Register};
use listings::Listing;
use program_files::Wire;

/// Reads the text by the grammar and compares it with the listing, whose gates
/// and wires are right.
pub fn compare(text: &[u8], listing: &Listing) -> Result<(), String> {
    let program = grammar::read(text)?;
    let meant = program_of(listing);
    match program == meant {
        true => Ok(()),
        false => Err(format!("the text means {program:?}, the listing {meant:?}")),
    }
}

fn program_of(listing: &Listing) -> Program {
    let mut program = Program::default();
    for (line, input) in listing.inputs.iter().enumerate() {
        if input.as_input() == Some(Wire::Qubit) {
            program.registers.push(register('q', line, Of::Qubits));
        }
        program.registers.push(register('c', line, Of::Bits));
    }
    let makers = makers(listing);
    for gate in &listing.gates {
        let line = |slot: usize| line(listing, &makers, gate.slots[slot]);
        let qubit = |slot: usize| element('q', line(slot));
        let named = |name: &str, qubits: Vec<Element>| Action::Gate(name.to_string(), qubits);
        let under = |slot: usize| Condition {
            register: format!("c{}", line(slot)),
            value: 1,
        };
        let (condition, action) = match gate.kind {
            0 => (None, named("h", vec![qubit(0)])),
            1 => (None, named("x", vec![qubit(0)])),
            2 => (None, named("z", vec![qubit(0)])),
            3 => (None, named("s", vec![qubit(0)])),
            4 => (None, named("t", vec![qubit(0)])),
            5 => (None, named("cx", vec![qubit(0), qubit(1)])),
            6 => (None, Action::Measure(qubit(0), element('c', line(0)))),
            7 => (Some(under(0)), named("x", vec![qubit(1)])),
            8 => (Some(under(0)), named("z", vec![qubit(1)])),
            11 => (None, named("ccx", vec![qubit(0), qubit(1), qubit(2)])),
            kind => panic!("no gate {kind}"),
        };
        program.operations.push(Operation { condition, action });
    }
    program
}

fn register(letter: char, line: usize, of: Of) -> Register {
    Register {
        name: format!("{letter}{line}"),
        of,
        size: 1,
    }
}

fn element(letter: char, line: usize) -> Element {
    Element {
        register: format!("{letter}{line}"),
        index: 0,
    }
}

/// The gate and the slot that made each wire past the inputs.
fn makers(listing: &Listing) -> Vec<(usize, usize)> {
    let mut makers = Vec::new();
    for (gate, entry) in listing.gates.iter().enumerate() {
        let made = entry.as_gate().map_or(0, |gate| gate.makes.len());
        makers.extend((0..made).map(|slot| (gate, slot)));
    }
    makers
}

/// The line of a wire.
fn line(listing: &Listing, makers: &[(usize, usize)], wire: u16) -> usize {
    let mut wire = usize::from(wire);
    while let Some(made) = wire.checked_sub(listing.inputs.len()) {
        let (gate, slot) = makers[made];
        wire = usize::from(listing.gates[gate].slots[slot]);
    }
    wire
}
