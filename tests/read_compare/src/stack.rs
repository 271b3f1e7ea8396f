//! The least stack on which the exported reader takes the deepest files.

use crate::library::pack;
use comparing::{one_kind, stack};
use program_files::{kinds, read, Entries, Entry, Program};
use programs::terms::{abstraction, boxed, gate};

/// The deepest files, with their names: of each kind of term and of each kind
/// of type, to either side; and those that run out, which go deeper where
/// there are two parts.
fn deepest() -> Vec<(String, Vec<u8>)> {
    let mut files = Vec::new();
    for (name, program) in one_kind::programs() {
        files.push((name, program.bytes()));
    }
    for (name, kind) in one_kind::TERMS {
        let terms = vec![Entry::new(kind, 0); 2_048];
        let file = run_out(vec![Entry::new(kinds::BIT, 0)], terms);
        files.push((format!("2048 {name} that run out"), file));
    }
    for (name, of) in one_kind::types(512) {
        let program = Program::new(
            Vec::new(),
            match of.is_wire_type() {
                true => boxed(of, gate(0)),
                false => abstraction(of, gate(0)),
            },
        );
        files.push((name, program.bytes()));
    }
    for (name, kind) in one_kind::TYPES {
        let types = vec![Entry::new(kind, 0); 512];
        let file = run_out(types, vec![Entry::new(kinds::GATE, 0)]);
        files.push((format!("512 {name} that run out"), file));
    }
    files
}

fn run_out(types: Vec<Entry>, terms: Vec<Entry>) -> Vec<u8> {
    let entries = Entries {
        labels: Vec::new(),
        types,
        terms,
    };
    entries.bytes()
}

pub fn measure() {
    stack::measure(deepest(), |file| {
        pack(read(file).map(|accepted| accepted.sizes))
    });
}
