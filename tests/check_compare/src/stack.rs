//! The least stack on which the exported check takes the deepest programs.

use check_compare::library::{self, LEAST_OUT, LEAST_WORK};
use comparing::{one_kind, stack};
use program_files::{encode, Positions, Program, Term};
use programs::terms::{abstraction, application, gate, variable};
use programs::{check, extremes};
use std::rc::Rc;

/// The deepest programs, with their names: well typed ones, and each kind of
/// term and of type alone, to either side.
fn deepest() -> Vec<(String, Vec<u8>)> {
    let mut files = Vec::new();
    let typed = extremes::all(2_048).into_iter();
    for (name, typed) in typed.chain(extremes::at_the_type_bound()) {
        let depths = (typed.program.term.depth(), typed.of.depth());
        let name = format!(
            "{name}, {} deep, of a type {} deep, accepted",
            depths.0, depths.1
        );
        files.push((name, typed.program.bytes()));
    }
    for (name, program) in one_kind::programs() {
        files.push((name, program.bytes()));
    }
    for (name, largest) in one_kind::types(512) {
        let term = abstraction(largest, gate(0));
        files.push((name, bytes_of(term, Positions::First)));
    }
    // Two types that stand at two positions are compared.
    for (name, half) in one_kind::types(256) {
        let inner = abstraction(half.clone(), gate(0));
        let term = abstraction(half, application(inner, variable(0)));
        files.push((format!("{name}, twice"), bytes_of(term, Positions::Fresh)));
    }
    files
}

fn bytes_of(term: Rc<Term>, positions: Positions) -> Vec<u8> {
    let program = Program::new(Vec::new(), term);
    let entries = encode(&program, positions);
    entries.expect("sizes in range").bytes()
}

/// The exported check with buffers of the least lengths.
pub fn call(file: &[u8]) -> u64 {
    let mut out = vec![0; LEAST_OUT];
    let mut work = vec![0; LEAST_WORK];
    library::answer(file, &mut out, &mut work)
}

pub fn measure() {
    stack::measure(deepest(), |file| library::pack(&check(file)));
}
