//! The least stack on which the run under test takes the deepest programs.

use crate::families::bound_gate;
use comparing::{one_kind, stack};
use program_files::{Program, Wire};
use programs::extremes;
use programs::rules::MOST_ENTRIES;
use programs::terms::{abstraction, application, force, label, let_in, lift, pair, variable};
use programs::typed::Typed;
use programs::types::reusable;
use run_compare::interface::{pack, LEAST};
use run_compare::under_test;

const LIMIT: u32 = 100_000;

/// Nodes of a term that leave room for what is put around it.
const GROWN: usize = 2_038;

/// The deepest programs, with their names: well-typed ones, those that are
/// substituted into and grow, and each kind of term alone, to either side.
fn deepest() -> Vec<(String, Vec<u8>)> {
    let mut files = Vec::new();
    for (name, typed) in extremes::all(2_048) {
        files.push((name.to_string(), typed.program.bytes()));
    }
    for (name, typed) in extremes::at_the_type_bound() {
        let name = format!("{name} at the type bound");
        files.push((name, typed.program.bytes()));
    }
    for (name, typed) in extremes::all(GROWN) {
        if let Some(program) = grown(&typed) {
            files.push((format!("{name}, substituted"), program.bytes()));
        }
    }
    for (name, program) in one_kind::programs() {
        files.push((name, program.bytes()));
    }
    files
}

/// The program in a lift that is bound and used twice, if it has no label, so
/// that it grows to twice its nodes; else a gate of it bound. None if there is
/// no pair of two of its type.
fn grown(typed: &Typed) -> Option<Program> {
    if !typed.program.labels.is_empty() {
        let bound = bound_gate(typed, 0).expect("room for three nodes");
        return Some(bound.program);
    }
    if 1 + 2 * typed.of.size() > MOST_ENTRIES {
        return None;
    }
    let both = pair(force(variable(0)), force(variable(0)));
    let copied = abstraction(reusable(typed.of.clone()), let_in(both, label(0)));
    Some(Program::new(
        vec![Wire::Qubit],
        application(copied, lift(typed.program.term.clone())),
    ))
}

/// The run under test with buffers of the least lengths.
pub fn call(file: &[u8]) -> u64 {
    let mut buffers = LEAST.map(|length| vec![0; length]);
    let [out, working @ ..] = buffers.each_mut();
    under_test::answer(file, LIMIT, out, working.map(|buffer| &mut buffer[..]))
}

pub fn measure() {
    stack::measure(deepest(), |file| pack(&evaluator::run(file, LIMIT)));
}
