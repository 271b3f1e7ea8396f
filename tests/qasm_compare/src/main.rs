//! Compares the export and the import of OpenQASM under test with a printer and
//! a strict parser, every exported text with the language's grammar, and what
//! some compute with what their listings compute.

mod by_hand;
mod compare;
mod exports;
mod families;
mod lending;
mod limits;
mod meaning;
mod memory;
mod seen;
mod stack;
mod three;

use compare::Comparison;
use comparing::process;
use qasm_compare::damage;
use qasm_compare::under_test::NAME;

fn main() {
    process::run(compare_all, stack::call);
}

fn compare_all() {
    println!("export and import under test: {NAME}");
    let mut comparison = Comparison::new();
    by_hand::compare(&mut comparison);
    families::compare(&mut comparison);
    damage::compare(&mut comparison);
    limits::compare(&mut comparison);
    lending::compare(&mut comparison);
    comparison.report();
    meaning::compare();
    stack::measure();
    println!(
        "qasm_compare: {} listings, {} texts, {} calls, 0 differences",
        comparison.listings(),
        comparison.texts(),
        comparison.calls()
    );
}
