//! Compares the exported check with the one of `programs`.

mod by_hand;
mod compare;
mod lending;
mod memory;
mod pairs;
mod seen;
mod stack;
mod three;
mod three_wires;
mod two_faults;

use check_compare::families;
use compare::Comparison;
use comparing::process;

fn main() {
    process::run(compare_all, stack::call);
}

fn compare_all() {
    let mut comparison = Comparison::new();
    by_hand::compare(&mut comparison);
    two_faults::compare(&mut comparison);
    pairs::compare(&mut comparison);
    three_wires::compare(&mut comparison);
    families::compare(&mut comparison);
    lending::compare(&mut comparison);
    comparison.report();
    stack::measure();
    println!(
        "check_compare: {} programs, 0 differences",
        comparison.programs()
    );
}
