//! Compares the run under test with the evaluator.

mod by_hand;
mod compare;
mod families;
mod helped;
mod lending;
mod limits;
mod listed;
mod memory;
mod pairs;
mod seen;
mod sound;
mod stack;
mod three;
mod three_wires;

use compare::Comparison;
use comparing::{process, quiet};
use run_compare::under_test::NAME;

fn main() {
    process::run(compare_all, stack::call);
}

/// Two threads compare; the first one looks for the planted faults.
fn compare_all() {
    println!("run under test: {NAME}");
    quiet::set_panic_hook();
    let second = process::thread(|| {
        let mut comparison = Comparison::new();
        pairs::compare(&mut comparison);
        families::of_one_form(&mut comparison);
        comparison.counted
    });
    let mut comparison = Comparison::with_planted_faults();
    by_hand::compare(&mut comparison);
    three_wires::compare(&mut comparison);
    families::small(&mut comparison);
    limits::compare(&mut comparison);
    lending::compare(&mut comparison);
    families::of_all_rules(&mut comparison);
    let counted = second.join().expect("the second thread's counts");
    comparison.counted.add(counted);
    comparison.report();
    stack::measure();
    println!(
        "run_compare: {} programs, {} calls, 0 differences",
        comparison.counted.programs(),
        comparison.counted.calls()
    );
}
