//! Compares the check of listings under test with one that counts.

mod by_hand;
mod compare;
mod lending;
mod limits;
mod memory;
mod plain;
mod seen;
mod stack;
mod three;

use compare::Comparison;
use comparing::process;
use listing_compare::under_test::NAME;
use listing_compare::{changed, families, small};

fn main() {
    process::run(compare_all, stack::call);
}

fn compare_all() {
    println!("check under test: {NAME}");
    let mut comparison = Comparison::new();
    by_hand::compare(&mut comparison);
    small::compare(&mut comparison);
    families::compare(&mut comparison);
    changed::compare(&mut comparison);
    limits::compare(&mut comparison);
    lending::compare(&mut comparison);
    comparison.report();
    stack::measure();
    println!(
        "listing_compare: {} listings, {} calls, 0 differences",
        comparison.listings(),
        comparison.calls()
    );
}
