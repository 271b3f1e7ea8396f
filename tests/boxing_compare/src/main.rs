//! Compares programs that differ in nothing but boxes: where an abstraction is
//! lifted, boxed and applied in one, it is itself applied in the other.

mod again;
mod answers;
mod by_hand;
mod changed;
mod compare;
mod families;
mod library;
mod limits;
mod outcomes;
mod put;
mod seen;
mod spots;
mod watched;

use compare::Comparison;
use comparing::{process, quiet};
use std::process::exit;

fn main() {
    let compared = process::thread(compare_all).join();
    exit(if compared.is_ok() { 0 } else { 1 });
}

fn compare_all() {
    quiet::set_panic_hook();
    let mut comparison = Comparison::new();
    by_hand::compare(&mut comparison);
    families::compare(&mut comparison);
    limits::compare(&mut comparison);
    comparison.report();
    println!(
        "boxing_compare: {} pairs, {} of them both finished, 0 differences",
        comparison.pairs(),
        comparison.finished()
    );
}
