//! Compares the exported reader with the one of `program_files`.

mod compare;
mod library;
mod planted;
mod stack;

use compare::Comparison;
use comparing::process;
use read_compare::{by_hand, families};

fn main() {
    process::run(compare_all, library::answer);
}

fn compare_all() {
    let mut comparison = Comparison::new();
    by_hand::compare(&mut comparison);
    families::compare(&mut comparison);
    comparison.report();
    stack::measure();
    println!("read_compare: {} files, 0 differences", comparison.files());
}
