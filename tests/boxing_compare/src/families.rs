//! The pairs that are compared, all from fixed seeds.

use crate::again;
use crate::compare::Comparison;
use crate::put::{applied, holds_linear, with_spots};
use comparing::files::some_typed;
use program_files::{Program, Random};
use programs::blocks::{self, blocks};
use programs::edit::replaced;
use programs::survey::Survey;
use programs::typed::{Plan, Typed};

pub fn compare(comparison: &mut Comparison) {
    in_blocks(comparison);
    any_rules(comparison);
    nested_boxes(comparison);
    copies(comparison);
    used_again(comparison);
    helpers(comparison);
    no_wire_type(comparison);
    holding(comparison);
}

/// Compares the program with some spots more.
fn spotted(comparison: &mut Comparison, random: &mut Random, typed: &Typed, helpers: bool) {
    let count = random.between(1, 3);
    let typed = with_spots(random, typed, count, helpers);
    comparison.program(&typed);
}

/// Compares so many programs of plans, with some spots more.
fn planned(
    comparison: &mut Comparison,
    random: &mut Random,
    count: usize,
    plan: impl Fn(&mut Random) -> Plan,
) {
    for _ in 0..count {
        let plan = plan(random);
        let typed = some_typed(random, &plan);
        let helpers = plan.helpers || random.one_in(3);
        spotted(comparison, random, &typed, helpers);
    }
}

/// A program that is built block by block.
fn some_blocks(random: &mut Random) -> (Typed, bool) {
    let helpers = random.one_in(2);
    let plan = blocks::Plan {
        labels: random.between(usize::from(!helpers), 5),
        actions: random.between(1, 16),
        boxes: random.between(1, 6),
        deep: random.one_in(3),
        helpers,
    };
    (blocks(random, &plan), helpers)
}

fn in_blocks(comparison: &mut Comparison) {
    comparison.group("circuits built block by block");
    let mut random = Random::new(1);
    for _ in 0..5_000 {
        let (typed, helpers) = some_blocks(&mut random);
        spotted(comparison, &mut random, &typed, helpers);
    }
}

fn any_rules(comparison: &mut Comparison) {
    comparison.group("of a wire type, any rules");
    let mut random = Random::new(2);
    planned(comparison, &mut random, 2_000, |random| {
        Plan::of_wires(random, 4, 24)
    });
    planned(comparison, &mut random, 500, |random| {
        Plan::of_wires(random, 6, 80)
    });
}

fn nested_boxes(comparison: &mut Comparison) {
    comparison.group("of a wire type, boxes inside boxes");
    let mut random = Random::new(3);
    planned(comparison, &mut random, 1_000, |random| {
        Plan::of_wires(random, 4, 80).with_nested_boxes()
    });
}

fn copies(comparison: &mut Comparison) {
    comparison.group("of a wire type, circuits and functions used several times");
    let mut random = Random::new(4);
    planned(comparison, &mut random, 1_000, |random| {
        Plan::of_wires(random, 4, 60).with_copies()
    });
}

/// Spots in a function or in a circuit that is used several times.
fn used_again(comparison: &mut Comparison) {
    comparison.group("with spots in a function or a circuit used several times");
    let mut random = Random::new(8);
    for _ in 0..5_000 {
        let helpers = random.one_in(3);
        if let Some(typed) = again::program(&mut random, helpers) {
            spotted(comparison, &mut random, &typed, helpers);
        }
    }
}

fn helpers(comparison: &mut Comparison) {
    comparison.group("of a wire type, with wires that come and go");
    let mut random = Random::new(5);
    planned(comparison, &mut random, 1_000, |random| {
        Plan::of_wires(random, 3, 50).with_helpers()
    });
}

fn no_wire_type(comparison: &mut Comparison) {
    comparison.group("of any type");
    let mut random = Random::new(6);
    planned(comparison, &mut random, 1_000, |random| {
        Plan::any(random, 4, 60)
    });
}

/// An abstraction that holds a wire may be applied but not boxed.
fn holding(comparison: &mut Comparison) {
    comparison.group("an abstraction boxed that holds a wire");
    let mut random = Random::new(7);
    for _ in 0..1_000 {
        let (typed, _) = some_blocks(&mut random);
        let survey = Survey::new(&typed.program.labels, &typed.program.term);
        let spots: Vec<usize> = (0..survey.nodes.len())
            .filter(|&at| applied(&survey, at).is_some() && holds_linear(&survey, at + 1))
            .collect();
        if spots.is_empty() {
            continue;
        }
        let at = random.pick(&spots);
        let put = applied(&survey, at).expect("a spot");
        let boxed = Program {
            term: replaced(&survey, at, put.boxed()),
            ..typed.program.clone()
        };
        comparison.only_unboxed_passes(&boxed, &typed);
    }
}
