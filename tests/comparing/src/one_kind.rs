//! The deepest terms and types that have one kind alone, to either side.

use program_files::generate::{Generator, Grouping, Lean, Shape};
use program_files::{kinds, Program, Random, Type};
use std::rc::Rc;

pub const TERMS: [(&str, u8); 8] = [
    ("abstractions", kinds::ABSTRACTION),
    ("lifts", kinds::LIFT),
    ("forces", kinds::FORCE),
    ("boxes", kinds::BOX),
    ("applications", kinds::APPLICATION),
    ("pairs", kinds::PAIR),
    ("lets", kinds::LET),
    ("applies", kinds::APPLY),
];

pub const TYPES: [(&str, u8); 4] = [
    ("reusable types", kinds::REUSABLE),
    ("pair types", kinds::PAIR_TYPE),
    ("function types", kinds::FUNCTION),
    ("circuit types", kinds::CIRCUIT),
];

/// Two sides where there are two parts, and one entry less.
fn sides(parts: Option<usize>) -> &'static [(&'static str, Lean, usize)] {
    match parts {
        Some(2) => &[
            (" to the left", Lean::First, 1),
            (" to the right", Lean::Second, 1),
        ],
        _ => &[("", Lean::Any, 0)],
    }
}

/// Programs of 2,048 or 2,047 nodes, with their names.
pub fn programs() -> Vec<(String, Program)> {
    let mut programs = Vec::new();
    for (name, kind) in TERMS {
        for &(side, lean, less) in sides(kinds::term_parts(kind)) {
            let shape = Shape {
                term_kinds: vec![kind],
                lean,
                ..Shape::new(64, 1, 2_048 - less)
            };
            let program = Generator::program(&mut Random::new(0), &shape);
            let depth = program.term.depth();
            programs.push((format!("{name}{side}, {depth} deep"), program));
        }
    }
    programs
}

/// Types of so many entries or of one less, for an even number, with their
/// names.
pub fn types(size: usize) -> Vec<(String, Rc<Type>)> {
    let mut types = Vec::new();
    for (name, kind) in TYPES {
        for &(side, lean, less) in sides(kinds::type_parts(kind)) {
            let shape = Shape {
                type_kinds: vec![kind],
                lean,
                grouping: Grouping::One,
                ..Shape::new(0, size - less, 1)
            };
            let program = Generator::program(&mut Random::new(0), &shape);
            let of = program.listed[0].clone();
            types.push((format!("{name}{side}, {} deep", of.depth()), of));
        }
    }
    types
}
