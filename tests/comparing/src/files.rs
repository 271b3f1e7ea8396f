//! Files of programs, generated and broken.

use crate::known::Known;
use program_files::generate::{Generator, Shape};
use program_files::{encode, kinds, Entries, Positions, Program, Random};
use programs::broken::{broken, Way};
use programs::typed::{typed, Goal, Plan, Typed};

/// A comparison of programs, one at a time.
pub trait ComparePrograms {
    /// The generated programs that follow are counted under this name.
    fn group(&mut self, name: &str);

    /// The same of programs that are listed and not generated.
    fn listed_group(&mut self, name: &str) {
        self.group(name);
    }

    /// Compares what this program gives with what it should, and with what is
    /// known of it.
    fn program(&mut self, file: &[u8], known: &Known);
}

/// Compares a well-typed program; none if it has no file.
pub fn well_typed(
    comparison: &mut impl ComparePrograms,
    random: &mut Random,
    typed: &Typed,
) -> Option<()> {
    let entries = entries(random, &typed.program)?;
    comparison.program(&entries.bytes(), &Known::Type(typed.of.clone()));
    Some(())
}

/// Compares so many programs of plans.
pub fn planned(
    comparison: &mut impl ComparePrograms,
    random: &mut Random,
    count: usize,
    plan: impl Fn(&mut Random) -> Plan,
) {
    for _ in 0..count {
        let plan = plan(random);
        let typed = some_typed(random, &plan);
        well_typed(comparison, random, &typed).expect("a file");
    }
}

/// The program's file, its types listed or not, shared or not.
pub fn entries(random: &mut Random, program: &Program) -> Option<Entries> {
    let unlisted = || Program {
        listed: Vec::new(),
        ..program.clone()
    };
    let choice = random.below(4);
    let mut any = |known: &[usize]| random.pick(known);
    let entries = match choice {
        0 => encode(&unlisted(), Positions::Fresh),
        1 => encode(&unlisted(), Positions::First),
        2 => encode(&unlisted(), Positions::Any(&mut any)),
        _ => None,
    };
    let entries = entries.or_else(|| encode(program, Positions::Any(&mut any)));
    entries.or_else(|| encode(&unlisted(), Positions::First))
}

/// A program of this plan, or of one that asks for less.
pub fn some_typed(random: &mut Random, plan: &Plan) -> Typed {
    let mut plan = plan.clone();
    loop {
        if let Some(typed) = typed(random, &plan) {
            if entries(random, &typed.program).is_some() {
                return typed;
            }
        }
        plan.terms -= plan.terms / 8;
        plan.types = 512;
        if plan.goal != Goal::Wires {
            plan.goal = Goal::Made;
        }
    }
}

/// The file of a program broken in this way, and what is known of it.
pub fn broken_file(random: &mut Random, program: &Program, way: Way) -> Option<(Vec<u8>, Known)> {
    let (program, expected) = broken(random, program, way)?;
    let entries = entries(random, &program)?;
    Some((entries.bytes(), Known::of_program(expected, &entries)))
}

/// The file of a program broken two to five times in one of these ways.
pub fn often_broken_file(
    random: &mut Random,
    mut program: Program,
    ways: &[Way],
) -> Option<Vec<u8>> {
    for _ in 0..random.between(2, 5) {
        let way = random.pick(ways);
        if let Some((more, _)) = broken(random, &program, way) {
            program = more;
        }
    }
    Some(entries(random, &program)?.bytes())
}

/// An accepted file with room for all faults of read, mostly.
pub fn room_for_faults(random: &mut Random) -> Entries {
    let mut shape = Shape::any(random, 5, 20, 30);
    shape.types = shape.types.max(3);
    if random.one_in(2) {
        shape.type_kinds = kinds::TYPES_WITH_PARTS.to_vec();
        shape.term_kinds = kinds::TERMS_WITH_PARTS.to_vec();
    }
    Generator::entries(random, &shape).1
}
