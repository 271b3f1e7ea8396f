//! CCX applied to arguments of all small wire types, in circuits that are built block by
//! block, and in such that are broken.

use crate::compare::Comparison;
use comparing::files::{broken_file, entries, well_typed, ComparePrograms};
use comparing::three_wires::applied;
use program_files::Random;
use programs::blocks::{blocks, Plan};
use programs::broken::{Way, WAYS};
use programs::typed::Typed;

/// How many circuits there are, and how many are broken in each way; in these ways there
/// are more.
const CIRCUITS: usize = 1_000;
const BROKEN: usize = 60;
const OF_ARGUMENTS: [Way; 3] = [Way::WrongWires, Way::WrongNesting, Way::MeasuredWire];
const BROKEN_ARGUMENTS: usize = 1_500;

pub fn compare(comparison: &mut Comparison) {
    comparison.group("CCX applied to arguments of all small wire types");
    let mut random = Random::new(15);
    for applied in applied() {
        let entries = entries(&mut random, &applied.program).expect("a file");
        comparison.program(&entries.bytes(), &applied.known(&entries));
    }
    comparison.group("circuits with CCX, built block by block");
    let mut circuits: Vec<Typed> = Vec::new();
    for round in 0..CIRCUITS {
        let plan = Plan {
            labels: random.between(3, 6),
            actions: random.between(2, 16),
            boxes: 4,
            deep: round % 2 == 0,
            helpers: random.one_in(4),
        };
        let typed = blocks(&mut random, &plan);
        if well_typed(comparison, &mut random, &typed).is_some() {
            circuits.push(typed);
        }
    }
    comparison.group("circuits with CCX, broken");
    for (way, _) in WAYS {
        let wanted = match OF_ARGUMENTS.contains(&way) {
            true => BROKEN_ARGUMENTS,
            false => BROKEN,
        };
        for round in 0..wanted {
            let base = &circuits[round % circuits.len()].program;
            if let Some((file, known)) = broken_file(&mut random, base, way) {
                comparison.program(&file, &known);
            }
        }
    }
}
