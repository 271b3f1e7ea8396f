//! Buffers of every length near the least, shorter and longer.

use crate::compare::Comparison;
use comparing::files::ComparePrograms;
use program_files::faults;
use program_files::generate::{Generator, Shape};
use program_files::Random;
use programs::blocks::{self, blocks};
use programs::broken::{broken, Way};
use programs::extremes;
use programs::typed::{typed, Plan};
use run_compare::interface::{Lengths, BUFFERS, LEAST};

pub fn compare(comparison: &mut Comparison) {
    comparison.group("with buffers of many lengths");
    let mut random = Random::new(1);
    for (file, limit) in files(&mut random) {
        let mut all: Vec<Lengths> = vec![[0; BUFFERS]];
        for buffer in 0..BUFFERS {
            let least = LEAST[buffer];
            let near = least - 2..=least + 2;
            for length in [0, 1, least / 2].into_iter().chain(near) {
                let mut lengths = LEAST;
                lengths[buffer] = length;
                all.push(lengths);
            }
        }
        for _ in 0..40 {
            let mut lengths = LEAST;
            for length in &mut lengths {
                *length = match random.below(24) {
                    0 => *length - random.between(1, 2),
                    1 => random.below(*length),
                    2..=8 => *length + random.between(1, 300),
                    9 => *length + random.below(65_536),
                    _ => *length,
                };
            }
            all.push(lengths);
        }
        comparison.lengths(&file, limit, &all);
    }
}

/// Files with each answer, and the limits with which they have it.
fn files(random: &mut Random) -> Vec<(Vec<u8>, u32)> {
    let mut files = Vec::new();
    for round in 0..8 {
        let plan = blocks::Plan {
            labels: random.between(1, 6),
            actions: 4 + 4 * round,
            boxes: 4,
            deep: round % 2 == 0,
            helpers: round % 2 == 1,
        };
        let file = blocks(random, &plan).program.bytes();
        files.push((file.clone(), 1_000_000));
        files.push((file, round as u32));
    }
    // 22 and 20, and the longest listing with one label.
    files.push((extremes::boxes(2_048).program.bytes(), u32::MAX));
    files.push((extremes::forced_lifts(2_047).program.bytes(), u32::MAX));
    files.push((extremes::applies(2_047).program.bytes(), u32::MAX));
    files.push((extremes::labels(2_047).program.bytes(), u32::MAX));
    files.push((extremes::longest_listing().program.bytes(), u32::MAX));
    for way in [Way::NotReusable, Way::LabelNotUsed, Way::UseUnderLift] {
        let broken_one = std::iter::repeat_with(|| {
            let plan = Plan::of_wires(random, 4, 30);
            let typed = typed(random, &plan)?;
            broken(random, &typed.program, way)
        });
        let found = broken_one.flatten().next();
        let (program, _) = found.expect("a broken program");
        files.push((program.bytes(), 10));
    }
    for number in 1..=9 {
        let broken_one = std::iter::repeat_with(|| {
            let shape = Shape::new(3, 20, 30);
            let (_, entries) = Generator::entries(random, &shape);
            faults::broken(entries, &[number], random)
        });
        let found = broken_one.flatten().next();
        files.push((found.expect("a broken file").bytes, 10));
    }
    files
}
