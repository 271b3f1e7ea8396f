//! Buffers of every length near the least, shorter and longer.

use crate::compare::Comparison;
use check_compare::library::{Lengths, LEAST_OUT, LEAST_WORK};
use comparing::files::ComparePrograms;
use program_files::{encode, kinds, read, Positions, Random, GATES};
use programs::broken::{broken, Way};
use programs::extremes;
use programs::typed::{typed, Plan};

pub fn compare(comparison: &mut Comparison) {
    comparison.group("with buffers of many lengths");
    let outs: Vec<usize> = [0, 1, 2, 3, 255, 256, 257, 384]
        .into_iter()
        .chain(LEAST_OUT - 32..LEAST_OUT + 32)
        .chain([600, 1_024, 4_096, 65_535, 65_536, 65_537])
        .collect();
    let works: Vec<usize> = [0, 1, 2, 255, 256, 512, 4_096, LEAST_WORK / 2]
        .into_iter()
        .chain(LEAST_WORK - 48..LEAST_WORK + 16)
        .chain([60_000, 65_535, 65_536, 65_537, 131_072])
        .collect();
    let mut random = Random::new(1);
    for (at, file) in files(&mut random).iter().enumerate() {
        let mut lengths: Vec<Lengths> = Vec::new();
        lengths.extend(outs.iter().map(|&out| [out, LEAST_WORK]));
        lengths.extend(works.iter().map(|&work| [LEAST_OUT, work]));
        for _ in 0..40 {
            lengths.push([random.pick(&outs), random.pick(&works)]);
        }
        if at == 0 {
            for &out in &outs {
                lengths.extend(works.iter().map(|&work| [out, work]));
            }
        }
        comparison.lengths(file, &lengths);
    }
}

/// Files with each answer.
fn files(random: &mut Random) -> Vec<Vec<u8>> {
    let mut files: Vec<Vec<u8>> = Vec::new();
    let ways = [
        Way::LabelNotUsed,
        Way::UseUnderLift,
        Way::NotReusable,
        Way::TooLarge,
    ];
    while files.len() < 24 {
        let plan = Plan::any(random, 4, 30);
        let Some(typed) = typed(random, &plan) else {
            continue;
        };
        let mut program = typed.program;
        if files.len() % 6 >= 2 {
            let way = ways[files.len() % 6 - 2];
            match broken(random, &program, way) {
                Some((other, _)) => program = other,
                None => continue,
            }
        }
        if let Some(entries) = encode(&program, Positions::First) {
            files.push(entries.bytes());
        }
    }
    for (_, typed) in extremes::all(2_048) {
        files.push(typed.program.bytes());
    }
    let lifts = extremes::at_the_type_bound().swap_remove(0).1;
    files.push(lifts.program.bytes());
    files.extend(not_read());
    files
}

/// Two files that are too short, and one for each other number of read.
fn not_read() -> Vec<Vec<u8>> {
    let files = vec![
        vec![],
        vec![0, 0, 0, 0, 1],
        vec![0, 0, 0, 0, 0, 0],
        vec![0, 0, 0, 0, 1, 0, 16],
        vec![0, 0, 0, 0, 1, 0, kinds::UNIT_VALUE + 1, 0, 0],
        vec![0, 0, 0, 0, 1, 0, kinds::GATE, GATES.len() as u8, 0],
        vec![0, 0, 1, 0, 1, 0, 4, 26, 0, 0, 0, 0],
        vec![
            0, 0, 4, 0, 1, 0, 5, 4, 0, 0, 26, 0, 0, 0, 0, 0, 0, 0, 0, 0, 0,
        ],
        vec![0, 0, 0, 0, 1, 0, 22, 0, 0],
        vec![0, 0, 0, 0, 1, 0, 16, 0, 0],
    ];
    let number = |file: &Vec<u8>| read(file).map_or_else(|refusal| refusal.number, |_| 0);
    let numbers: Vec<u8> = files.iter().map(number).collect();
    assert_eq!(
        numbers,
        [1, 1, 2, 3, 4, 5, 6, 7, 8, 9],
        "all numbers of read"
    );
    files
}
