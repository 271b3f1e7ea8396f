//! Programs written by hand, with the lines of `wirelist` for each.

use crate::compare::Comparison;
use comparing::cases::{self, Finished, Run, LIMITS};
use comparing::files::ComparePrograms;
use comparing::written::{file, Written, ABS, APP, FUN, REU, VAR};
use comparing::Known;
use evaluator::text::LIMIT;
use evaluator::{prepare, Answer};
use example_programs::{adder_without_ccx, examples};
use program_files::kinds::*;

/// Programs besides the cases.
const OTHERS: [(Written, &str); 8] = [
    // Two wires into a box: one through a gate, one past it, and crossed.
    (
        (
            &[QUBIT, QUBIT],
            &[PAIR_TYPE, QUBIT, QUBIT],
            &[
                (APPLY, 0),
                (BOX, 0),
                (LIFT, 0),
                (ABS, 0),
                (LET, 0),
                (VAR, 0),
                (PAIR, 0),
                (VAR, 0),
                (APPLY, 0),
                (GATE, 0),
                (VAR, 1),
                (PAIR, 0),
                (LABEL, 0),
                (LABEL, 1),
            ],
        ),
        "in 0 Qubit\nin 1 Qubit\ngate H 0 : 2\nout 1 2\nsteps 6\n",
    ),
    // A gate before a box is opened and one after it is closed: the wires of
    // the box do not count outside.
    (
        (
            &[QUBIT],
            &[QUBIT],
            &[
                (APP, 0),
                (ABS, 0),
                (APPLY, 0),
                (BOX, 0),
                (LIFT, 0),
                (ABS, 0),
                (APPLY, 0),
                (GATE, 3),
                (APPLY, 0),
                (GATE, 4),
                (VAR, 0),
                (APPLY, 0),
                (GATE, 1),
                (VAR, 0),
                (APPLY, 0),
                (GATE, 0),
                (LABEL, 0),
            ],
        ),
        "in 0 Qubit\ngate H 0 : 1\ngate X 1 : 2\ngate T 2 : 3\ngate S 3 : 4\nout 4\nsteps 9\n",
    ),
    // A box inside a box, applied twice there.
    (
        (
            &[BIT, QUBIT],
            &[CIRCUIT, QUBIT, QUBIT],
            &[
                (PAIR, 0),
                (LABEL, 0),
                (APPLY, 0),
                (BOX, 1),
                (LIFT, 0),
                (ABS, 1),
                (APP, 0),
                (ABS, 0),
                (APPLY, 0),
                (VAR, 0),
                (APPLY, 0),
                (VAR, 0),
                (VAR, 1),
                (BOX, 1),
                (LIFT, 0),
                (ABS, 1),
                (APPLY, 0),
                (GATE, 2),
                (VAR, 0),
                (LABEL, 1),
            ],
        ),
        "in 0 Bit\nin 1 Qubit\ngate Z 1 : 2\ngate Z 2 : 3\nout 0 3\nsteps 11\n",
    ),
    // Measured, and an X under the bit.
    (
        (
            &[QUBIT, QUBIT],
            &[],
            &[
                (APPLY, 0),
                (GATE, 7),
                (PAIR, 0),
                (APPLY, 0),
                (GATE, 6),
                (LABEL, 1),
                (LABEL, 0),
            ],
        ),
        "in 0 Qubit\nin 1 Qubit\ngate Meas 1 : 2\ngate BX 2 0 : 3 4\nout 3 4\nsteps 2\n",
    ),
    // A reusable function forced twice, and one that is dropped.
    (
        (
            &[QUBIT],
            &[REU, FUN, QUBIT, QUBIT],
            &[
                (APP, 0),
                (ABS, 0),
                (APP, 0),
                (FORCE, 0),
                (VAR, 0),
                (APP, 0),
                (FORCE, 0),
                (VAR, 0),
                (LABEL, 0),
                (LIFT, 0),
                (ABS, 2),
                (APPLY, 0),
                (GATE, 4),
                (VAR, 0),
            ],
        ),
        "in 0 Qubit\ngate T 0 : 1\ngate T 1 : 2\nout 2\nsteps 7\n",
    ),
    (
        (
            &[QUBIT],
            &[REU, FUN, QUBIT, QUBIT],
            &[
                (APP, 0),
                (ABS, 0),
                (LABEL, 0),
                (LIFT, 0),
                (FORCE, 0),
                (LIFT, 0),
                (ABS, 2),
                (APPLY, 0),
                (GATE, 4),
                (VAR, 0),
            ],
        ),
        "in 0 Qubit\nout 0\nsteps 1\n",
    ),
    // Left part first: the gate of the left half has the lower number.
    (
        (
            &[QUBIT, QUBIT],
            &[],
            &[
                (PAIR, 0),
                (APPLY, 0),
                (GATE, 0),
                (LABEL, 1),
                (APPLY, 0),
                (GATE, 1),
                (LABEL, 0),
            ],
        ),
        "in 0 Qubit\nin 1 Qubit\ngate H 1 : 2\ngate X 0 : 3\nout 2 3\nsteps 2\n",
    ),
    // An abstraction that holds a wire.
    (
        (
            &[QUBIT, BIT],
            &[FUN, BIT, PAIR_TYPE, QUBIT, BIT],
            &[
                (APP, 0),
                (ABS, 0),
                (APP, 0),
                (VAR, 0),
                (LABEL, 1),
                (ABS, 1),
                (PAIR, 0),
                (LABEL, 0),
                (VAR, 0),
            ],
        ),
        "in 0 Qubit\nin 1 Bit\nout 0 1\nsteps 2\n",
    ),
];

pub fn compare(comparison: &mut Comparison) {
    comparison.group("written by hand");
    for case in cases::all() {
        comparison.program(&case.file, &case.known());
        for limit in LIMITS {
            let run = case.run(limit);
            comparison.at_limit(&case.file, limit, &cases::lines(&run));
            assert_eq!(
                evaluator::run(&case.file, limit),
                answer(run),
                "{} with limit {limit}",
                case.name
            );
        }
    }
    for (written, lines) in OTHERS {
        comparison.program(&file(written), &Known::Nothing);
        comparison.at_limit(&file(written), LIMIT, lines);
    }
    assert_eq!(totals(cases::C4), [8, 14, 11, 9, 3, 1], "the nodes of c4");
    comparison.group("examples");
    for example in examples().into_iter().chain([adder_without_ccx()]) {
        comparison.program(&example.file, &Known::Accepted);
        comparison.at_limit(&example.file, LIMIT, &example.lines);
    }
}

/// What the evaluator is to answer.
fn answer(run: Run) -> Answer {
    match run {
        Ok(Finished { steps, listing }) => Answer::Finished {
            steps,
            gates: listing.gates,
            listing: listing.bytes.to_vec(),
        },
        Err(refusal) => Answer::Refused(refusal),
    }
}

/// The nodes of each configuration.
fn totals(written: Written) -> Vec<usize> {
    let prepared = prepare(&file(written)).expect("a program that runs");
    let mut totals = Vec::new();
    prepared.run_seen(u32::MAX, &mut |now| totals.push(now.nodes()));
    totals
}
