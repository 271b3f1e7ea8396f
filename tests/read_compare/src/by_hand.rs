//! Files written by hand, with their answers.

use comparing::cases;
use comparing::files::ComparePrograms;
use comparing::written::{file, Written};
use comparing::Known;
use program_files::kinds::*;
use program_files::{read, GATES};

/// The first number that is no gate's.
const NO_GATE: u16 = GATES.len() as u16;

/// Refused files: the number and the place.
const REFUSED: [(u8, usize, Written); 30] = [
    (4, 0, (&[2], &[7], &[(0, 1)])),
    (4, 0, (&[UNIT], &[], &[(UNIT_VALUE, 0)])),
    (4, 1, (&[0], &[7], &[(0, 1)])),
    (4, 2, (&[0], &[5], &[(15, 1)])),
    (4, 2, (&[0], &[5], &[(28, 0)])),
    (4, 0, (&[], &[], &[(UNIT, 0)])),
    (4, 0, (&[], &[UNIT_VALUE], &[(GATE, 0)])),
    (5, 2, (&[0], &[5], &[(LABEL, 1)])),
    (5, 0, (&[], &[], &[(GATE, NO_GATE)])),
    (5, 0, (&[], &[], &[(ABSTRACTION, 0), (GATE, NO_GATE)])),
    (5, 0, (&[], &[], &[(UNIT_VALUE, 1)])),
    (5, 1, (&[], &[UNIT], &[(UNIT_VALUE, 256)])),
    (5, 1, (&[], &[REUSABLE], &[(BOX, 1)])),
    (5, 0, (&[], &[], &[(LET, 1)])),
    (6, 1, (&[1], &[PAIR_TYPE], &[(VARIABLE, 9)])),
    (6, 0, (&[], &[PAIR_TYPE, BIT, REUSABLE], &[(GATE, 0)])),
    (6, 0, (&[], &[PAIR_TYPE, UNIT], &[(GATE, 0)])),
    (6, 2, (&[], &[BIT, QUBIT, FUNCTION, BIT], &[(GATE, 0)])),
    (
        6,
        6,
        (
            &[],
            &[CIRCUIT, FUNCTION, BIT, REUSABLE, BIT, BIT, PAIR_TYPE, BIT],
            &[(GATE, 0)],
        ),
    ),
    (
        7,
        2,
        (&[1], &[BIT, CIRCUIT, BIT, REUSABLE, BIT], &[(LET, 0)]),
    ),
    (7, 2, (&[], &[REUSABLE, BIT], &[(BOX, 0), (LET, 0)])),
    (
        7,
        5,
        (
            &[],
            &[CIRCUIT, BIT, QUBIT],
            &[(PAIR, 0), (BOX, 1), (BOX, 0), (GATE, 0)],
        ),
    ),
    (
        7,
        0,
        (&[], &[CIRCUIT, UNIT, REUSABLE, UNIT], &[(UNIT_VALUE, 0)]),
    ),
    (8, 3, (&[0], &[0], &[(LIFT, 0)])),
    (8, 1, (&[], &[], &[(UNIT_VALUE, 0), (UNIT_VALUE, 0)])),
    (8, 3, (&[0], &[0], &[(VARIABLE, 0), (LIFT, 0), (LIFT, 0)])),
    (9, 2, (&[0], &[0], &[(VARIABLE, 0)])),
    (
        9,
        3,
        (
            &[],
            &[],
            &[(LET, 0), (GATE, 0), (PAIR, 0), (VARIABLE, 2), (VARIABLE, 7)],
        ),
    ),
    (9, 1, (&[], &[], &[(LET, 0), (VARIABLE, 0), (VARIABLE, 2)])),
    (
        9,
        3,
        (
            &[],
            &[1],
            &[(PAIR, 0), (ABSTRACTION, 0), (VARIABLE, 1), (VARIABLE, 0)],
        ),
    ),
];

/// Accepted files.
const ACCEPTED: [Written; 7] = [
    (&[], &[], &[(UNIT_VALUE, 0)]),
    (&[], &[], &[(GATE, 9)]),
    (&[], &[], &[(GATE, 10)]),
    (&[], &[], &[(GATE, 11)]),
    (&[], &[UNIT], &[(BOX, 0), (UNIT_VALUE, 0)]),
    (
        &[],
        &[CIRCUIT, UNIT, PAIR_TYPE, UNIT, UNIT],
        &[(ABSTRACTION, 0), (VARIABLE, 0)],
    ),
    (
        &[],
        &[PAIR_TYPE, UNIT, PAIR_TYPE, QUBIT, UNIT],
        &[(PAIR, 0), (BOX, 0), (BOX, 2), (GATE, 0), (UNIT_VALUE, 0)],
    ),
];

pub fn compare(comparison: &mut impl ComparePrograms) {
    comparison.group("written by hand");
    // Cases c5 to c9 are refused only later than by read.
    for case in cases::all() {
        comparison.program(&case.file, &case.known_read());
        let sizes = read(&case.file).map(|accepted| accepted.sizes);
        assert_eq!(sizes, case.read, "the sizes of {}", case.name);
    }
    comparison.program(&[1, 0, 0, 0, 1, 0], &Known::Refused(3, 0));
    for written in ACCEPTED {
        comparison.program(&file(written), &Known::Accepted);
    }
    for (number, place, written) in REFUSED {
        comparison.program(&file(written), &Known::Refused(number, place));
    }
}
