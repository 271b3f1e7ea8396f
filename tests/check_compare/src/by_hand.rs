//! Programs written by hand, with their answers.

use crate::compare::Comparison;
use comparing::cases;
use comparing::files::ComparePrograms;
use comparing::written::{file, type_of, Written, ABS, APP, FUN, REU, VAR};
use comparing::Known;
use program_files::kinds::*;

/// Accepted programs, with their types.
const ACCEPTED: [(&[u8], Written); 48] = [
    // The gates.
    (&[CIRCUIT, QUBIT, QUBIT], (&[], &[], &[(GATE, 0)])),
    (&[CIRCUIT, QUBIT, QUBIT], (&[], &[], &[(GATE, 1)])),
    (&[CIRCUIT, QUBIT, QUBIT], (&[], &[], &[(GATE, 2)])),
    (&[CIRCUIT, QUBIT, QUBIT], (&[], &[], &[(GATE, 3)])),
    (&[CIRCUIT, QUBIT, QUBIT], (&[], &[], &[(GATE, 4)])),
    (
        &[CIRCUIT, PAIR_TYPE, QUBIT, QUBIT, PAIR_TYPE, QUBIT, QUBIT],
        (&[], &[], &[(GATE, 5)]),
    ),
    (&[CIRCUIT, QUBIT, BIT], (&[], &[], &[(GATE, 6)])),
    (
        &[CIRCUIT, PAIR_TYPE, BIT, QUBIT, PAIR_TYPE, BIT, QUBIT],
        (&[], &[], &[(GATE, 7)]),
    ),
    (
        &[CIRCUIT, PAIR_TYPE, BIT, QUBIT, PAIR_TYPE, BIT, QUBIT],
        (&[], &[], &[(GATE, 8)]),
    ),
    (&[CIRCUIT, UNIT, QUBIT], (&[], &[], &[(GATE, 9)])),
    (&[CIRCUIT, BIT, UNIT], (&[], &[], &[(GATE, 10)])),
    (
        &[
            CIRCUIT, PAIR_TYPE, QUBIT, PAIR_TYPE, QUBIT, QUBIT, PAIR_TYPE, QUBIT, PAIR_TYPE, QUBIT,
            QUBIT,
        ],
        (&[], &[], &[(GATE, 11)]),
    ),
    // CCX makes a Qubit and two more, the two in a pair.
    (
        &[PAIR_TYPE, QUBIT, PAIR_TYPE, QUBIT, QUBIT],
        (
            &[QUBIT, QUBIT, QUBIT],
            &[],
            &[
                (LET, 0),
                (APPLY, 0),
                (GATE, 11),
                (PAIR, 0),
                (LABEL, 2),
                (PAIR, 0),
                (LABEL, 0),
                (LABEL, 1),
                (PAIR, 0),
                (VAR, 1),
                (APPLY, 0),
                (GATE, 5),
                (VAR, 0),
            ],
        ),
    ),
    // Unit: its value, dropped, copied, used inside a lift.
    (&[UNIT], (&[], &[], &[(UNIT_VALUE, 0)])),
    (&[REU, UNIT], (&[], &[], &[(LIFT, 0), (UNIT_VALUE, 0)])),
    (
        &[FUN, UNIT, CIRCUIT, QUBIT, QUBIT],
        (&[], &[UNIT], &[(ABS, 0), (GATE, 0)]),
    ),
    (
        &[FUN, UNIT, PAIR_TYPE, UNIT, UNIT],
        (&[], &[UNIT], &[(ABS, 0), (PAIR, 0), (VAR, 0), (VAR, 0)]),
    ),
    (
        &[FUN, UNIT, REU, UNIT],
        (&[], &[UNIT], &[(ABS, 0), (LIFT, 0), (VAR, 0)]),
    ),
    // Boxes at unit and to unit.
    (
        &[CIRCUIT, UNIT, UNIT],
        (&[], &[UNIT], &[(BOX, 0), (LIFT, 0), (ABS, 0), (VAR, 0)]),
    ),
    (
        &[CIRCUIT, UNIT, PAIR_TYPE, QUBIT, UNIT],
        (
            &[],
            &[UNIT],
            &[
                (BOX, 0),
                (LIFT, 0),
                (ABS, 0),
                (PAIR, 0),
                (APPLY, 0),
                (GATE, 9),
                (VAR, 0),
                (VAR, 0),
            ],
        ),
    ),
    (
        &[CIRCUIT, PAIR_TYPE, BIT, UNIT, UNIT],
        (
            &[],
            &[PAIR_TYPE, BIT, UNIT],
            &[
                (BOX, 0),
                (LIFT, 0),
                (ABS, 0),
                (LET, 0),
                (VAR, 0),
                (APPLY, 0),
                (GATE, 10),
                (VAR, 1),
            ],
        ),
    ),
    // A wire goes, and a unit is left.
    (
        &[UNIT],
        (
            &[QUBIT],
            &[],
            &[(APPLY, 0), (GATE, 10), (APPLY, 0), (GATE, 6), (LABEL, 0)],
        ),
    ),
    // Argument 0 is the pair's second half.
    (
        &[PAIR_TYPE, BIT, QUBIT],
        (
            &[QUBIT, BIT],
            &[],
            &[
                (LET, 0),
                (PAIR, 0),
                (LABEL, 0),
                (LABEL, 1),
                (PAIR, 0),
                (VAR, 0),
                (VAR, 1),
            ],
        ),
    ),
    (
        &[PAIR_TYPE, QUBIT, BIT],
        (
            &[QUBIT, BIT],
            &[],
            &[
                (LET, 0),
                (PAIR, 0),
                (LABEL, 0),
                (LABEL, 1),
                (PAIR, 0),
                (VAR, 1),
                (VAR, 0),
            ],
        ),
    ),
    (
        &[PAIR_TYPE, BIT, BIT],
        (
            &[QUBIT, BIT],
            &[],
            &[
                (LET, 0),
                (PAIR, 0),
                (LABEL, 0),
                (LABEL, 1),
                (PAIR, 0),
                (APPLY, 0),
                (GATE, 6),
                (VAR, 1),
                (VAR, 0),
            ],
        ),
    ),
    // Lift, force and box.
    (
        &[REU, CIRCUIT, QUBIT, QUBIT],
        (&[], &[], &[(LIFT, 0), (GATE, 0)]),
    ),
    (
        &[CIRCUIT, QUBIT, QUBIT],
        (&[], &[], &[(FORCE, 0), (LIFT, 0), (GATE, 0)]),
    ),
    (
        &[CIRCUIT, BIT, BIT],
        (&[], &[BIT], &[(BOX, 0), (LIFT, 0), (ABS, 0), (VAR, 0)]),
    ),
    (
        &[CIRCUIT, QUBIT, BIT],
        (
            &[],
            &[REU, FUN, QUBIT, BIT],
            &[
                (APP, 0),
                (ABS, 0),
                (BOX, 2),
                (VAR, 0),
                (LIFT, 0),
                (ABS, 2),
                (APPLY, 0),
                (GATE, 6),
                (VAR, 0),
            ],
        ),
    ),
    // Copied, dropped, and used inside a lift.
    (
        &[FUN, REU, QUBIT, CIRCUIT, QUBIT, QUBIT],
        (&[], &[REU, QUBIT], &[(ABS, 0), (GATE, 0)]),
    ),
    (
        &[FUN, REU, BIT, PAIR_TYPE, REU, BIT, REU, BIT],
        (&[], &[REU, BIT], &[(ABS, 0), (PAIR, 0), (VAR, 0), (VAR, 0)]),
    ),
    (
        &[FUN, REU, BIT, REU, BIT],
        (
            &[],
            &[REU, BIT],
            &[(ABS, 0), (LIFT, 0), (FORCE, 0), (VAR, 0)],
        ),
    ),
    (
        &[REU, FUN, QUBIT, QUBIT],
        (&[], &[QUBIT], &[(LIFT, 0), (ABS, 0), (VAR, 0)]),
    ),
    (
        &[CIRCUIT, QUBIT, QUBIT],
        (
            &[],
            &[],
            &[
                (LET, 0),
                (PAIR, 0),
                (GATE, 6),
                (GATE, 0),
                (FORCE, 0),
                (LIFT, 0),
                (VAR, 0),
            ],
        ),
    ),
    // A function used exactly once, and given on.
    (
        &[FUN, FUN, BIT, BIT, FUN, BIT, BIT],
        (&[], &[FUN, BIT, BIT], &[(ABS, 0), (VAR, 0)]),
    ),
    (
        &[FUN, FUN, BIT, QUBIT, FUN, BIT, QUBIT],
        (
            &[],
            &[FUN, BIT, QUBIT],
            &[(ABS, 0), (ABS, 1), (APP, 0), (VAR, 1), (VAR, 0)],
        ),
    ),
    // An abstraction that holds a wire.
    (
        &[FUN, BIT, PAIR_TYPE, QUBIT, BIT],
        (
            &[QUBIT],
            &[BIT],
            &[(ABS, 0), (PAIR, 0), (LABEL, 0), (VAR, 0)],
        ),
    ),
    // Let gives halves that may be dropped, and so may the pair itself.
    (
        &[FUN, PAIR_TYPE, REU, BIT, REU, BIT, REU, BIT],
        (
            &[],
            &[PAIR_TYPE, REU, BIT, REU, BIT],
            &[(ABS, 0), (LET, 0), (VAR, 0), (VAR, 1)],
        ),
    ),
    // Pairs of which both halves may be copied: dropped, copied, used inside a
    // lift.
    (
        &[
            FUN, PAIR_TYPE, CIRCUIT, BIT, BIT, REU, BIT, CIRCUIT, QUBIT, QUBIT,
        ],
        (
            &[],
            &[PAIR_TYPE, CIRCUIT, BIT, BIT, REU, BIT, BIT],
            &[(ABS, 0), (GATE, 0)],
        ),
    ),
    (
        &[
            FUN, PAIR_TYPE, REU, BIT, REU, BIT, PAIR_TYPE, PAIR_TYPE, REU, BIT, REU, BIT,
            PAIR_TYPE, REU, BIT, REU, BIT,
        ],
        (
            &[],
            &[PAIR_TYPE, REU, BIT, REU, BIT],
            &[(ABS, 0), (PAIR, 0), (VAR, 0), (VAR, 0)],
        ),
    ),
    (
        &[
            FUN, PAIR_TYPE, REU, BIT, REU, BIT, REU, PAIR_TYPE, REU, BIT, REU, BIT,
        ],
        (
            &[],
            &[PAIR_TYPE, REU, BIT, REU, BIT],
            &[(ABS, 0), (LIFT, 0), (VAR, 0)],
        ),
    ),
    (
        &[
            FUN, PAIR_TYPE, REU, BIT, REU, BIT, PAIR_TYPE, REU, PAIR_TYPE, REU, BIT, REU, BIT,
            PAIR_TYPE, REU, BIT, REU, BIT,
        ],
        (
            &[],
            &[PAIR_TYPE, REU, BIT, REU, BIT],
            &[(ABS, 0), (PAIR, 0), (LIFT, 0), (VAR, 0), (VAR, 0)],
        ),
    ),
    // The same of a pair in a pair, the last one inside two lifts.
    (
        &[
            FUN, PAIR_TYPE, PAIR_TYPE, REU, BIT, CIRCUIT, BIT, BIT, REU, QUBIT, CIRCUIT, QUBIT, BIT,
        ],
        (
            &[],
            &[
                PAIR_TYPE, PAIR_TYPE, REU, BIT, CIRCUIT, BIT, BIT, REU, QUBIT,
            ],
            &[(ABS, 0), (GATE, 6)],
        ),
    ),
    (
        &[
            FUN, PAIR_TYPE, PAIR_TYPE, REU, BIT, CIRCUIT, BIT, BIT, REU, QUBIT, PAIR_TYPE,
            PAIR_TYPE, PAIR_TYPE, REU, BIT, CIRCUIT, BIT, BIT, REU, QUBIT, PAIR_TYPE, PAIR_TYPE,
            REU, BIT, CIRCUIT, BIT, BIT, REU, QUBIT,
        ],
        (
            &[],
            &[
                PAIR_TYPE, PAIR_TYPE, REU, BIT, CIRCUIT, BIT, BIT, REU, QUBIT,
            ],
            &[(ABS, 0), (PAIR, 0), (VAR, 0), (VAR, 0)],
        ),
    ),
    (
        &[
            FUN, PAIR_TYPE, PAIR_TYPE, REU, BIT, CIRCUIT, BIT, BIT, REU, QUBIT, REU, REU,
            PAIR_TYPE, PAIR_TYPE, REU, BIT, CIRCUIT, BIT, BIT, REU, QUBIT,
        ],
        (
            &[],
            &[
                PAIR_TYPE, PAIR_TYPE, REU, BIT, CIRCUIT, BIT, BIT, REU, QUBIT,
            ],
            &[(ABS, 0), (LIFT, 0), (LIFT, 0), (VAR, 0)],
        ),
    ),
    // A pair bound by a let: the inner pair is dropped, copied, used inside a
    // lift.
    (
        &[CIRCUIT, QUBIT, QUBIT],
        (
            &[],
            &[],
            &[
                (LET, 0),
                (PAIR, 0),
                (PAIR, 0),
                (GATE, 0),
                (GATE, 6),
                (GATE, 0),
                (VAR, 0),
            ],
        ),
    ),
    (
        &[
            PAIR_TYPE, PAIR_TYPE, CIRCUIT, QUBIT, QUBIT, CIRCUIT, QUBIT, BIT, PAIR_TYPE, CIRCUIT,
            QUBIT, QUBIT, CIRCUIT, QUBIT, BIT,
        ],
        (
            &[],
            &[],
            &[
                (LET, 0),
                (PAIR, 0),
                (PAIR, 0),
                (GATE, 0),
                (GATE, 6),
                (GATE, 0),
                (PAIR, 0),
                (VAR, 1),
                (VAR, 1),
            ],
        ),
    ),
    (
        &[REU, PAIR_TYPE, CIRCUIT, QUBIT, QUBIT, CIRCUIT, QUBIT, BIT],
        (
            &[],
            &[],
            &[
                (LET, 0),
                (PAIR, 0),
                (PAIR, 0),
                (GATE, 0),
                (GATE, 6),
                (GATE, 0),
                (LIFT, 0),
                (VAR, 1),
            ],
        ),
    ),
];

/// Refused programs: the number and the place.
const REFUSED: [(u8, usize, Written); 64] = [
    // 16, each rule.
    (16, 0, (&[], &[], &[(FORCE, 0), (GATE, 0)])),
    (16, 0, (&[], &[], &[(APP, 0), (GATE, 0), (GATE, 0)])),
    (16, 0, (&[], &[], &[(APPLY, 0), (GATE, 0), (GATE, 0)])),
    (
        16,
        0,
        (&[], &[], &[(APPLY, 0), (LIFT, 0), (GATE, 0), (GATE, 0)]),
    ),
    (
        16,
        2,
        (
            &[QUBIT],
            &[QUBIT],
            &[(APPLY, 0), (ABS, 0), (VAR, 0), (LABEL, 0)],
        ),
    ),
    (
        16,
        2,
        (
            &[BIT],
            &[QUBIT],
            &[(APP, 0), (ABS, 0), (VAR, 0), (LABEL, 0)],
        ),
    ),
    (16, 0, (&[], &[], &[(LET, 0), (GATE, 0), (GATE, 0)])),
    (
        16,
        3,
        (
            &[],
            &[FUN, BIT, BIT],
            &[(LET, 0), (ABS, 0), (VAR, 0), (GATE, 0)],
        ),
    ),
    (16, 1, (&[], &[QUBIT], &[(BOX, 0), (GATE, 0)])),
    (16, 1, (&[], &[QUBIT], &[(BOX, 0), (LIFT, 0), (GATE, 0)])),
    (16, 1, (&[], &[QUBIT], &[(BOX, 0), (ABS, 0), (VAR, 0)])),
    (
        16,
        2,
        (
            &[],
            &[QUBIT, BIT],
            &[(BOX, 1), (LIFT, 0), (ABS, 0), (VAR, 0)],
        ),
    ),
    (
        16,
        1,
        (&[], &[QUBIT], &[(BOX, 0), (LIFT, 0), (ABS, 0), (GATE, 0)]),
    ),
    (
        16,
        1,
        (
            &[],
            &[QUBIT],
            &[
                (BOX, 0),
                (LIFT, 0),
                (ABS, 0),
                (PAIR, 0),
                (VAR, 0),
                (GATE, 0),
            ],
        ),
    ),
    // Unit's value is no wire, no pair and no circuit; Init takes no wire, and
    // Discard no Qubit.
    (16, 0, (&[], &[], &[(APPLY, 0), (GATE, 0), (UNIT_VALUE, 0)])),
    (
        16,
        0,
        (&[], &[], &[(LET, 0), (UNIT_VALUE, 0), (UNIT_VALUE, 0)]),
    ),
    (
        16,
        0,
        (&[], &[], &[(APPLY, 0), (UNIT_VALUE, 0), (UNIT_VALUE, 0)]),
    ),
    (16, 1, (&[QUBIT], &[], &[(APPLY, 0), (GATE, 9), (LABEL, 0)])),
    (
        16,
        1,
        (&[QUBIT], &[], &[(APPLY, 0), (GATE, 10), (LABEL, 0)]),
    ),
    (
        16,
        1,
        (
            &[],
            &[UNIT],
            &[(BOX, 0), (LIFT, 0), (ABS, 0), (LIFT, 0), (VAR, 0)],
        ),
    ),
    // CCX takes no pair of Qubits, and it is no function; CNOT takes no three.
    (
        16,
        2,
        (
            &[QUBIT, QUBIT],
            &[],
            &[(APPLY, 0), (GATE, 11), (PAIR, 0), (LABEL, 0), (LABEL, 1)],
        ),
    ),
    (
        16,
        3,
        (
            &[QUBIT, QUBIT, QUBIT],
            &[],
            &[
                (APP, 0),
                (GATE, 11),
                (PAIR, 0),
                (LABEL, 0),
                (PAIR, 0),
                (LABEL, 1),
                (LABEL, 2),
            ],
        ),
    ),
    (
        16,
        3,
        (
            &[QUBIT, QUBIT, QUBIT],
            &[],
            &[
                (APPLY, 0),
                (GATE, 5),
                (PAIR, 0),
                (LABEL, 0),
                (PAIR, 0),
                (LABEL, 1),
                (LABEL, 2),
            ],
        ),
    ),
    // A label beside unit's value is not used, and a function of units is linear.
    (17, 0, (&[QUBIT], &[], &[(UNIT_VALUE, 0)])),
    (
        17,
        3,
        (
            &[],
            &[FUN, UNIT, UNIT],
            &[(ABS, 0), (PAIR, 0), (VAR, 0), (VAR, 0)],
        ),
    ),
    // A function given where a circuit is wanted, and a circuit for a
    // function.
    (
        16,
        7,
        (
            &[QUBIT],
            &[CIRCUIT, QUBIT, QUBIT, FUN, QUBIT, QUBIT],
            &[(APP, 0), (ABS, 0), (VAR, 0), (ABS, 1), (VAR, 0)],
        ),
    ),
    (
        16,
        8,
        (
            &[QUBIT, BIT],
            &[CIRCUIT, QUBIT, QUBIT, FUN, QUBIT, QUBIT],
            &[(APP, 0), (ABS, 3), (VAR, 0), (GATE, 0)],
        ),
    ),
    // 16, the first of several: in both parts, in a let's two parts, at a let
    // and in its second part.
    (
        16,
        1,
        (
            &[],
            &[],
            &[(PAIR, 0), (FORCE, 0), (GATE, 0), (FORCE, 0), (GATE, 0)],
        ),
    ),
    (
        16,
        2,
        (&[], &[], &[(PAIR, 0), (GATE, 0), (FORCE, 0), (GATE, 0)]),
    ),
    (
        16,
        1,
        (
            &[],
            &[],
            &[(LET, 0), (FORCE, 0), (GATE, 0), (FORCE, 0), (GATE, 0)],
        ),
    ),
    (
        16,
        0,
        (&[], &[], &[(LET, 0), (GATE, 0), (FORCE, 0), (GATE, 0)]),
    ),
    (
        16,
        1,
        (
            &[],
            &[],
            &[(LET, 0), (FORCE, 0), (GATE, 0), (FORCE, 0), (VAR, 0)],
        ),
    ),
    (16, 2, (&[], &[QUBIT], &[(ABS, 0), (FORCE, 0), (VAR, 0)])),
    (
        16,
        4,
        (
            &[],
            &[],
            &[
                (LET, 0),
                (PAIR, 0),
                (GATE, 0),
                (GATE, 0),
                (FORCE, 0),
                (VAR, 0),
            ],
        ),
    ),
    (16, 1, (&[], &[], &[(FORCE, 0), (FORCE, 0), (GATE, 0)])),
    // 16 before 17 and 18.
    (
        16,
        4,
        (
            &[QUBIT],
            &[],
            &[(PAIR, 0), (LIFT, 0), (LABEL, 0), (FORCE, 0), (GATE, 0)],
        ),
    ),
    (
        16,
        3,
        (
            &[],
            &[QUBIT],
            &[(ABS, 0), (PAIR, 0), (FORCE, 0), (VAR, 0), (VAR, 0)],
        ),
    ),
    // Variables in a let's second part, taken for each other.
    (
        16,
        7,
        (
            &[QUBIT, BIT],
            &[],
            &[
                (LET, 0),
                (PAIR, 0),
                (LABEL, 0),
                (LABEL, 1),
                (PAIR, 0),
                (APPLY, 0),
                (GATE, 6),
                (VAR, 0),
                (VAR, 1),
            ],
        ),
    ),
    // 17, each binder.
    (17, 1, (&[], &[QUBIT], &[(ABS, 0), (GATE, 0)])),
    (17, 3, (&[], &[FUN, BIT, BIT], &[(ABS, 0), (GATE, 0)])),
    (
        17,
        3,
        (
            &[],
            &[FUN, BIT, BIT],
            &[(ABS, 0), (PAIR, 0), (VAR, 0), (VAR, 0)],
        ),
    ),
    (
        17,
        2,
        (
            &[QUBIT, BIT],
            &[],
            &[(LET, 0), (PAIR, 0), (LABEL, 0), (LABEL, 1), (VAR, 0)],
        ),
    ),
    (
        17,
        2,
        (
            &[QUBIT, BIT],
            &[],
            &[(LET, 0), (PAIR, 0), (LABEL, 0), (LABEL, 1), (VAR, 1)],
        ),
    ),
    (
        17,
        2,
        (
            &[QUBIT, BIT],
            &[],
            &[
                (LET, 0),
                (PAIR, 0),
                (LABEL, 0),
                (LABEL, 1),
                (PAIR, 0),
                (VAR, 0),
                (PAIR, 0),
                (VAR, 1),
                (VAR, 0),
            ],
        ),
    ),
    // 17, a let's half that is a pair with a wire: dropped, used twice.
    (
        17,
        1,
        (
            &[QUBIT],
            &[],
            &[
                (LET, 0),
                (PAIR, 0),
                (PAIR, 0),
                (GATE, 0),
                (LABEL, 0),
                (GATE, 0),
                (VAR, 0),
            ],
        ),
    ),
    (
        17,
        1,
        (
            &[QUBIT],
            &[],
            &[
                (LET, 0),
                (PAIR, 0),
                (GATE, 0),
                (PAIR, 0),
                (LABEL, 0),
                (GATE, 0),
                (PAIR, 0),
                (VAR, 0),
                (VAR, 0),
            ],
        ),
    ),
    // 17, labels, and the first of several.
    (17, 1, (&[QUBIT, QUBIT], &[], &[(LABEL, 0)])),
    (17, 0, (&[QUBIT, QUBIT], &[], &[(LABEL, 1)])),
    (
        17,
        0,
        (&[QUBIT, BIT], &[], &[(PAIR, 0), (LABEL, 0), (LABEL, 0)]),
    ),
    (
        17,
        0,
        (&[QUBIT, BIT], &[], &[(PAIR, 0), (LABEL, 1), (LABEL, 1)]),
    ),
    (17, 0, (&[QUBIT], &[], &[(GATE, 0)])),
    (17, 1, (&[QUBIT, QUBIT], &[QUBIT], &[(ABS, 0), (LABEL, 0)])),
    (17, 1, (&[], &[QUBIT], &[(ABS, 0), (ABS, 0), (GATE, 0)])),
    (17, 2, (&[], &[QUBIT], &[(ABS, 0), (ABS, 0), (VAR, 1)])),
    // 17 before 18, and uses inside a lift count.
    (
        17,
        0,
        (
            &[QUBIT],
            &[],
            &[(LIFT, 0), (PAIR, 0), (LABEL, 0), (LABEL, 0)],
        ),
    ),
    (
        17,
        1,
        (
            &[],
            &[QUBIT],
            &[(ABS, 0), (PAIR, 0), (VAR, 0), (LIFT, 0), (VAR, 0)],
        ),
    ),
    // 18, and the first of several.
    (18, 3, (&[], &[QUBIT], &[(ABS, 0), (LIFT, 0), (VAR, 0)])),
    (
        18,
        4,
        (&[], &[QUBIT], &[(LIFT, 0), (ABS, 0), (LIFT, 0), (VAR, 0)]),
    ),
    (
        18,
        4,
        (
            &[QUBIT, QUBIT],
            &[],
            &[(PAIR, 0), (LIFT, 0), (LABEL, 1), (LIFT, 0), (LABEL, 0)],
        ),
    ),
    (18, 3, (&[QUBIT], &[], &[(LIFT, 0), (LIFT, 0), (LABEL, 0)])),
    (
        18,
        6,
        (
            &[],
            &[QUBIT],
            &[
                (ABS, 0),
                (LIFT, 0),
                (ABS, 0),
                (PAIR, 0),
                (LIFT, 0),
                (VAR, 0),
                (VAR, 1),
            ],
        ),
    ),
    (
        18,
        5,
        (
            &[],
            &[QUBIT],
            &[
                (ABS, 0),
                (LIFT, 0),
                (ABS, 0),
                (PAIR, 0),
                (VAR, 1),
                (LIFT, 0),
                (VAR, 0),
            ],
        ),
    ),
    // 18, a let's half that is a pair with a wire.
    (
        18,
        8,
        (
            &[QUBIT],
            &[],
            &[
                (LET, 0),
                (PAIR, 0),
                (GATE, 0),
                (PAIR, 0),
                (LABEL, 0),
                (GATE, 0),
                (LIFT, 0),
                (VAR, 0),
            ],
        ),
    ),
    // An abstraction that holds a wire, lifted and boxed.
    (
        18,
        7,
        (
            &[BIT],
            &[QUBIT, BIT],
            &[
                (BOX, 0),
                (LIFT, 0),
                (ABS, 0),
                (PAIR, 0),
                (LABEL, 0),
                (VAR, 0),
            ],
        ),
    ),
];

/// Pairs with a half that may be neither copied nor dropped, a wire or a
/// function: the first half, the second, and one of a pair inside the pair.
const LINEAR_PAIRS: [&[u8]; 12] = [
    &[PAIR_TYPE, QUBIT, REU, BIT],
    &[PAIR_TYPE, CIRCUIT, QUBIT, QUBIT, BIT],
    &[PAIR_TYPE, FUN, BIT, BIT, REU, BIT],
    &[PAIR_TYPE, REU, QUBIT, FUN, REU, BIT, REU, BIT],
    &[PAIR_TYPE, PAIR_TYPE, BIT, REU, BIT, REU, BIT],
    &[PAIR_TYPE, PAIR_TYPE, REU, BIT, QUBIT, CIRCUIT, BIT, BIT],
    &[PAIR_TYPE, REU, BIT, PAIR_TYPE, QUBIT, REU, BIT],
    &[PAIR_TYPE, REU, BIT, PAIR_TYPE, REU, BIT, FUN, BIT, BIT],
    &[PAIR_TYPE, PAIR_TYPE, FUN, BIT, BIT, REU, BIT, REU, BIT],
    &[PAIR_TYPE, UNIT, QUBIT],
    &[PAIR_TYPE, BIT, UNIT],
    &[PAIR_TYPE, UNIT, FUN, UNIT, UNIT],
];

/// A number, how far its place is behind the abstraction, and the term.
type LinearUse = (u8, usize, &'static [(u8, u16)]);

/// Terms with a variable of such a type.
const LINEAR_USES: [LinearUse; 7] = [
    (17, 0, &[(ABS, 0), (GATE, 0)]),
    (17, 0, &[(ABS, 0), (LIFT, 0), (GATE, 0)]),
    (17, 0, &[(ABS, 0), (PAIR, 0), (VAR, 0), (VAR, 0)]),
    (17, 0, &[(ABS, 0), (PAIR, 0), (LIFT, 0), (VAR, 0), (VAR, 0)]),
    (17, 0, &[(ABS, 0), (LIFT, 0), (PAIR, 0), (VAR, 0), (VAR, 0)]),
    (18, 2, &[(ABS, 0), (LIFT, 0), (VAR, 0)]),
    (18, 3, &[(ABS, 0), (LIFT, 0), (LIFT, 0), (VAR, 0)]),
];

pub fn compare(comparison: &mut Comparison) {
    comparison.listed_group("written by hand");
    for case in cases::all() {
        comparison.program(&case.file, &case.known());
    }
    for (kinds, written) in ACCEPTED {
        comparison.program(&file(written), &Known::Type(type_of(kinds)));
    }
    for (number, place, written) in REFUSED {
        let known = Known::Refused(number, place);
        comparison.program(&file(written), &known);
    }
    for types in LINEAR_PAIRS {
        for (number, further, terms) in LINEAR_USES {
            let known = Known::Refused(number, types.len() + further);
            comparison.program(&file((&[], types, terms)), &known);
        }
    }
}
