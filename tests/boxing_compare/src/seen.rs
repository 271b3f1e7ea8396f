//! What the pairs had whose programs both finished.

use crate::spots::{Spot, Spotted};
use crate::watched::{Record, Watched};
use comparing::tally::Seen;
use evaluator::circuits::wires;
use program_files::{kinds, Type};

const MEAS: usize = 6;
const INIT: usize = 9;
const DISCARD: usize = 10;
const CCX: usize = 11;

#[derive(Clone, Copy, PartialEq, Eq, PartialOrd, Ord, Debug)]
pub enum What {
    One,
    UnitTaken,
    UnitGiven,
    NoWireTaken,
    NoWireGiven,
    Init,
    Discard,
    Helper,
    Ccx,
    NoGate,
    Passes,
    Crosses,
    InBox,
    InBoxes,
    HasBox,
    Again,
    Varies,
    Copied,
    UnderLift,
    InLet,
    UnderAbstraction,
    InArgument,
    UsesAround,
    BothHaveGates,
    Several,
    Many,
    Nested,
    Across,
}

impl Seen for What {
    fn words(self) -> String {
        let words = match self {
            What::One => "pairs that differ in one spot, which is run",
            What::UnitTaken => "boxed at a type with unit",
            What::UnitGiven => "with unit in the result",
            What::NoWireTaken => "boxed at a type without a wire",
            What::NoWireGiven => "with a result without a wire",
            What::Init => "with Init in the body",
            What::Discard => "with Discard in the body",
            What::Helper => "with Init, Meas and Discard in the body",
            What::Ccx => "with CCX in the body",
            What::NoGate => "without a gate in the body",
            What::Passes => "whose body leaves an input wire untouched",
            What::Crosses => "whose body exchanges wires",
            What::InBox => "inside another box",
            What::InBoxes => "inside two other boxes or more",
            What::HasBox => "with a box in the body",
            What::Again => "run more than once",
            What::Varies => "run more than once, with other gates",
            What::Copied => "in a box whose circuit is applied more than once",
            What::UnderLift => "under a lift",
            What::InLet => "in a let's second part",
            What::UnderAbstraction => "under an abstraction",
            What::InArgument => "in the argument of another spot",
            What::UsesAround => "whose body uses a variable bound around it",
            What::BothHaveGates => "with gates both in the argument and in the body",
            What::Several => "pairs that differ in several spots that are run",
            What::Many => "in four or more",
            What::Nested => "in one and in another inside its body",
            What::Across => "each with a box where the other has none",
        };
        words.to_string()
    }

    fn wanted() -> Vec<(What, usize)> {
        use What::*;
        vec![
            (One, 20_000),
            (UnitTaken, 1_000),
            (UnitGiven, 1_000),
            (NoWireTaken, 1_000),
            (NoWireGiven, 1_000),
            (Init, 1_000),
            (Discard, 1_000),
            (Helper, 1_000),
            (Ccx, 1_000),
            (NoGate, 1_000),
            (Passes, 1_000),
            (Crosses, 1_000),
            (InBox, 1_000),
            (InBoxes, 1_000),
            (HasBox, 1_000),
            (Again, 1_000),
            (Varies, 500),
            (Copied, 500),
            (UnderLift, 1_000),
            (InLet, 1_000),
            (UnderAbstraction, 1_000),
            (InArgument, 1_000),
            (UsesAround, 1_000),
            (BothHaveGates, 1_000),
            (Several, 10_000),
            (Many, 1_000),
            (Nested, 1_000),
            (Across, 1_000),
        ]
    }
}

fn has_unit(of: &Type) -> bool {
    of.preorder().contains(&kinds::UNIT)
}

/// What holds of a spot that is run.
pub fn of_spot(spot: &Spot, record: &Record) -> Vec<What> {
    let has = |gate: usize| record.gates.contains(&gate);
    let all = [
        (true, What::One),
        (has_unit(&spot.takes), What::UnitTaken),
        (has_unit(&spot.gives), What::UnitGiven),
        (wires(&spot.takes).is_empty(), What::NoWireTaken),
        (wires(&spot.gives).is_empty(), What::NoWireGiven),
        (has(INIT), What::Init),
        (has(DISCARD), What::Discard),
        ([INIT, MEAS, DISCARD].into_iter().all(has), What::Helper),
        (has(CCX), What::Ccx),
        (record.gates.is_empty(), What::NoGate),
        (record.passes, What::Passes),
        (record.crosses, What::Crosses),
        (record.deep > 0, What::InBox),
        (record.deep > 1, What::InBoxes),
        (record.has_box, What::HasBox),
        (record.times > 1, What::Again),
        (record.varies, What::Varies),
        (record.copied, What::Copied),
        (spot.under_lift, What::UnderLift),
        (spot.in_let, What::InLet),
        (spot.under_abstraction, What::UnderAbstraction),
        (spot.in_argument, What::InArgument),
        (spot.uses_around, What::UsesAround),
        (record.both_have_gates, What::BothHaveGates),
    ];
    let holding = all.into_iter().filter(|(holds, _)| *holds);
    holding.map(|(_, what)| what).collect()
}

/// What holds of a pair in which these spots are unboxed.
pub fn of_pair(spotted: &Spotted, watched: &Watched, unboxed: [&[bool]; 2]) -> Vec<What> {
    let [first, second] = unboxed;
    let is_run = |spot: usize| watched.records[spot].times > 0;
    let only = |in_one: &[bool], in_other: &[bool]| -> Vec<usize> {
        (0..in_one.len())
            .filter(|&spot| in_one[spot] && !in_other[spot] && is_run(spot))
            .collect()
    };
    let (ahead, behind) = (only(first, second), only(second, first));
    let differing = [&ahead[..], &behind[..]].concat();
    match differing[..] {
        [] => vec![],
        [spot] => of_spot(&spotted.spots[spot], &watched.records[spot]),
        _ => {
            let nested = differing.iter().any(|&spot| {
                let inside = &spotted.spots[spot].inside;
                inside.iter().any(|around| differing.contains(around))
            });
            let all = [
                (true, What::Several),
                (differing.len() >= 4, What::Many),
                (nested, What::Nested),
                (!ahead.is_empty() && !behind.is_empty(), What::Across),
            ];
            let holding = all.into_iter().filter(|(holds, _)| *holds);
            holding.map(|(_, what)| what).collect()
        }
    }
}
