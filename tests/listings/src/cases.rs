//! Listings written by hand, with what a check of each answers.

use crate::answer::Answer;
use crate::entries::{Entry, Listing};
use crate::sizes::{MOST_GATES, MOST_INPUTS, MOST_OUTPUTS, MOST_WIRES};
use evaluator::listing::{BIT_INPUT, NO_WIRE, QUBIT_INPUT, SLOTS};
use program_files::Wire::{self, Bit, Qubit};
use program_files::{Refusal, GATES};

pub struct Case {
    pub name: String,
    pub bytes: Vec<u8>,
    pub answer: Answer,
}

/// The numbers of gates.
const H: u8 = 0;
const X: u8 = 1;
const CNOT: u8 = 5;
const MEASURE: u8 = 6;
const BX: u8 = 7;
const BZ: u8 = 8;
const INIT: u8 = 9;
const DISCARD: u8 = 10;
const CCX: u8 = 11;

/// The first number that is no gate's.
const NO_GATE: u8 = GATES.len() as u8;

/// The listing of case c2, as 02 rewrites it.
const C2: [u8; 22] = [
    1, 0, 1, 0, 1, 0, 0x81, 0, 255, 255, 255, 255, 255, 255, 0, 0, 255, 255, 255, 255, 1, 0,
];

/// The table.
pub fn all() -> Vec<Case> {
    let mut all = accepted();
    assert_eq!(all[0].bytes, C2, "the listing of c2");
    all.extend(wrong_sizes());
    all.extend(wrong_kinds());
    all.extend(wrong_slots());
    all.extend(wrong_gates());
    all.extend(wrong_outputs());
    all.extend(left_over());
    all.extend(helpers());
    all.extend(three_wires());
    all
}

/// A listing by the types of its inputs, its gates with their wires, and its
/// outputs.
pub fn listing(inputs: &[Wire], gates: &[(u8, &[u16])], outputs: &[u16]) -> Listing {
    let gates = gates.iter();
    Listing {
        inputs: inputs.iter().map(|&of| Entry::input(of)).collect(),
        gates: gates
            .map(|(number, wires)| Entry::gate(*number, wires))
            .collect(),
        outputs: outputs.to_vec(),
    }
}

fn right(name: &str, listing: &Listing) -> Case {
    Case {
        name: name.to_string(),
        bytes: listing.bytes(),
        answer: Ok(listing.sizes()),
    }
}

fn wrong(name: impl Into<String>, listing: &Listing, number: u8, place: usize) -> Case {
    wrong_bytes(name, listing.bytes(), number, place)
}

fn wrong_bytes(name: impl Into<String>, bytes: Vec<u8>, number: u8, place: usize) -> Case {
    Case {
        name: name.into(),
        bytes,
        answer: Err(Refusal { number, place }),
    }
}

/// The listing of case c3 of 01.
pub fn crossed() -> Listing {
    listing(&[Qubit, Qubit], &[(CNOT, &[0, 1])], &[3, 2])
}

/// Gates on the first wire, each of which takes its predecessor's.
fn chain(inputs: usize, gates: usize) -> Listing {
    let mut chain = listing(&vec![Qubit; inputs], &[], &[]);
    let mut last = 0;
    for gate in 0..gates {
        chain.gates.push(Entry::gate(X, &[last]));
        last = (inputs + gate) as u16;
    }
    chain.outputs.push(last);
    chain.outputs.extend(1..inputs as u16);
    chain
}

/// The most inputs and gates, and as many outputs as inputs.
pub fn most_gates() -> Listing {
    chain(MOST_INPUTS, MOST_GATES)
}

/// The longest of the listings that are accepted: the outputs past the inputs come
/// from Init.
pub fn longest_accepted() -> Listing {
    let inits = MOST_OUTPUTS - MOST_INPUTS;
    let mut longest = chain(MOST_INPUTS, MOST_GATES - inits);
    for _ in 0..inits {
        let made = MOST_INPUTS + longest.gates.len();
        longest.gates.push(Entry::gate(INIT, &[]));
        longest.outputs.push(made as u16);
    }
    longest
}

/// As many wires as there can be: each gate takes the three oldest and makes three.
pub fn most_wires() -> Listing {
    let mut most = listing(&[Qubit; MOST_INPUTS], &[], &[]);
    for gate in 0..MOST_GATES as u16 {
        let first = 3 * gate;
        most.gates
            .push(Entry::gate(CCX, &[first, first + 1, first + 2]));
    }
    let wires = MOST_WIRES as u16;
    most.outputs = (wires - MOST_INPUTS as u16..wires).collect();
    most
}

/// The longest listing, whose outputs past the inputs are never made.
pub fn longest() -> Listing {
    let mut longest = most_gates();
    longest.outputs.resize(MOST_OUTPUTS, NO_WIRE);
    longest
}

fn accepted() -> Vec<Case> {
    vec![
        right("the listing of c2", &listing(&[Qubit], &[(H, &[0])], &[1])),
        right("the listing of c3", &crossed()),
        right("no wire", &listing(&[], &[], &[])),
        right("a Bit that passes", &listing(&[Bit], &[], &[0])),
        right(
            "inputs that pass and cross",
            &listing(&[Qubit, Bit, Qubit], &[], &[2, 0, 1]),
        ),
        right(
            "measured, and an X under the Bit",
            &listing(&[Qubit, Qubit], &[(MEASURE, &[1]), (BX, &[2, 0])], &[4, 3]),
        ),
        right(
            "a Z under a Bit, and a wire between the outputs that passes",
            &listing(&[Qubit, Qubit, Bit], &[(BZ, &[2, 0])], &[3, 1, 4]),
        ),
        right("2,048 gates on one wire", &chain(1, MOST_GATES)),
        right("2,048 gates and 64 inputs", &most_gates()),
        right("the most wires", &most_wires()),
    ]
}

/// 24.
fn wrong_sizes() -> Vec<Case> {
    let mut all = Vec::new();
    for length in 0..6 {
        let name = format!("{length} bytes");
        all.push(wrong_bytes(name, vec![0; length], 24, 0));
    }
    let (inputs, gates, outputs) = (MOST_INPUTS + 1, MOST_GATES + 1, MOST_OUTPUTS + 1);
    all.push(wrong("65 inputs", &chain(inputs, 0), 24, 0));
    all.push(wrong("2,049 gates", &chain(1, gates), 24, 0));
    let mut many = chain(MOST_INPUTS, 0);
    many.outputs.resize(outputs, NO_WIRE);
    all.push(wrong("257 outputs", &many, 24, 0));
    let mut shorter = crossed().bytes();
    shorter.pop();
    all.push(wrong_bytes("a byte less", shorter, 24, 0));
    let mut longer = crossed().bytes();
    longer.push(255);
    all.push(wrong_bytes("a byte more", longer, 24, 0));
    all.push(wrong_bytes("seven zero bytes", vec![0; 7], 24, 0));
    all.push(wrong_bytes(
        "sizes 1, 0, 0 alone",
        vec![1, 0, 0, 0, 0, 0],
        24,
        0,
    ));
    let mut past = longest().bytes();
    past.push(0);
    all.push(wrong_bytes("the longest listing and a byte", past, 24, 0));
    all
}

/// 25 by a kind.
fn wrong_kinds() -> Vec<Case> {
    let mut all = Vec::new();
    for kind in [0, 5, 8, 9, CCX, NO_GATE, 127, 130, 255] {
        let mut of = crossed();
        of.inputs[1].kind = kind;
        all.push(wrong(format!("kind {kind} of an input"), &of, 25, 1));
    }
    for kind in [NO_GATE, 127, BIT_INPUT, QUBIT_INPUT, 130, 255] {
        let mut of = crossed();
        of.gates[0].kind = kind;
        all.push(wrong(format!("kind {kind} of a gate"), &of, 25, 2));
    }
    // A slot of entry 0 comes before the kind of entry 1, and 25 before 26.
    let mut of = crossed();
    of.inputs[0].slots[1] = 0;
    of.inputs[1].kind = 9;
    all.push(wrong("a slot, then a kind", &of, 25, 0));
    let mut of = listing(&[Qubit], &[(H, &[7]), (NO_GATE, &[1])], &[2]);
    all.push(wrong("a wire never made, then a kind", &of, 25, 2));
    of.gates[1].kind = H;
    all.push(wrong("a wire never made, and no kind", &of, 26, 1));
    all
}

/// 25 by a slot that is not used.
fn wrong_slots() -> Vec<Case> {
    let mut all = Vec::new();
    for wire in [0, 1, 65_534] {
        for slot in 0..SLOTS {
            let mut of = crossed();
            of.inputs[1].slots[slot] = wire;
            let name = format!("{wire} in slot {slot} of an input");
            all.push(wrong(name, &of, 25, 1));
        }
        for slot in 1..SLOTS {
            let mut of = listing(&[Qubit], &[(H, &[0])], &[1]);
            of.gates[0].slots[slot] = wire;
            let name = format!("{wire} in slot {slot} of H");
            all.push(wrong(name, &of, 25, 1));
        }
    }
    all
}

/// 26 at a gate.
fn wrong_gates() -> Vec<Case> {
    let two = [Qubit, Qubit];
    let all: [(&str, Listing, usize); 14] = [
        (
            "CNOT of one wire twice",
            listing(&two, &[(CNOT, &[0, 0])], &[2, 3]),
            2,
        ),
        (
            "H of a measured wire",
            listing(&[Qubit], &[(MEASURE, &[0]), (H, &[1])], &[2]),
            2,
        ),
        ("H of a Bit", listing(&[Bit], &[(H, &[0])], &[1]), 1),
        (
            "BX of a Qubit and a Bit",
            listing(&[Qubit, Bit], &[(BX, &[0, 1])], &[2, 3]),
            2,
        ),
        (
            "BX of two Qubits",
            listing(&two, &[(BX, &[0, 1])], &[2, 3]),
            2,
        ),
        (
            "BZ of two Bits",
            listing(&[Bit, Bit], &[(BZ, &[0, 1])], &[2, 3]),
            2,
        ),
        (
            "CNOT of a Qubit and a Bit",
            listing(&[Qubit, Bit], &[(CNOT, &[0, 1])], &[2, 3]),
            2,
        ),
        (
            "a wire taken by two gates",
            listing(&two, &[(H, &[0]), (X, &[0])], &[1, 2, 3]),
            3,
        ),
        (
            "a wire taken again as the second of two",
            listing(&two, &[(H, &[0]), (CNOT, &[1, 0])], &[2, 3, 4]),
            3,
        ),
        (
            "a gate of its own wire",
            listing(&[Qubit], &[(H, &[1])], &[1]),
            1,
        ),
        (
            "a wire made by the next gate",
            listing(&two, &[(H, &[3]), (X, &[0])], &[2, 1]),
            2,
        ),
        (
            "no wire in a used slot",
            listing(&[Qubit], &[(H, &[NO_WIRE])], &[0, 1]),
            1,
        ),
        (
            "no wire in the second used slot",
            listing(&two, &[(CNOT, &[0, NO_WIRE])], &[1, 2, 3]),
            2,
        ),
        (
            "a wrong gate, and a wrong output",
            listing(&two, &[(H, &[0]), (H, &[0])], &[9, 9]),
            3,
        ),
    ];
    let case = |(name, of, place)| wrong(name, &of, 26, place);
    all.into_iter().map(case).collect()
}

/// 26 at an output.
fn wrong_outputs() -> Vec<Case> {
    let mut past_last = most_wires();
    past_last.outputs[MOST_INPUTS - 1] += 1;
    let all: [(&str, Listing, usize); 8] = [
        (
            "an output twice",
            listing(&[Qubit], &[(H, &[0])], &[1, 1]),
            3,
        ),
        (
            "an output never made",
            listing(&[Qubit], &[(H, &[0])], &[2]),
            2,
        ),
        (
            "an output of no wire",
            listing(&[Qubit], &[], &[0, NO_WIRE]),
            2,
        ),
        ("an output without inputs", listing(&[], &[], &[0]), 0),
        (
            "an output gone to a gate",
            listing(&[Qubit], &[(H, &[0])], &[1, 0]),
            3,
        ),
        (
            "an output past the last wire of two",
            listing(&[Qubit, Qubit], &[(CNOT, &[0, 1])], &[2, 4]),
            4,
        ),
        (
            "an output past the most wires",
            past_last,
            MOST_INPUTS + MOST_GATES + MOST_INPUTS - 1,
        ),
        (
            "the longest listing",
            longest(),
            MOST_INPUTS + MOST_GATES + MOST_INPUTS,
        ),
    ];
    let case = |(name, of, place)| wrong(name, &of, 26, place);
    all.into_iter().map(case).collect()
}

/// 26 at the entry that made the lowest wire left over.
fn left_over() -> Vec<Case> {
    let two = [Qubit, Qubit];
    let last = MOST_INPUTS + MOST_GATES - 1;
    let mut without_last = most_gates();
    without_last.outputs.remove(0);
    let mut without_last_of_three = most_wires();
    without_last_of_three.outputs.pop();
    let all: [(&str, Listing, usize); 10] = [
        ("an input left over", listing(&[Qubit], &[], &[]), 0),
        ("a Bit left over", listing(&[Qubit, Bit], &[], &[0]), 1),
        (
            "an input left over beside a gate",
            listing(&two, &[(H, &[0])], &[2]),
            1,
        ),
        (
            "a gate's only wire left over",
            listing(&[Qubit], &[(H, &[0])], &[]),
            1,
        ),
        (
            "a gate's first wire left over",
            listing(&two, &[(CNOT, &[0, 1])], &[3]),
            2,
        ),
        (
            "a gate's second wire left over",
            listing(&two, &[(CNOT, &[0, 1])], &[2]),
            2,
        ),
        (
            "the second wire of the second gate left over",
            listing(&two, &[(CNOT, &[0, 1]), (CNOT, &[3, 2])], &[4]),
            3,
        ),
        (
            "the lowest of three left over",
            listing(&[Qubit; 3], &[(CNOT, &[2, 0]), (H, &[3])], &[]),
            1,
        ),
        ("the wire of the last gate left over", without_last, last),
        (
            "the last of the most wires left over",
            without_last_of_three,
            last,
        ),
    ];
    let case = |(name, of, place)| wrong(name, &of, 26, place);
    all.into_iter().map(case).collect()
}

/// A Qubit that comes, is compared with the input, is measured and goes.
pub fn helper() -> Listing {
    listing(
        &[Qubit],
        &[
            (INIT, &[]),
            (CNOT, &[0, 1]),
            (MEASURE, &[3]),
            (DISCARD, &[4]),
        ],
        &[2],
    )
}

/// Wires that come from Init and go to Discard.
fn helpers() -> Vec<Case> {
    let come_and_gone: [(u8, &[u16]); 3] = [(INIT, &[]), (MEASURE, &[0]), (DISCARD, &[1])];
    let mut all = vec![
        right("Init", &listing(&[], &[(INIT, &[])], &[0])),
        right(
            "Discard of a Bit",
            &listing(&[Bit], &[(DISCARD, &[0])], &[]),
        ),
        right(
            "a Qubit that comes, is measured and goes",
            &listing(&[], &come_and_gone, &[]),
        ),
        right(
            "a Qubit that comes between two inputs",
            &listing(
                &[Qubit, Bit],
                &[(INIT, &[]), (CNOT, &[0, 2]), (DISCARD, &[1])],
                &[4, 3],
            ),
        ),
        right("a helper Qubit beside an input", &helper()),
        right("the longest listing that is accepted", &longest_accepted()),
    ];
    let wrongs: [(&str, Listing, u8, usize); 15] = [
        (
            "the wire of Init left over",
            listing(&[], &[(INIT, &[])], &[]),
            26,
            0,
        ),
        (
            "0 in the first slot of Init",
            listing(&[], &[(INIT, &[0])], &[0]),
            25,
            0,
        ),
        (
            "0 in the second slot of Init",
            listing(&[], &[(INIT, &[NO_WIRE, 0])], &[0]),
            25,
            0,
        ),
        (
            "0 in the second slot of Init behind an input",
            listing(&[Qubit], &[(INIT, &[NO_WIRE, 0])], &[0, 1]),
            25,
            1,
        ),
        (
            "0 in the second slot of Discard",
            listing(&[Bit], &[(DISCARD, &[0, 0])], &[]),
            25,
            1,
        ),
        (
            "Discard of a Qubit",
            listing(&[Qubit], &[(DISCARD, &[0])], &[]),
            26,
            1,
        ),
        (
            "Discard of what Init makes",
            listing(&[], &[(INIT, &[]), (DISCARD, &[0])], &[]),
            26,
            1,
        ),
        (
            "Discard of no wire",
            listing(&[Bit], &[(DISCARD, &[NO_WIRE])], &[0]),
            26,
            1,
        ),
        (
            "Discard twice of a Bit",
            listing(&[Bit], &[(DISCARD, &[0]), (DISCARD, &[0])], &[]),
            26,
            2,
        ),
        (
            "a discarded Bit taken by BX",
            listing(&[Bit, Qubit], &[(DISCARD, &[0]), (BX, &[0, 1])], &[2, 3]),
            26,
            3,
        ),
        (
            "a discarded Bit as an output",
            listing(&[Bit], &[(DISCARD, &[0])], &[0]),
            26,
            2,
        ),
        (
            "an output as if Discard made a wire",
            listing(&[Bit], &[(DISCARD, &[0])], &[1]),
            26,
            2,
        ),
        (
            "the second of two Inits left over",
            listing(&[Qubit], &[(INIT, &[]), (X, &[0]), (INIT, &[])], &[1, 2]),
            26,
            3,
        ),
        (
            "a Bit left over behind a Discard",
            listing(&[Bit, Qubit], &[(DISCARD, &[0]), (MEASURE, &[1])], &[]),
            26,
            3,
        ),
        (
            "H of a wire that Init makes later",
            listing(&[], &[(H, &[0]), (INIT, &[])], &[0]),
            26,
            0,
        ),
    ];
    let case =
        |(name, of, number, place): (&str, Listing, u8, usize)| wrong(name, &of, number, place);
    all.extend(wrongs.into_iter().map(case));
    let inits = Listing {
        gates: vec![Entry::gate(INIT, &[]); MOST_GATES],
        ..most_gates()
    };
    all.push(wrong(
        "2,048 Inits, of which most are left over",
        &Listing {
            outputs: (0..MOST_OUTPUTS as u16).collect(),
            ..inits
        },
        26,
        MOST_OUTPUTS,
    ));
    all
}

/// Three Qubits and a gate that takes these wires and makes all outputs.
fn ccx(wires: [u16; 3]) -> Listing {
    listing(&[Qubit; 3], &[(CCX, &wires)], &[3, 4, 5])
}

/// CCX, and wires in the third slots of other entries.
fn three_wires() -> Vec<Case> {
    let mut all = vec![
        right("CCX", &ccx([0, 1, 2])),
        right("CCX of the last wire and the first two", &ccx([2, 0, 1])),
    ];
    for slot in 0..3 {
        let mut wires = [0, 1, 2];
        wires[slot] = NO_WIRE;
        let name = format!("no wire in slot {slot} of CCX");
        all.push(wrong(name, &ccx(wires), 26, 3));
    }
    for (name, wires) in [
        ("CCX with its second wire as its third", [0, 1, 1]),
        ("CCX with its first wire as its third", [0, 1, 0]),
        ("CCX with its first wire as its second", [0, 0, 2]),
        ("CCX of its own wire", [0, 1, 3]),
    ] {
        all.push(wrong(name, &ccx(wires), 26, 3));
    }
    for slot in 0..3 {
        let mut of = ccx([0, 1, 2]);
        of.inputs[slot] = Entry::input(Bit);
        all.push(wrong(format!("a Bit in slot {slot} of CCX"), &of, 26, 3));
    }
    let mut of = ccx([0, 1, 2]);
    of.outputs.pop();
    all.push(wrong("the third wire of CCX left over", &of, 26, 3));
    of.outputs.push(2);
    all.push(wrong("a wire gone to CCX as an output", &of, 26, 6));
    let mut input = listing(&[Qubit], &[], &[0]);
    input.inputs[0].slots[2] = 0;
    let third: [(&str, Listing, usize); 5] = [
        (
            "a wire in the third slot of H",
            listing(&[Qubit], &[(H, &[0, NO_WIRE, 0])], &[1]),
            1,
        ),
        (
            "a wire in the third slot of CNOT",
            listing(&[Qubit; 3], &[(CNOT, &[0, 1, 2])], &[3, 4, 2]),
            3,
        ),
        ("a wire in the third slot of an input", input, 0),
        (
            "a wire in the third slot of Discard",
            listing(&[Bit], &[(DISCARD, &[0, NO_WIRE, 0])], &[]),
            1,
        ),
        (
            "a wire in the third slot of Init",
            listing(&[], &[(INIT, &[NO_WIRE, NO_WIRE, 0])], &[0]),
            0,
        ),
    ];
    let case = |(name, of, place)| wrong(name, &of, 25, place);
    all.extend(third.into_iter().map(case));
    let mut of = ccx([0, 1, 2]);
    of.gates[0].kind = NO_GATE;
    all.push(wrong("the number behind that of CCX", &of, 25, 3));
    all
}
