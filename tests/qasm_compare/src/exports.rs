//! Exports with one fault each in which gates have a text. The comparison must tell
//! every one of them from the export under test.

use listings::{Entry, Listing, Sizes};
use program_files::{Refusal, Wire, GATES};
use qasm::answer::Answer;
use qasm::{export, print};

pub type Export = fn(&[u8]) -> Answer;

pub const PLANTED: [(&str, Export); 13] = [
    ("28 at the number of the gate", |bytes| {
        at(bytes, |listing, place| place - listing.inputs.len())
    }),
    ("28 at the last such entry", |bytes| {
        at(bytes, |listing, _| last_helper(listing))
    }),
    ("28 at place 0", |bytes| at(bytes, |_, _| 0)),
    ("28 one entry on", |bytes| at(bytes, |_, place| place + 1)),
    ("28 before 26", |bytes| before(bytes, 26)),
    ("28 before 25", |bytes| before(bytes, 25)),
    ("28 for Init alone", |bytes| {
        unless(bytes, |listing| !has(listing, INIT))
    }),
    ("28 for Discard alone", |bytes| {
        unless(bytes, |listing| !has(listing, DISCARD))
    }),
    ("28 only with an input", |bytes| {
        unless(bytes, |listing| listing.inputs.is_empty())
    }),
    ("Init and Discard left out of the text", |bytes| {
        unless(bytes, |_| true)
    }),
    ("26 in place of 28", |bytes| {
        export(bytes).map_err(|refusal| match refusal.number {
            28 => Refusal {
                number: 26,
                ..refusal
            },
            _ => refusal,
        })
    }),
    ("28 for CCX alone, too", |bytes| match export(bytes) {
        Ok(_) if has(&parts(bytes), CCX) => refused_at_first(bytes, |entry| entry.kind == CCX),
        answer => answer,
    }),
    ("28 at CCX before Init and Discard", |bytes| {
        match export(bytes) {
            Err(Refusal { number: 28, .. }) => {
                refused_at_first(bytes, |entry| entry.kind == CCX || is_helper(entry))
            }
            answer => answer,
        }
    }),
];

const INIT: u8 = 9;
const DISCARD: u8 = 10;
const CCX: u8 = 11;

/// The parts of a listing whose sizes are right.
fn parts(bytes: &[u8]) -> Listing {
    let sizes = Sizes::of_bytes(bytes).expect("sizes");
    Listing::of_bytes(&sizes, bytes)
}

fn has(listing: &Listing, number: u8) -> bool {
    listing.gates.iter().any(|entry| entry.kind == number)
}

fn is_helper(entry: &Entry) -> bool {
    matches!(entry.kind, INIT | DISCARD)
}

/// The last entry that is Init or Discard.
fn last_helper(listing: &Listing) -> usize {
    let last = listing.gates.iter().rposition(is_helper);
    listing.inputs.len() + last.expect("Init or Discard")
}

/// 28 at another place.
fn at(bytes: &[u8], other: fn(&Listing, usize) -> usize) -> Answer {
    export(bytes).map_err(|Refusal { number, place }| Refusal {
        number,
        place: match number {
            28 => other(&parts(bytes), place),
            _ => place,
        },
    })
}

/// 28 for a listing that is to be refused with another number.
fn before(bytes: &[u8], other: u8) -> Answer {
    match export(bytes) {
        Err(Refusal { number, .. })
            if number == other && parts(bytes).gates.iter().any(is_helper) =>
        {
            refused_at_first(bytes, is_helper)
        }
        answer => answer,
    }
}

/// 28 at the first gate that is so.
fn refused_at_first(bytes: &[u8], so: fn(&Entry) -> bool) -> Answer {
    let listing = parts(bytes);
    let gate = listing.gates.iter().position(so);
    Err(Refusal {
        number: 28,
        place: listing.inputs.len() + gate.expect("such a gate"),
    })
}

/// Some listings are exported as if Init were an input and Discard nothing.
fn unless(bytes: &[u8], exported: fn(&Listing) -> bool) -> Answer {
    match export(bytes) {
        Err(Refusal { number: 28, .. }) if exported(&parts(bytes)) => {
            Ok(print(&without_helpers(&parts(bytes))))
        }
        answer => answer,
    }
}

/// The listing with an input more for each Init, and without Discards.
fn without_helpers(listing: &Listing) -> Listing {
    let mut without = Listing {
        inputs: listing.inputs.clone(),
        ..Listing::default()
    };
    let inits = listing.gates.iter().filter(|entry| entry.kind == INIT);
    let inputs = listing.inputs.len();
    without
        .inputs
        .extend(inits.map(|_| Entry::input(Wire::Qubit)));
    // The new number of each wire.
    let mut wires: Vec<u16> = (0..inputs as u16).collect();
    let (mut input, mut made) = (inputs as u16, without.inputs.len() as u16);
    for entry in &listing.gates {
        if entry.kind == INIT {
            wires.push(input);
            input += 1;
        } else if entry.kind != DISCARD {
            let gate = &GATES[usize::from(entry.kind)];
            let taken = &entry.slots[..gate.takes.len()];
            let taken: Vec<u16> = taken.iter().map(|&wire| wires[usize::from(wire)]).collect();
            without.gates.push(Entry::gate(entry.kind, &taken));
            for _ in gate.makes {
                wires.push(made);
                made += 1;
            }
        }
    }
    let outputs = listing.outputs.iter();
    without.outputs = outputs.map(|&wire| wires[usize::from(wire)]).collect();
    without
}
