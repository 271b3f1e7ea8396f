//! A check of listings that counts: where each wire is made, and which slots and
//! outputs name it. Nothing is taken from a table, so that this is a second
//! opinion of a check that does so.

use crate::answer::Answer;
use crate::entries::{Entry, Listing};
use crate::sizes::Sizes;
use evaluator::listing::NO_WIRE;
use program_files::{Refusal, Wire};

/// What is wrong with a listing.
#[derive(Clone, Copy, PartialEq, Eq, Debug)]
pub enum Fault {
    /// 24.
    Sizes,
    /// 25: this entry.
    Entry(usize),
    /// 26: a gate's entry and its slot, or the entries and the number of an output.
    Named {
        place: usize,
        slot: Option<usize>,
        why: Why,
    },
    /// 26: the entry that made the wire left over.
    LeftOver(usize, Maker),
}

/// Why a slot or an output may not name its wire.
#[derive(Clone, Copy, PartialEq, Eq, PartialOrd, Ord, Debug)]
pub enum Why {
    GateNotMade,
    GateOtherType,
    GateGoneToGate,
    GateGoneToItself,
    /// Of another type, and gone.
    GateBoth,
    OutputNotMade,
    OutputGoneToGate,
    OutputGoneToOutput,
}

/// What made a wire: an input, or a gate as one of its outputs.
#[derive(Clone, Copy, PartialEq, Eq, PartialOrd, Ord, Debug)]
pub enum Maker {
    Input,
    Gate(usize),
}

impl Fault {
    pub fn refusal(&self) -> Refusal {
        let (number, place) = match *self {
            Fault::Sizes => (24, 0),
            Fault::Entry(entry) => (25, entry),
            Fault::Named { place, .. } => (26, place),
            Fault::LeftOver(entry, _) => (26, entry),
        };
        Refusal { number, place }
    }
}

/// What the check of these bytes answers.
pub fn check(bytes: &[u8]) -> Answer {
    find(bytes).map_err(|fault| fault.refusal())
}

/// The sizes of a listing, or what is first wrong with it.
pub fn find(bytes: &[u8]) -> Result<Sizes, Fault> {
    let sizes = Sizes::of_bytes(bytes).ok_or(Fault::Sizes)?;
    if !sizes.in_range() || bytes.len() != sizes.length() {
        return Err(Fault::Sizes);
    }
    let listing = Listing::of_bytes(&sizes, bytes);
    if let Some(entry) = wrong_entry(&listing) {
        return Err(Fault::Entry(entry));
    }
    let (made, names) = (made(&listing), names(&listing));
    let first = first_names(&names, made.len());
    let wrong = |at: usize| Some((&names[at], why(at, &names, &made, &first, &sizes)?));
    if let Some((&Name { place, slot, .. }, why)) = (0..names.len()).find_map(wrong) {
        return Err(Fault::Named { place, slot, why });
    }
    // The lowest wire that no name counts for.
    match first.iter().position(Option::is_none) {
        Some(wire) => Err(Fault::LeftOver(made[wire].entry, made[wire].maker)),
        None => Ok(sizes),
    }
}

/// The first entry of a kind that is not allowed there, or with a wire in a slot
/// past those it uses.
fn wrong_entry(listing: &Listing) -> Option<usize> {
    let used = |at: usize, entry: &Entry| match at < listing.inputs.len() {
        true => entry.as_input().map(|_| 0),
        false => entry.as_gate().map(|gate| gate.takes.len()),
    };
    let mut entries = listing.entries().enumerate();
    let wrong = entries.find(|(at, entry)| match used(*at, entry) {
        Some(used) => entry.slots[used..].iter().any(|&wire| wire != NO_WIRE),
        None => true,
    });
    wrong.map(|(at, _)| at)
}

/// Where a wire is made.
struct Made {
    entry: usize,
    of: Wire,
    maker: Maker,
}

/// Every wire, in the order of their numbers.
fn made(listing: &Listing) -> Vec<Made> {
    let mut all = Vec::new();
    for (entry, of) in listing.entries().enumerate() {
        if let Some(of) = of.as_input() {
            let maker = Maker::Input;
            all.push(Made { entry, of, maker });
        }
        let makes = of.as_gate().map_or(&[][..], |gate| gate.makes);
        for (output, &of) in makes.iter().enumerate() {
            let maker = Maker::Gate(output);
            all.push(Made { entry, of, maker });
        }
    }
    all
}

/// A used slot or an output.
struct Name {
    wire: usize,
    /// The entry of the gate, or the entries and the number of the output.
    place: usize,
    slot: Option<usize>,
    /// The type that the slot needs.
    needs: Option<Wire>,
}

/// Every name, in the order in which they are to be tested.
fn names(listing: &Listing) -> Vec<Name> {
    let entries = listing.sizes().entries();
    let mut all = Vec::new();
    for (place, entry) in (listing.inputs.len()..).zip(&listing.gates) {
        let takes = entry.as_gate().map_or(&[][..], |gate| gate.takes);
        for (slot, (&wire, &needs)) in entry.slots.iter().zip(takes).enumerate() {
            all.push(Name {
                wire: usize::from(wire),
                place,
                slot: Some(slot),
                needs: Some(needs),
            });
        }
    }
    for (place, &wire) in (entries..).zip(&listing.outputs) {
        all.push(Name {
            wire: usize::from(wire),
            place,
            slot: None,
            needs: None,
        });
    }
    all
}

/// The first name of each wire that is made somewhere.
fn first_names(names: &[Name], wires: usize) -> Vec<Option<usize>> {
    let mut first = vec![None; wires];
    for (at, name) in names.iter().enumerate().rev() {
        if name.wire < wires {
            first[name.wire] = Some(at);
        }
    }
    first
}

/// Why a name is wrong, if no earlier one is: then the wire of an earlier name is
/// gone.
fn why(
    at: usize,
    names: &[Name],
    made: &[Made],
    first: &[Option<usize>],
    sizes: &Sizes,
) -> Option<Why> {
    let name = &names[at];
    let is_output = name.place >= sizes.entries();
    let Some(wire) = made.get(name.wire).filter(|wire| wire.entry < name.place) else {
        return Some(match is_output {
            true => Why::OutputNotMade,
            false => Why::GateNotMade,
        });
    };
    let other_type = name.needs.is_some_and(|needs| needs != wire.of);
    let earlier = first[name.wire].filter(|&first| first < at);
    match earlier.map(|earlier| names[earlier].place) {
        None => other_type.then_some(Why::GateOtherType),
        Some(_) if other_type => Some(Why::GateBoth),
        Some(to) if !is_output && to == name.place => Some(Why::GateGoneToItself),
        Some(_) if !is_output => Some(Why::GateGoneToGate),
        Some(to) if to < sizes.entries() => Some(Why::OutputGoneToGate),
        Some(_) => Some(Why::OutputGoneToOutput),
    }
}
