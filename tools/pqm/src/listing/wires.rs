//! The wires of a listing: what each is, who makes it and who takes it; or the first
//! fault, in the order of the refusals.

use super::entries::Listing;
use super::sizes::Sizes;
use super::{NO_WIRE, SLOTS};
use crate::refusal::Refusal;
use crate::trees::Wire;

/// Who takes a wire: a slot of an entry, or an output.
#[derive(Clone, Copy, PartialEq, Eq, Debug)]
pub enum Taker {
    Slot(usize, usize),
    Output(usize),
}

/// A wire that is made.
#[derive(Clone, Copy, PartialEq, Eq, Debug)]
pub struct Made {
    pub of: Wire,
    /// The number of the entry that makes it.
    pub entry: usize,
    pub taker: Option<Taker>,
}

/// Why a wire must not be taken.
#[derive(Clone, Copy, PartialEq, Eq, Debug)]
pub enum Wrong {
    /// None is taken where one is needed.
    NoWire,
    /// No entry before makes it.
    NotMade,
    /// It is of this type, and one of the other is needed.
    OtherType(Wire),
    /// It has gone already.
    Gone(Taker),
}

/// The first fault of a listing.
#[derive(Clone, Copy, PartialEq, Eq, Debug)]
pub enum Fault {
    /// 24: fewer bytes than the sizes have.
    Short,
    /// 24: a size out of range.
    Sizes(Sizes),
    /// 24: a length that the sizes do not give.
    Length(Sizes),
    /// 25: a kind that is not allowed for this entry.
    Kind(usize),
    /// 25: something in a slot that the entry does not use.
    Slot(usize, usize),
    /// 26: a wire taken wrongly.
    Taken(Taker, u16, Wrong),
    /// 26: a wire left over.
    LeftOver(usize),
}

/// What can be told of a listing.
#[derive(Clone, PartialEq, Eq, Debug)]
pub struct Examined {
    /// None if the bytes have no parts: 24.
    pub listing: Option<Listing>,
    /// In the order of their numbers, up to the fault.
    pub wires: Vec<Made>,
    pub fault: Option<Fault>,
}

impl Examined {
    pub fn new(bytes: &[u8]) -> Examined {
        let mut wires = Vec::new();
        let listing = parts(bytes);
        let fault = match &listing {
            Ok(listing) => examine(listing, &mut wires).err(),
            Err(fault) => Some(*fault),
        };
        let listing = listing.ok();
        Examined {
            listing,
            wires,
            fault,
        }
    }

    /// What the check of a listing answers.
    pub fn refusal(&self) -> Option<Refusal> {
        let entries = || self.listing.as_ref().map_or(0, |of| of.sizes().entries());
        let (number, place) = match self.fault? {
            Fault::Short | Fault::Sizes(_) | Fault::Length(_) => (24, 0),
            Fault::Kind(entry) | Fault::Slot(entry, _) => (25, entry),
            Fault::Taken(Taker::Slot(entry, _), ..) => (26, entry),
            Fault::Taken(Taker::Output(number), ..) => (26, entries() + number),
            Fault::LeftOver(wire) => (26, self.wires[wire].entry),
        };
        Some(Refusal { number, place })
    }
}

fn parts(bytes: &[u8]) -> Result<Listing, Fault> {
    let sizes = Sizes::of_bytes(bytes).ok_or(Fault::Short)?;
    if !sizes.in_range() {
        return Err(Fault::Sizes(sizes));
    }
    if bytes.len() != sizes.length() {
        return Err(Fault::Length(sizes));
    }
    Ok(Listing::of_bytes(&sizes, bytes))
}

fn examine(listing: &Listing, wires: &mut Vec<Made>) -> Result<(), Fault> {
    for (number, entry) in listing.entries().enumerate() {
        let is_input = number < listing.inputs.len();
        let used = match (entry.as_input(), entry.as_gate()) {
            (Some(_), _) if is_input => 0,
            (_, Some(gate)) if !is_input => gate.takes.len(),
            _ => return Err(Fault::Kind(number)),
        };
        if let Some(slot) = (used..SLOTS).find(|&slot| entry.slots[slot] != NO_WIRE) {
            return Err(Fault::Slot(number, slot));
        }
    }
    for (number, entry) in listing.entries().enumerate() {
        let gate = entry.as_gate();
        for (slot, &of) in gate.map_or(&[][..], |gate| gate.takes).iter().enumerate() {
            take(
                wires,
                entry.slots[slot],
                Some(of),
                Taker::Slot(number, slot),
            )?;
        }
        let input = entry.as_input();
        let makes = gate.map_or(input.as_slice(), |gate| gate.makes);
        wires.extend(makes.iter().map(|&of| Made {
            of,
            entry: number,
            taker: None,
        }));
    }
    for (number, &wire) in listing.outputs.iter().enumerate() {
        take(wires, wire, None, Taker::Output(number))?;
    }
    match wires.iter().position(|made| made.taker.is_none()) {
        Some(wire) => Err(Fault::LeftOver(wire)),
        None => Ok(()),
    }
}

/// A wire is taken, where one of this type is needed or one of any.
fn take(wires: &mut [Made], wire: u16, of: Option<Wire>, taker: Taker) -> Result<(), Fault> {
    let wrong = |why| Err(Fault::Taken(taker, wire, why));
    match wires.get_mut(usize::from(wire)) {
        None if wire == NO_WIRE => wrong(Wrong::NoWire),
        None => wrong(Wrong::NotMade),
        Some(made) if of.is_some_and(|of| of != made.of) => wrong(Wrong::OtherType(made.of)),
        Some(Made {
            taker: Some(other), ..
        }) => wrong(Wrong::Gone(*other)),
        Some(made) => {
            made.taker = Some(taker);
            Ok(())
        }
    }
}
