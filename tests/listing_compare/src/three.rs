//! What has been seen of CCX and of third slots.

use comparing::tally::{Seen, Tally};
use evaluator::listing::{NO_WIRE, SLOTS};
use listings::counting::{Fault, Maker, Why};
use listings::generate::wire_types;
use listings::sizes::{MOST_GATES, MOST_WIRES};
use listings::{Entry, Listing, Sizes};
use std::collections::BTreeSet;

/// The number of the gate.
const CCX: u8 = 11;

/// What is seen in a listing. Slots and outputs are numbered from 0.
#[derive(Clone, Copy, PartialEq, Eq, PartialOrd, Ord, Debug)]
enum What {
    Accepted,
    /// CCX takes all wires that another makes, in this order.
    AfterAnother([usize; SLOTS]),
    MostWires,
    OnlyCcx,
    NotMade(usize),
    OtherType(usize),
    GoneToGate(usize),
    GoneToItself(usize, usize),
    LeftOver(usize),
    OutputGone,
    /// The third slot alone of an input is wrong.
    ThirdOfInput,
    /// The same of a gate that takes so many wires.
    ThirdOfGate(usize),
}

fn at_slot(slot: usize, how: &str) -> String {
    format!("refused with 26: CCX, its wire in slot {slot} {how}")
}

/// The least number of listings with something, and of those at the limits.
const LEAST: usize = 150;
const LEAST_AT_LIMITS: usize = 20;

impl Seen for What {
    fn words(self) -> String {
        match self {
            What::Accepted => "accepted with CCX".to_string(),
            What::AfterAnother(order) => {
                format!("accepted with CCX of the wires {order:?} of another")
            }
            What::MostWires => "accepted with the most wires".to_string(),
            What::OnlyCcx => "accepted with the most gates, all CCX".to_string(),
            What::NotMade(slot) => at_slot(slot, "not made"),
            What::OtherType(slot) => at_slot(slot, "of another type"),
            What::GoneToGate(slot) => at_slot(slot, "gone to another"),
            What::GoneToItself(one, other) => at_slot(other, &format!("as in slot {one}")),
            What::LeftOver(output) => {
                format!("refused with 26: left over, made by CCX as its output {output}")
            }
            What::OutputGone => "refused with 26: an output, its wire gone to CCX".to_string(),
            What::ThirdOfInput => "refused with 25: slot 2 alone of an input".to_string(),
            What::ThirdOfGate(takes) => {
                format!("refused with 25: slot 2 alone of a gate that takes {takes}")
            }
        }
    }

    fn wanted() -> Vec<(What, usize)> {
        let mut all = vec![
            (What::Accepted, 2_000),
            (What::MostWires, LEAST_AT_LIMITS),
            (What::OnlyCcx, LEAST_AT_LIMITS),
            (What::OutputGone, LEAST),
            (What::ThirdOfInput, LEAST),
        ];
        for one in 0..SLOTS {
            for other in (0..SLOTS).filter(|&other| other != one) {
                let order = [one, other, SLOTS - one - other];
                all.push((What::AfterAnother(order), LEAST));
            }
            all.extend((0..one).map(|earlier| (What::GoneToItself(earlier, one), LEAST)));
            let of_slot = [
                What::NotMade(one),
                What::OtherType(one),
                What::GoneToGate(one),
                What::LeftOver(one),
                What::ThirdOfGate(one),
            ];
            all.extend(of_slot.map(|what| (what, LEAST)));
        }
        all
    }
}

#[derive(Default)]
pub struct Three {
    seen: Tally<What>,
}

impl Three {
    /// Counts what is there in a listing whose sizes are right.
    pub fn count(&mut self, listing: &Listing, found: &Result<Sizes, Fault>) {
        for what in seen(listing, found) {
            self.seen.add(what);
        }
    }

    pub fn report(&self) {
        self.seen.report();
    }

    /// Fails if too little has been seen.
    pub fn assert(&self) {
        self.seen.assert();
    }
}

fn seen(listing: &Listing, found: &Result<Sizes, Fault>) -> BTreeSet<What> {
    let inputs = listing.inputs.len();
    let gate_at = |place: usize| listing.gates.get(place.checked_sub(inputs)?);
    let is_ccx = |entry: &Entry| entry.kind == CCX;
    match *found {
        Ok(_) => in_accepted(listing),
        Err(Fault::Entry(place)) => {
            let entry = listing.entries().nth(place).expect("an entry");
            let used = match place < inputs {
                true => entry.as_input().map(|_| (0, What::ThirdOfInput)),
                false => entry.as_gate().map(|gate| {
                    let takes = gate.takes.len();
                    (takes, What::ThirdOfGate(takes))
                }),
            };
            let alone = |&(used, _): &(usize, What)| {
                let others = used.min(SLOTS - 1)..SLOTS - 1;
                entry.slots[others].iter().all(|&wire| wire == NO_WIRE)
            };
            let third = used.filter(alone).map(|(_, what)| what);
            third.into_iter().collect()
        }
        Err(Fault::Named { place, slot, why }) => {
            let output = || listing.outputs[place - listing.sizes().entries()];
            let gone_to = |wire: u16| {
                let mut gates = listing.gates.iter();
                gates.find(|gate| gate.slots.contains(&wire))
            };
            let what = match (slot, gate_at(place).filter(|entry| is_ccx(entry)), why) {
                (Some(slot), Some(_), Why::GateNotMade) => Some(What::NotMade(slot)),
                (Some(slot), Some(_), Why::GateOtherType) => Some(What::OtherType(slot)),
                (Some(slot), Some(_), Why::GateGoneToGate) => Some(What::GoneToGate(slot)),
                (Some(slot), Some(ccx), Why::GateGoneToItself) => {
                    let earlier = ccx.slots.iter().position(|&wire| wire == ccx.slots[slot]);
                    Some(What::GoneToItself(earlier.expect("an earlier slot"), slot))
                }
                (None, _, Why::OutputGoneToGate) if gone_to(output()).is_some_and(is_ccx) => {
                    Some(What::OutputGone)
                }
                _ => None,
            };
            what.into_iter().collect()
        }
        Err(Fault::LeftOver(place, Maker::Gate(output))) if gate_at(place).is_some_and(is_ccx) => {
            BTreeSet::from([What::LeftOver(output)])
        }
        Err(_) => BTreeSet::new(),
    }
}

fn in_accepted(listing: &Listing) -> BTreeSet<What> {
    let mut all = BTreeSet::new();
    let mut see = |is_so: bool, what: What| all.extend(is_so.then_some(what));
    let mut ccx = listing.gates.iter().filter(|entry| entry.kind == CCX);
    see(ccx.next().is_some(), What::Accepted);
    let only = listing.gates.iter().all(|entry| entry.kind == CCX);
    see(only && listing.gates.len() == MOST_GATES, What::OnlyCcx);
    see(wire_types(listing).len() == MOST_WIRES, What::MostWires);
    // The first wire that each CCX makes, and the slots of those that take all three.
    let mut next = listing.inputs.len();
    let mut first = Vec::new();
    for entry in &listing.gates {
        if entry.kind == CCX {
            let slots = entry.slots.map(usize::from);
            let least = slots.into_iter().min().expect("slots");
            let order = slots.map(|wire| wire - least);
            if first.contains(&least) && order.iter().all(|&wire| wire < SLOTS) {
                all.insert(What::AfterAnother(order));
            }
            first.push(next);
        }
        next += entry.as_gate().map_or(0, |gate| gate.makes.len());
    }
    all
}
