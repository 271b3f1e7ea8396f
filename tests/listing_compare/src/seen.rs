//! What has been seen in the listings that were compared.

use crate::three::Three;
use listings::counting::{Fault, Maker, Why};
use listings::sizes::LONGEST;
use listings::{Listing, Sizes};
use program_files::GATES;
use std::collections::BTreeMap;

/// The places of 26, each of which so many listings must have.
const NAMED: [(Why, &str); 8] = [
    (Why::GateNotMade, "a gate, its wire not made"),
    (Why::GateOtherType, "a gate, its wire of another type"),
    (Why::GateGoneToGate, "a gate, its wire gone to another"),
    (Why::GateGoneToItself, "a gate, its wire gone to itself"),
    (Why::GateBoth, "a gate, its wire gone and of another type"),
    (Why::OutputNotMade, "an output, its wire not made"),
    (Why::OutputGoneToGate, "an output, its wire gone to a gate"),
    (
        Why::OutputGoneToOutput,
        "an output, its wire gone to another",
    ),
];
const LEFT_OVER: [(Maker, &str); 4] = [
    (Maker::Input, "an input"),
    (Maker::Gate(0), "a gate, as its first"),
    (Maker::Gate(1), "a gate, as its second"),
    (Maker::Gate(2), "a gate, as its third"),
];
const LEAST_PLACES: usize = 500;

/// What is seen of Init and Discard, each in so many listings.
#[derive(Clone, Copy, PartialEq, Eq, PartialOrd, Ord, Debug)]
enum Helped {
    Init,
    Discard,
    WithoutInputs,
    WithoutOutputs,
    SlotOfInit,
    SlotOfDiscard,
    DiscardOfQubit,
    GateAfterDiscard,
    OutputAfterDiscard,
    LeftOverByInit,
}

const HELPED: [(Helped, &str); 10] = [
    (Helped::Init, "accepted with Init"),
    (Helped::Discard, "accepted with Discard"),
    (Helped::WithoutInputs, "accepted with gates and no input"),
    (Helped::WithoutOutputs, "accepted with gates and no output"),
    (Helped::SlotOfInit, "refused with 25 at Init"),
    (Helped::SlotOfDiscard, "refused with 25 at Discard"),
    (
        Helped::DiscardOfQubit,
        "refused with 26: Discard of a Qubit",
    ),
    (
        Helped::GateAfterDiscard,
        "refused with 26: a gate, its wire gone to Discard",
    ),
    (
        Helped::OutputAfterDiscard,
        "refused with 26: an output, its wire gone to Discard",
    ),
    (
        Helped::LeftOverByInit,
        "refused with 26: left over, made by Init",
    ),
];
const LEAST_HELPED: usize = 300;

#[derive(Default)]
pub struct Seen {
    named: BTreeMap<Why, usize>,
    left_over: BTreeMap<Maker, usize>,
    /// The greatest place of each number from 24 on.
    greatest: [usize; 3],
    longest: usize,
    /// Accepted ones of the greatest sizes, of none, and the greatest sizes of
    /// all.
    greatest_accepted: usize,
    empty_accepted: usize,
    most: [usize; 3],
    /// Refused with 26 although they have the greatest length.
    longest_named: usize,
    helped: BTreeMap<Helped, usize>,
    three: Three,
}

impl Seen {
    pub fn count(&mut self, bytes: &[u8], found: &Result<Sizes, Fault>) {
        self.longest = self.longest.max(bytes.len());
        match found {
            Ok(sizes) => self.count_accepted(sizes),
            Err(fault) => self.count_refused(bytes, fault),
        }
        if *found != Err(Fault::Sizes) {
            let sizes = Sizes::of_bytes(bytes).expect("sizes");
            let listing = Listing::of_bytes(&sizes, bytes);
            self.count_helped(&listing, found);
            self.three.count(&listing, found);
        }
    }

    /// Counts what is there of Init and Discard in a listing whose sizes are right.
    fn count_helped(&mut self, listing: &Listing, found: &Result<Sizes, Fault>) {
        let sizes = listing.sizes();
        let is = |kind: u8, name: &str| {
            let gate = GATES.get(usize::from(kind));
            gate.is_some_and(|gate| gate.name == name)
        };
        let has = |name: &str| listing.gates.iter().any(|entry| is(entry.kind, name));
        let gate_at = |place: usize| {
            let gate = place.checked_sub(sizes.inputs)?;
            listing.gates.get(gate)
        };
        let at = |place: usize, name: &str| gate_at(place).is_some_and(|gate| is(gate.kind, name));
        // The first gate that names a wire is the one to which it has gone.
        let gone_to_discard = |wire: u16| {
            let mut gates = listing.gates.iter();
            let to = gates.find(|gate| gate.slots.contains(&wire));
            to.is_some_and(|gate| is(gate.kind, "Discard"))
        };
        let mut seen = Vec::new();
        let mut see = |is_so: bool, what: Helped| seen.extend(is_so.then_some(what));
        match *found {
            Ok(_) => {
                see(has("Init"), Helped::Init);
                see(has("Discard"), Helped::Discard);
                let gates = sizes.gates > 0;
                see(gates && sizes.inputs == 0, Helped::WithoutInputs);
                see(gates && sizes.outputs == 0, Helped::WithoutOutputs);
            }
            Err(Fault::Entry(entry)) => {
                see(at(entry, "Init"), Helped::SlotOfInit);
                see(at(entry, "Discard"), Helped::SlotOfDiscard);
            }
            Err(Fault::Named { place, why, .. }) => match why {
                Why::GateOtherType => see(at(place, "Discard"), Helped::DiscardOfQubit),
                Why::GateGoneToGate => {
                    let slots = gate_at(place).map(|gate| gate.slots);
                    let gone = slots.iter().flatten().any(|&wire| gone_to_discard(wire));
                    see(gone, Helped::GateAfterDiscard);
                }
                Why::OutputGoneToGate => {
                    let wire = listing.outputs[place - sizes.entries()];
                    see(gone_to_discard(wire), Helped::OutputAfterDiscard);
                }
                _ => {}
            },
            Err(Fault::LeftOver(entry, _)) => see(at(entry, "Init"), Helped::LeftOverByInit),
            Err(_) => {}
        }
        for what in seen {
            *self.helped.entry(what).or_default() += 1;
        }
    }

    fn count_accepted(&mut self, sizes: &Sizes) {
        self.greatest_accepted += usize::from(*sizes == Sizes::MOST);
        self.empty_accepted += usize::from(sizes.length() == 6);
        let sizes = [sizes.inputs, sizes.gates, sizes.outputs];
        for (most, size) in self.most.iter_mut().zip(sizes) {
            *most = (*most).max(size);
        }
    }

    fn count_refused(&mut self, bytes: &[u8], fault: &Fault) {
        let refusal = fault.refusal();
        let greatest = &mut self.greatest[usize::from(refusal.number) - 24];
        *greatest = (*greatest).max(refusal.place);
        match *fault {
            Fault::Named { why, .. } => {
                *self.named.entry(why).or_default() += 1;
                self.longest_named += usize::from(bytes.len() == LONGEST);
            }
            Fault::LeftOver(_, maker) => *self.left_over.entry(maker).or_default() += 1,
            Fault::Sizes | Fault::Entry(_) => {}
        }
    }

    pub fn report(&self) {
        for (why, name) in NAMED {
            println!("{:>9} refused with 26: {name}", at(&self.named, why));
        }
        for (maker, name) in LEFT_OVER {
            let count = at(&self.left_over, maker);
            println!("{count:>9} refused with 26: left over, made by {name}");
        }
        println!("greatest places of 24, 25, 26: {:?}", self.greatest);
        println!("longest: {} bytes", self.longest);
        println!("most inputs, gates, outputs accepted: {:?}", self.most);
        println!(
            "accepted with all of these at once: {}; with none: {}",
            self.greatest_accepted, self.empty_accepted
        );
        println!(
            "refused with 26 with {LONGEST} bytes: {}",
            self.longest_named
        );
        for (what, name) in HELPED {
            println!("{:>9} {name}", at(&self.helped, what));
        }
        self.three.report();
    }

    /// Fails if too little has been seen.
    pub fn assert(&self) {
        for (why, name) in NAMED {
            assert!(at(&self.named, why) >= LEAST_PLACES, "too few: {name}");
        }
        for (maker, name) in LEFT_OVER {
            let count = at(&self.left_over, maker);
            assert!(count >= LEAST_PLACES, "too few left over by {name}");
        }
        let Sizes {
            inputs,
            gates,
            outputs,
        } = Sizes::MOST;
        let last = inputs + gates - 1;
        let greatest = [0, last, last + outputs];
        assert_eq!(self.greatest, greatest, "greatest places not reached");
        assert!(self.longest > 65_536, "none past 16 bits");
        let most = [inputs, gates, outputs];
        assert_eq!(self.most, most, "greatest sizes not accepted");
        assert!(self.greatest_accepted >= 50, "too few of the greatest");
        assert!(self.empty_accepted == 1, "no wire not accepted");
        assert!(self.longest_named >= 50, "too few of the longest");
        for (what, name) in HELPED {
            assert!(at(&self.helped, what) >= LEAST_HELPED, "too few {name}");
        }
        self.three.assert();
    }
}

fn at<T: Ord>(counts: &BTreeMap<T, usize>, key: T) -> usize {
    counts.get(&key).copied().unwrap_or(0)
}
