//! A check by a table of the wires that are there, as it should be or with one
//! fault. The comparison must tell every fault from the check under test.

use evaluator::listing::{NO_WIRE, SLOTS};
use listings::sizes::{MOST_GATES, MOST_INPUTS, MOST_OUTPUTS, MOST_WIRES, SIZES};
use listings::{Answer, Entry, Listing, Sizes};
use program_files::{Gate, Refusal, Wire, GATES};

#[derive(Clone, Copy, PartialEq, Eq, Debug)]
pub enum Fault {
    NotGone,
    GoneAfterAllSlots,
    TypesIgnored,
    BitsTakenAsQubits,
    SecondOfBxABit,
    NoWireSkipped,
    HighByteIgnored,
    MeasuredIsQubit,
    MadeBeforeTaken,
    LastWireNotKnown,
    InputsFromOne,
    LastGate,
    GatePlaceWithoutInputs,
    OutputNotMadeTaken,
    OutputTwice,
    OutputGoneToGate,
    OutputsQubits,
    LastOutput,
    OutputPlaceWithoutGates,
    OutputPlaceWithoutInputs,
    OutputsFirst,
    LeftOverNotTested,
    LeftOverInputsNotTested,
    LeftOverGatesNotTested,
    LeftOverSecondNotTested,
    LeftOverLastNotTested,
    LeftOverHighest,
    LeftOverNext,
    LeftOverWire,
    InputSlotsNotTested,
    InputFirstSlotOnly,
    InputSecondSlotOnly,
    GateSlotsNotTested,
    UnusedSlotZero,
    BitInputAmongGates,
    QubitInputAmongGates,
    GateAmongInputs,
    KindTwelve,
    Kind127,
    Kind130,
    OnePass,
    EntryPlaceWithoutInputs,
    LastEntry,
    MoreInputs,
    FewerInputs,
    NoInputsRefused,
    MoreGates,
    FewerGates,
    MoreOutputs,
    FewerOutputs,
    NoOutputsRefused,
    LongerTaken,
    ShorterTaken,
    LengthBy16Bits,
    MissingSizesZero,
    InitNotCounted,
    InitTakes,
    InitSlotsNotTested,
    DiscardedNotGone,
    DiscardMakes,
    DiscardTakesQubit,
    DiscardSlotNotTested,
    HelpersRefused,
    /// The slots count from 0.
    SlotNotTested(usize),
    SlotTypeIgnored(usize),
    SlotNotGone(usize),
    SameInSlots(usize, usize),
    ThirdOfCcxABit,
    CcxRefused,
    CcxTakesTwo,
    CcxMakesTwo,
    CcxMakesFour,
    UnusedThirdNotTested,
    ThirdOfGatesOnOneNotTested,
    ThirdOfCnotNotTested,
    ThirdOfInitNotTested,
    InputThirdSlotOnly,
    InputThirdSlotNotTested,
    LeftOverThirdNotTested,
    WiresOfTwoSlots,
    TwoSlotsTaken,
    FourSlotsTaken,
    SlotsByColumns,
}

pub const PLANTED: [(&str, Fault); 90] = [
    ("a slot's wire stays there", Fault::NotGone),
    (
        "a gate's wires gone only after all its slots",
        Fault::GoneAfterAllSlots,
    ),
    ("types not tested", Fault::TypesIgnored),
    ("a Bit taken as a Qubit", Fault::BitsTakenAsQubits),
    ("the second wire of BX a Bit", Fault::SecondOfBxABit),
    ("the second slot not tested", Fault::SlotNotTested(1)),
    ("65,535 in a used slot skipped", Fault::NoWireSkipped),
    ("the high byte of a wire ignored", Fault::HighByteIgnored),
    ("a measured wire a Qubit", Fault::MeasuredIsQubit),
    (
        "a gate's wires made before it takes",
        Fault::MadeBeforeTaken,
    ),
    (
        "the last of the most wires not known",
        Fault::LastWireNotKnown,
    ),
    ("inputs numbered from 1", Fault::InputsFromOne),
    ("the last wrong gate", Fault::LastGate),
    ("a gate's place without L", Fault::GatePlaceWithoutInputs),
    ("an output never made taken", Fault::OutputNotMadeTaken),
    ("an output taken twice", Fault::OutputTwice),
    ("an output gone to a gate taken", Fault::OutputGoneToGate),
    ("an output must be a Qubit", Fault::OutputsQubits),
    ("the last wrong output", Fault::LastOutput),
    (
        "an output's place without G",
        Fault::OutputPlaceWithoutGates,
    ),
    (
        "an output's place without L",
        Fault::OutputPlaceWithoutInputs,
    ),
    ("outputs tested before gates", Fault::OutputsFirst),
    ("wires left over not tested", Fault::LeftOverNotTested),
    (
        "inputs left over not tested",
        Fault::LeftOverInputsNotTested,
    ),
    (
        "gates' wires left over not tested",
        Fault::LeftOverGatesNotTested,
    ),
    (
        "gates' second wires left over not tested",
        Fault::LeftOverSecondNotTested,
    ),
    (
        "the last of the most wires left over not tested",
        Fault::LeftOverLastNotTested,
    ),
    ("the highest wire left over", Fault::LeftOverHighest),
    ("place of a wire left over one on", Fault::LeftOverNext),
    ("the wire left over as the place", Fault::LeftOverWire),
    ("slots of inputs not tested", Fault::InputSlotsNotTested),
    (
        "only the first slot of inputs tested",
        Fault::InputFirstSlotOnly,
    ),
    (
        "only the second slot of inputs tested",
        Fault::InputSecondSlotOnly,
    ),
    (
        "unused slots of gates not tested",
        Fault::GateSlotsNotTested,
    ),
    ("an unused slot may be 0", Fault::UnusedSlotZero),
    ("kind 128 among gates", Fault::BitInputAmongGates),
    ("kind 129 among gates", Fault::QubitInputAmongGates),
    ("gates among inputs", Fault::GateAmongInputs),
    ("kind 12 a gate", Fault::KindTwelve),
    ("kind 127 an input", Fault::Kind127),
    ("kind 130 an input", Fault::Kind130),
    ("25 and 26 in one pass", Fault::OnePass),
    ("place of 25 without L", Fault::EntryPlaceWithoutInputs),
    ("the last wrong entry", Fault::LastEntry),
    ("65 inputs taken", Fault::MoreInputs),
    ("64 inputs refused", Fault::FewerInputs),
    ("no inputs refused", Fault::NoInputsRefused),
    ("2,049 gates taken", Fault::MoreGates),
    ("2,048 gates refused", Fault::FewerGates),
    ("257 outputs taken", Fault::MoreOutputs),
    ("256 outputs refused by 24", Fault::FewerOutputs),
    ("no outputs refused by 24", Fault::NoOutputsRefused),
    ("a longer listing taken", Fault::LongerTaken),
    ("a shorter listing taken", Fault::ShorterTaken),
    ("a length that fits in 16 bits taken", Fault::LengthBy16Bits),
    ("sizes that are missing are 0", Fault::MissingSizesZero),
    (
        "the wire that Init makes not counted",
        Fault::InitNotCounted,
    ),
    ("Init takes the newest wire that is there", Fault::InitTakes),
    ("slots of Init not tested", Fault::InitSlotsNotTested),
    ("a discarded wire left over", Fault::DiscardedNotGone),
    ("Discard makes a wire", Fault::DiscardMakes),
    ("Discard takes a Qubit, too", Fault::DiscardTakesQubit),
    (
        "unused slots of Discard not tested",
        Fault::DiscardSlotNotTested,
    ),
    ("Init and Discard refused by 25", Fault::HelpersRefused),
    ("the third slot not tested", Fault::SlotNotTested(2)),
    (
        "the type in the first slot ignored",
        Fault::SlotTypeIgnored(0),
    ),
    (
        "the type in the second slot ignored",
        Fault::SlotTypeIgnored(1),
    ),
    (
        "the type in the third slot ignored",
        Fault::SlotTypeIgnored(2),
    ),
    ("the wire in the first slot stays", Fault::SlotNotGone(0)),
    ("the wire in the second slot stays", Fault::SlotNotGone(1)),
    ("the wire in the third slot stays", Fault::SlotNotGone(2)),
    (
        "one wire taken in the first and the second slot",
        Fault::SameInSlots(0, 1),
    ),
    (
        "one wire taken in the first and the third slot",
        Fault::SameInSlots(0, 2),
    ),
    (
        "one wire taken in the second and the third slot",
        Fault::SameInSlots(1, 2),
    ),
    ("the third wire of CCX a Bit", Fault::ThirdOfCcxABit),
    ("CCX refused by 25", Fault::CcxRefused),
    ("CCX takes two wires", Fault::CcxTakesTwo),
    ("CCX makes two wires", Fault::CcxMakesTwo),
    ("CCX makes four wires", Fault::CcxMakesFour),
    (
        "an unused third slot not tested",
        Fault::UnusedThirdNotTested,
    ),
    (
        "the third slot of gates on one wire not tested",
        Fault::ThirdOfGatesOnOneNotTested,
    ),
    (
        "the third slot of CNOT not tested",
        Fault::ThirdOfCnotNotTested,
    ),
    (
        "the third slot of Init not tested",
        Fault::ThirdOfInitNotTested,
    ),
    (
        "only the third slot of inputs tested",
        Fault::InputThirdSlotOnly,
    ),
    (
        "the third slot of inputs not tested",
        Fault::InputThirdSlotNotTested,
    ),
    (
        "gates' third wires left over not tested",
        Fault::LeftOverThirdNotTested,
    ),
    (
        "wires past two for each gate not known",
        Fault::WiresOfTwoSlots,
    ),
    ("two slots an entry taken", Fault::TwoSlotsTaken),
    ("four slots an entry taken", Fault::FourSlotsTaken),
    (
        "all first slots, then all second ones",
        Fault::SlotsByColumns,
    ),
];

/// The numbers of gates, and the first that is none.
const CNOT: u8 = 5;
const INIT: u8 = 9;
const DISCARD: u8 = 10;
const CCX: u8 = 11;
const NO_GATE: u8 = GATES.len() as u8;

/// What a check answers that has this fault, if any.
pub fn check(bytes: &[u8], fault: Option<Fault>) -> Answer {
    let listing = listing(bytes, fault)?;
    let mut plain = Plain {
        sizes: listing.sizes(),
        listing,
        fault,
        there: Vec::new(),
        makers: Vec::new(),
        to_output: Vec::new(),
    };
    plain.check()?;
    Ok(plain.sizes)
}

fn refuse<T>(number: u8, place: usize) -> Result<T, Refusal> {
    Err(Refusal { number, place })
}

/// 24, or the parts of the listing.
fn listing(bytes: &[u8], fault: Option<Fault>) -> Result<Listing, Refusal> {
    let has = |which: Fault| fault == Some(which);
    if has(Fault::MissingSizesZero) && bytes.len() < SIZES {
        let mut bytes = bytes.to_vec();
        bytes.resize(SIZES, 0);
        return listing(&bytes, fault);
    }
    let Some(sizes) = Sizes::of_bytes(bytes) else {
        return refuse(24, 0);
    };
    let off = |more: Fault, fewer: Fault| isize::from(has(more) as i8 - has(fewer) as i8);
    let most = |most: usize, off: isize| most.checked_add_signed(off).expect("a size");
    let in_range = sizes.inputs <= most(MOST_INPUTS, off(Fault::MoreInputs, Fault::FewerInputs))
        && sizes.gates <= most(MOST_GATES, off(Fault::MoreGates, Fault::FewerGates))
        && sizes.outputs <= most(MOST_OUTPUTS, off(Fault::MoreOutputs, Fault::FewerOutputs))
        && !(has(Fault::NoInputsRefused) && sizes.inputs == 0)
        && !(has(Fault::NoOutputsRefused) && sizes.outputs == 0);
    let mut bytes = bytes.to_vec();
    for (which, count) in [
        (Fault::TwoSlotsTaken, SLOTS - 1),
        (Fault::FourSlotsTaken, SLOTS + 1),
    ] {
        if has(which) {
            bytes = with_slots(&bytes, &sizes, count).unwrap_or(bytes);
        }
    }
    let fits = match bytes.len() {
        length if length < sizes.length() => has(Fault::ShorterTaken),
        length if length > sizes.length() => {
            let past = length - sizes.length();
            has(Fault::LongerTaken) || has(Fault::LengthBy16Bits) && past % 65_536 == 0
        }
        _ => true,
    };
    if !in_range || !fits {
        return refuse(24, 0);
    }
    bytes.resize(sizes.length(), 0);
    let mut listing = Listing::of_bytes(&sizes, &bytes);
    if has(Fault::SlotsByColumns) {
        let entries = listing.inputs.iter_mut().chain(&mut listing.gates);
        let words = bytes[SIZES + sizes.entries()..].chunks_exact(2);
        let words: Vec<u16> = words
            .map(|word| u16::from_le_bytes([word[0], word[1]]))
            .collect();
        for (at, entry) in entries.enumerate() {
            entry.slots = std::array::from_fn(|slot| words[sizes.entries() * slot + at]);
        }
    }
    Ok(listing)
}

/// The bytes of a listing whose entries have so many slots, with as many as they
/// should have; none if it is not of that length.
fn with_slots(bytes: &[u8], sizes: &Sizes, count: usize) -> Option<Vec<u8>> {
    let (kinds, outputs) = (SIZES + sizes.entries(), 2 * sizes.outputs);
    let slots = bytes.get(kinds..)?;
    let fits = sizes.entries() > 0 && slots.len() == 2 * count * sizes.entries() + outputs;
    fits.then_some(())?;
    let (slots, outputs) = slots.split_at(slots.len() - outputs);
    let mut other = bytes[..kinds].to_vec();
    for entry in slots.chunks_exact(2 * count) {
        let padded = entry.iter().copied().chain([255; 2]);
        other.extend(padded.take(2 * SLOTS));
    }
    other.extend(outputs);
    Some(other)
}

struct Plain {
    listing: Listing,
    sizes: Sizes,
    fault: Option<Fault>,
    /// Each wire until it is gone.
    there: Vec<Option<Wire>>,
    /// The entry that made each wire, and as which of its outputs.
    makers: Vec<(usize, usize)>,
    /// Whether each wire is gone to an output.
    to_output: Vec<bool>,
}

impl Plain {
    fn has(&self, which: Fault) -> bool {
        self.fault == Some(which)
    }

    fn check(&mut self) -> Result<(), Refusal> {
        if !self.has(Fault::OnePass) {
            self.test_entries()?;
        }
        if self.has(Fault::InputsFromOne) {
            self.make(0, &[Wire::Bit]);
            self.there[0] = None;
        }
        let gates = self.take_gates();
        if self.has(Fault::OutputsFirst) {
            self.take_outputs()?;
        }
        gates?;
        if !self.has(Fault::OutputsFirst) {
            self.take_outputs()?;
        }
        self.test_left_over()
    }

    /// The entry of this number.
    fn entry(&self, at: usize) -> Entry {
        match at.checked_sub(self.sizes.inputs) {
            None => self.listing.inputs[at],
            Some(gate) => self.listing.gates[gate],
        }
    }

    /// The type of an input of this kind.
    fn input(&self, entry: &Entry) -> Option<Wire> {
        let taken = self.has(Fault::GateAmongInputs) && entry.as_gate().is_some()
            || self.has(Fault::Kind127) && entry.kind == 127
            || self.has(Fault::Kind130) && entry.kind == 130;
        entry.as_input().or(taken.then_some(Wire::Qubit))
    }

    /// The gate of this kind.
    fn gate(&self, entry: &Entry) -> Option<Gate> {
        let makes_input = |makes| Gate {
            name: "input",
            takes: &[],
            makes,
        };
        match (self.fault, entry.kind) {
            (Some(Fault::KindTwelve), NO_GATE) => Some(GATES[8]),
            (Some(Fault::CcxRefused), CCX) => None,
            (Some(Fault::CcxTakesTwo), CCX) => Some(Gate {
                takes: &[Wire::Qubit; 2],
                ..GATES[usize::from(CCX)]
            }),
            (Some(Fault::CcxMakesTwo), CCX) => Some(Gate {
                makes: &[Wire::Qubit; 2],
                ..GATES[usize::from(CCX)]
            }),
            (Some(Fault::CcxMakesFour), CCX) => Some(Gate {
                makes: &[Wire::Qubit; 4],
                ..GATES[usize::from(CCX)]
            }),
            (Some(Fault::ThirdOfCcxABit), CCX) => Some(Gate {
                takes: &[Wire::Qubit, Wire::Qubit, Wire::Bit],
                ..GATES[usize::from(CCX)]
            }),
            (Some(Fault::InitNotCounted), INIT) => Some(Gate {
                makes: &[],
                ..GATES[usize::from(INIT)]
            }),
            (Some(Fault::DiscardMakes), DISCARD) => Some(Gate {
                makes: &[Wire::Bit],
                ..GATES[usize::from(DISCARD)]
            }),
            (Some(Fault::HelpersRefused), INIT | DISCARD) => None,
            (Some(Fault::BitInputAmongGates), 128) => Some(makes_input(&[Wire::Bit])),
            (Some(Fault::QubitInputAmongGates), 129) => Some(makes_input(&[Wire::Qubit])),
            (Some(Fault::MeasuredIsQubit), 6) => Some(GATES[0]),
            (Some(Fault::SecondOfBxABit), 7) => Some(Gate {
                takes: &[Wire::Bit, Wire::Bit],
                ..GATES[7]
            }),
            _ => entry.as_gate().copied(),
        }
    }

    /// 25 over all entries.
    fn test_entries(&self) -> Result<(), Refusal> {
        let mut wrong = Ok(());
        for at in 0..self.sizes.entries() {
            let tested = self.test_entry(at);
            if tested.is_err() {
                wrong = tested;
                if !self.has(Fault::LastEntry) {
                    break;
                }
            }
        }
        wrong
    }

    /// 25 of one entry.
    fn test_entry(&self, at: usize) -> Result<(), Refusal> {
        let entry = self.entry(at);
        let is_input = at < self.sizes.inputs;
        let used = match is_input {
            true => self.input(&entry).map(|_| 0),
            false => self.gate(&entry).map(|gate| gate.takes.len()),
        };
        let is_wrong = match used {
            None => true,
            Some(used) => (used..entry.slots.len()).any(|slot| {
                let wire = entry.slots[slot];
                let allowed = wire == NO_WIRE || self.has(Fault::UnusedSlotZero) && wire == 0;
                !allowed && self.tests_slot(&entry, is_input, slot)
            }),
        };
        match is_wrong {
            true if self.has(Fault::EntryPlaceWithoutInputs) && !is_input => {
                refuse(25, at - self.sizes.inputs)
            }
            true => refuse(25, at),
            false => Ok(()),
        }
    }

    /// Whether an unused slot is tested.
    fn tests_slot(&self, entry: &Entry, is_input: bool, slot: usize) -> bool {
        let is_third = slot == 2;
        match self.fault {
            Some(Fault::UnusedThirdNotTested) => !is_third,
            Some(Fault::ThirdOfGatesOnOneNotTested) => {
                let on_one = entry.as_gate().is_some_and(|gate| gate.takes.len() == 1);
                is_input || !on_one || !is_third
            }
            Some(Fault::ThirdOfCnotNotTested) => is_input || entry.kind != CNOT || !is_third,
            Some(Fault::ThirdOfInitNotTested) => is_input || entry.kind != INIT || !is_third,
            Some(Fault::InputThirdSlotOnly) => !is_input || is_third,
            Some(Fault::InputThirdSlotNotTested) => !is_input || !is_third,
            Some(Fault::InitSlotsNotTested) => is_input || entry.kind != INIT,
            Some(Fault::DiscardSlotNotTested) => is_input || entry.kind != DISCARD,
            Some(Fault::InputSlotsNotTested) => !is_input,
            Some(Fault::InputFirstSlotOnly) => !is_input || slot == 0,
            Some(Fault::InputSecondSlotOnly) => !is_input || slot == 1,
            Some(Fault::GateSlotsNotTested) => is_input,
            _ => true,
        }
    }

    /// Whether there is room for one wire more.
    fn is_last(&self) -> bool {
        self.there.len() == MOST_WIRES - 1
    }

    fn make(&mut self, entry: usize, wires: &[Wire]) {
        for (output, &of) in wires.iter().enumerate() {
            let past_two = self.there.len() >= MOST_INPUTS + 2 * MOST_GATES;
            let not_known = self.has(Fault::LastWireNotKnown) && self.is_last()
                || self.has(Fault::WiresOfTwoSlots) && past_two;
            self.there.push((!not_known).then_some(of));
            self.makers.push((entry, output));
            self.to_output.push(false);
        }
    }

    /// The inputs are made; each gate takes and makes its wires.
    fn take_gates(&mut self) -> Result<(), Refusal> {
        let mut wrong = Ok(());
        for at in 0..self.sizes.entries() {
            if self.has(Fault::OnePass) {
                self.test_entry(at)?;
            }
            let entry = self.entry(at);
            if at < self.sizes.inputs {
                let of = self.input(&entry).expect("a tested entry");
                self.make(at, &[of]);
                continue;
            }
            let gate = self.gate(&entry).expect("a tested entry");
            if self.has(Fault::MadeBeforeTaken) {
                self.make(at, gate.makes);
            }
            if self.has(Fault::InitTakes) && entry.kind == INIT {
                let newest = self.there.iter_mut().rev().find(|wire| wire.is_some());
                newest.into_iter().for_each(|wire| *wire = None);
            }
            let taken = self.take_slots(at, &entry, &gate);
            if !self.has(Fault::MadeBeforeTaken) {
                self.make(at, gate.makes);
            }
            if taken.is_err() {
                wrong = taken;
                // Where the outputs come first, every wire is made all the same.
                if !self.has(Fault::LastGate) && !self.has(Fault::OutputsFirst) {
                    break;
                }
            }
        }
        wrong
    }

    fn take_slots(&mut self, at: usize, entry: &Entry, gate: &Gate) -> Result<(), Refusal> {
        let mut gone = Vec::new();
        for (slot, &needs) in gate.takes.iter().enumerate() {
            let number = entry.slots[slot];
            let is_same =
                |one: usize| entry.slots[one] == number && self.has(Fault::SameInSlots(one, slot));
            let skipped = self.has(Fault::NoWireSkipped) && number == NO_WIRE
                || self.has(Fault::SlotNotTested(slot))
                || (0..slot).any(is_same);
            if skipped {
                continue;
            }
            let wire = match self.has(Fault::HighByteIgnored) {
                true => usize::from(number % 256),
                false => usize::from(number),
            };
            let there = self.there.get(wire).copied().flatten();
            let may_take = |of| {
                let discards = entry.kind == DISCARD && self.has(Fault::DiscardTakesQubit);
                discards || self.has(Fault::SlotTypeIgnored(slot)) || self.may_take(of, needs)
            };
            if !there.is_some_and(may_take) {
                let off = match self.has(Fault::GatePlaceWithoutInputs) {
                    true => self.sizes.inputs,
                    false => 0,
                };
                return refuse(26, at - off);
            }
            gone.push(wire);
            let stays = entry.kind == DISCARD && self.has(Fault::DiscardedNotGone)
                || self.has(Fault::SlotNotGone(slot));
            if !stays && !self.has(Fault::NotGone) && !self.has(Fault::GoneAfterAllSlots) {
                self.there[wire] = None;
            }
        }
        if self.has(Fault::GoneAfterAllSlots) {
            gone.into_iter().for_each(|wire| self.there[wire] = None);
        }
        Ok(())
    }

    fn may_take(&self, of: Wire, needs: Wire) -> bool {
        of == needs
            || self.has(Fault::TypesIgnored)
            || self.has(Fault::BitsTakenAsQubits) && needs == Wire::Qubit
    }

    fn take_outputs(&mut self) -> Result<(), Refusal> {
        let mut wrong = Ok(());
        for at in 0..self.sizes.outputs {
            let wire = usize::from(self.listing.outputs[at]);
            if !self.may_be_output(wire) {
                wrong = refuse(26, self.output_place(at));
                if !self.has(Fault::LastOutput) {
                    break;
                }
            }
            if wire < self.there.len() {
                self.there[wire] = None;
                self.to_output[wire] = true;
            }
        }
        wrong
    }

    fn may_be_output(&self, wire: usize) -> bool {
        match self.there.get(wire) {
            None => self.has(Fault::OutputNotMadeTaken),
            Some(None) if self.to_output[wire] => self.has(Fault::OutputTwice),
            Some(None) => self.has(Fault::OutputGoneToGate),
            Some(Some(of)) => !self.has(Fault::OutputsQubits) || *of == Wire::Qubit,
        }
    }

    fn output_place(&self, at: usize) -> usize {
        let Sizes { inputs, gates, .. } = self.sizes;
        match self.fault {
            Some(Fault::OutputPlaceWithoutGates) => inputs + at,
            Some(Fault::OutputPlaceWithoutInputs) => gates + at,
            _ => inputs + gates + at,
        }
    }

    fn test_left_over(&self) -> Result<(), Refusal> {
        let mut left_over = (0..self.there.len()).filter(|&wire| self.is_left_over(wire));
        let wire = match self.has(Fault::LeftOverHighest) {
            true => left_over.next_back(),
            false => left_over.next(),
        };
        match (wire, self.fault) {
            (None, _) => Ok(()),
            (Some(wire), Some(Fault::LeftOverWire)) => refuse(26, wire),
            (Some(wire), Some(Fault::LeftOverNext)) => refuse(26, self.makers[wire].0 + 1),
            (Some(wire), _) => refuse(26, self.makers[wire].0),
        }
    }

    fn is_left_over(&self, wire: usize) -> bool {
        let (entry, output) = self.makers[wire];
        let tested = match self.fault {
            Some(Fault::LeftOverNotTested) => false,
            Some(Fault::LeftOverInputsNotTested) => entry >= self.sizes.inputs,
            Some(Fault::LeftOverGatesNotTested) => entry < self.sizes.inputs,
            Some(Fault::LeftOverSecondNotTested) => output != 1,
            Some(Fault::LeftOverThirdNotTested) => output != 2,
            Some(Fault::LeftOverLastNotTested) => wire < MOST_WIRES - 1,
            _ => true,
        };
        tested && self.there[wire].is_some()
    }
}
