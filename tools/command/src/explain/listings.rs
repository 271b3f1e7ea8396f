//! Refusals 24 to 26 and 28: listings.

use super::Explanation;
use crate::words::{self, count, numbers};
use pqm::gates::GATES;
use pqm::listing::sizes::{MOST_GATES, MOST_INPUTS, MOST_OUTPUTS};
use pqm::listing::{Entry, Examined, Fault, Listing, Sizes, Taker, Wrong, NO_WIRE, SLOTS};
use pqm::{Refusal, Wire};

/// The listing is refused so.
pub fn explain(bytes: &[u8], refusal: Refusal) -> Explanation {
    let examined = Examined::new(bytes);
    let place = refusal.place;
    let (sentences, mut shown) = match (&examined.listing, examined.fault) {
        (None, Some(fault)) => (sizes(bytes, fault), vec![]),
        (Some(listing), Some(fault)) => wrong(listing, &examined, fault),
        (Some(listing), None) => (no_word(listing, place), vec![]),
        (None, None) => Default::default(),
    };
    if refusal.number != 24 {
        shown.push(place);
    }
    Explanation {
        sentences,
        surroundings: around(bytes, &shown, place),
    }
}

fn sizes(bytes: &[u8], fault: Fault) -> String {
    let given = |sizes: Sizes| {
        format!(
            "The first six bytes give {}, {} and {}",
            count(sizes.inputs, "input", "inputs"),
            count(sizes.gates, "gate", "gates"),
            count(sizes.outputs, "output", "outputs")
        )
    };
    let program = match gawipsol::read(bytes) {
        Ok(_) => " The bytes are those of a program file, which is read as one.",
        Err(_) => "",
    };
    match fault {
        Fault::Sizes(sizes) => format!(
            "{}. At most {MOST_INPUTS}, {MOST_GATES} and {MOST_OUTPUTS} are allowed.{program}",
            given(sizes)
        ),
        Fault::Length(sizes) => format!(
            "{}. A listing of these sizes has {} bytes, seven for each input and gate and two \
             for each output behind the six of the sizes, and this one has {}.{program}",
            given(sizes),
            sizes.length(),
            bytes.len()
        ),
        _ => format!(
            "There are {}. A listing starts with three sizes of two bytes each, so it has at \
             least 6.",
            count(bytes.len(), "byte", "bytes")
        ),
    }
}

fn wrong(listing: &Listing, examined: &Examined, fault: Fault) -> (String, Vec<usize>) {
    let inputs = listing.inputs.len();
    let entry = |number: usize| listing.entries().nth(number);
    match fault {
        Fault::Kind(number) => {
            let kind = entry(number).map_or(0, |entry| entry.kind);
            let allowed = match number < inputs {
                true => "an input, whose kind is 128, Bit, or 129, Qubit".to_string(),
                false => format!("a gate, whose kind is 0 to {}", GATES.len() - 1),
            };
            let sentences = format!(
                "Entry {number} has kind {kind}. The listing has {}, so this entry is {allowed}.",
                count(inputs, "input", "inputs")
            );
            (sentences, vec![])
        }
        Fault::Slot(number, slot) => {
            let taken = entry(number).map_or(0, |entry| entry.slots[slot]);
            let used = match number < inputs {
                true => String::from("an input takes no wire"),
                false => {
                    let gate = entry(number).and_then(Entry::as_gate);
                    let (name, takes) =
                        gate.map_or(("gate", 0), |gate| (gate.name, gate.takes.len()));
                    format!("{name} takes {}", count(takes, "wire", "wires"))
                }
            };
            let sentences = format!(
                "Entry {number} has {taken} in slot {slot}, and {used}. Each of the {SLOTS} \
                 slots that an entry does not use must hold 65535."
            );
            (sentences, vec![])
        }
        Fault::Taken(taker, wire, why) => taken(listing, examined, taker, wire, why),
        Fault::LeftOver(wire) => {
            let made = examined.wires[wire];
            let sentences = format!(
                "Wire {wire}, a {:?} made by entry {}, goes to no gate and to no output. Each \
                 wire must go exactly once. A Bit that is not needed goes to Discard, a Qubit is \
                 measured first.",
                made.of, made.entry
            );
            (sentences, vec![])
        }
        Fault::Short | Fault::Sizes(_) | Fault::Length(_) => Default::default(),
    }
}

/// Who takes a wire, in words.
fn taker_words(listing: &Listing, taker: Taker) -> String {
    match taker {
        Taker::Output(number) => format!("output {number}"),
        Taker::Slot(entry, slot) => {
            let gate = listing.entries().nth(entry).and_then(Entry::as_gate);
            let name = gate.map_or("", |gate| gate.name);
            format!("slot {slot} of entry {entry}, {name},")
        }
    }
}

/// The place of a taker.
fn taker_place(listing: &Listing, taker: Taker) -> usize {
    match taker {
        Taker::Slot(entry, _) => entry,
        Taker::Output(number) => listing.sizes().entries() + number,
    }
}

fn taken(
    listing: &Listing,
    examined: &Examined,
    taker: Taker,
    wire: u16,
    why: Wrong,
) -> (String, Vec<usize>) {
    let who = taker_words(listing, taker);
    let who = format!("{}{}", who[..1].to_uppercase(), &who[1..]);
    let takes = format!("{who} takes wire {wire}");
    match why {
        Wrong::NoWire => {
            let sentences = format!(
                "{who} holds 65535, which stands for no wire. One is needed there: only a slot \
                 that a gate does not use holds that."
            );
            (sentences, vec![])
        }
        Wrong::NotMade => {
            let sentences = format!(
                "{takes}, and before it there is {}. Inputs make the first wires, then each gate \
                 the next ones in order.",
                numbers(examined.wires.len(), "wire", "wires")
            );
            (sentences, vec![])
        }
        Wrong::OtherType(of) => {
            let maker = examined.wires[usize::from(wire)].entry;
            let needed = match of {
                Wire::Bit => Wire::Qubit,
                Wire::Qubit => Wire::Bit,
            };
            let sentences = format!(
                "{takes}, a {of:?} that entry {maker} makes. The gate needs a {needed:?} there."
            );
            (sentences, vec![maker])
        }
        Wrong::Gone(other) => {
            let sentences = format!(
                "{takes}, which has already gone to {}. A wire is taken once: what a gate makes \
                 has new numbers.",
                taker_words(listing, other).trim_end_matches(',')
            );
            (sentences, vec![taker_place(listing, other)])
        }
    }
}

fn no_word(listing: &Listing, place: usize) -> String {
    let gate = listing.entries().nth(place).and_then(Entry::as_gate);
    let name = gate.map_or("", |gate| gate.name);
    format!(
        "The listing is accepted, and entry {place} is {name}. OpenQASM 2.0 has no word for a \
         wire that comes or goes, so there is no text of this listing: only its export is \
         refused."
    )
}

/// The lines of these entries and outputs and of their neighbours.
pub fn around(bytes: &[u8], shown: &[usize], place: usize) -> String {
    let Some(listing) = Examined::new(bytes).listing else {
        return String::new();
    };
    words::around(&lines(&listing), shown, place)
}

/// A line for each entry, in the words of `wirelist`, and for each output.
fn lines(listing: &Listing) -> Vec<String> {
    let mut lines = Vec::new();
    let mut next = 0;
    for (number, entry) in listing.entries().enumerate() {
        let is_input = number < listing.inputs.len();
        let words = match (entry.as_input(), entry.as_gate()) {
            (input, _) if is_input => {
                next += 1;
                match input {
                    Some(of) => format!("in {} {of:?}", next - 1),
                    None => format!("kind {}", entry.kind),
                }
            }
            (_, Some(gate)) if !is_input => {
                let used = entry.slots.iter().enumerate();
                let used =
                    used.filter(|(slot, wire)| *slot < gate.takes.len() || **wire != NO_WIRE);
                let taken: String = used.map(|(_, wire)| format!(" {wire}")).collect();
                let made = next..next + gate.makes.len();
                next = made.end;
                let made: String = made.map(|wire| format!(" {wire}")).collect();
                format!("gate {}{taken} :{made}", gate.name)
            }
            _ => format!("kind {}", entry.kind),
        };
        lines.push(words);
    }
    let outputs = listing.outputs.iter().enumerate();
    lines.extend(outputs.map(|(number, wire)| format!("output {number}: wire {wire}")));
    let lines = lines.into_iter().enumerate();
    lines
        .map(|(number, words)| format!("{number:>5}  {words}"))
        .collect()
}
