//! An answer as the lines that `wirelist` prints.

use super::answer::Answer;
use super::listing::{BIT_INPUT, NO_WIRE, SLOTS};
use program_files::GATES;

/// The step limit of `wirelist`.
pub const LIMIT: u32 = 1_000_000;

/// One line for each input, each gate, the outputs and the steps, or the one
/// line of a refusal.
pub fn text(answer: &Answer) -> String {
    match answer {
        Answer::Finished { steps, listing, .. } => format!("{}steps {steps}\n", lines(listing)),
        Answer::Refused(refusal) => format!("refused {} {}\n", refusal.number, refusal.place),
    }
}

/// The lines of a listing.
fn lines(listing: &[u8]) -> String {
    let number = |at: usize| u16::from_le_bytes([listing[at], listing[at + 1]]);
    let inputs = usize::from(number(0));
    let entries = inputs + usize::from(number(2));
    let outputs = usize::from(number(4));
    let slots = 6 + entries;
    let outs = slots + 2 * SLOTS * entries;
    let mut lines = String::new();
    for (wire, &kind) in listing[6..6 + inputs].iter().enumerate() {
        let of = if kind == BIT_INPUT { "Bit" } else { "Qubit" };
        lines += &format!("in {wire} {of}\n");
    }
    let mut next = inputs;
    for entry in inputs..entries {
        let gate = &GATES[usize::from(listing[6 + entry])];
        let slots = (0..SLOTS).map(|slot| number(slots + 2 * (SLOTS * entry + slot)));
        let takes = slots.filter(|&wire| wire != NO_WIRE);
        let takes = words(takes.map(usize::from));
        let makes = words(next..next + gate.makes.len());
        next += gate.makes.len();
        lines += &format!("gate {}{takes} :{makes}\n", gate.name);
    }
    let outs = (0..outputs).map(|at| usize::from(number(outs + 2 * at)));
    lines + &format!("out{}\n", words(outs))
}

/// Each number with a space before it.
fn words(numbers: impl Iterator<Item = usize>) -> String {
    numbers.map(|number| format!(" {number}")).collect()
}
