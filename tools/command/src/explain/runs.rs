//! Refusals 19 to 22: buffers and runs.

use super::Explanation;
use crate::words::{count, type_words, wrapped};
use gawipsol::{check, run, LIMIT};
use pqm::kinds;
use pqm::lengths::{Buffer, CHECK, EXPORT, IMPORT, LISTING, RUN};

/// Lengths are written in lines of so many characters.
const LENGTHS: usize = 58;

/// The file is refused so.
pub fn explain(bytes: &[u8], number: u8) -> Explanation {
    let sentences = match number {
        19 => {
            return Explanation {
                sentences: String::from(
                    "A buffer that the caller lends is shorter than its least length. That \
                     comes before all else, whatever the file is, and no buffer is touched. \
                     The least lengths, in bytes:",
                ),
                surroundings: least_lengths(),
            }
        }
        20 => no_wire_type(bytes),
        21 => unfinished(bytes),
        _ => too_large(bytes),
    };
    Explanation {
        sentences,
        surroundings: String::new(),
    }
}

/// The buffers of each operation, with their names.
fn least_lengths() -> String {
    let operations: [(&str, &[Buffer]); 5] = [
        ("check", &CHECK),
        ("run", &RUN),
        ("check of a listing", &LISTING),
        ("export", &EXPORT),
        ("import", &IMPORT),
    ];
    // A name and its length stay in one line: no name has the mark between them.
    let lines = operations.map(|(operation, buffers)| {
        let words = buffers
            .iter()
            .map(|(name, length)| format!("{name}_{length}"));
        let words = wrapped(&words.collect::<Vec<String>>().join(", "), LENGTHS);
        let words = words
            .replace('_', " ")
            .trim_end()
            .replace('\n', &format!("\n{:22}", ""));
        format!("  {operation:20}{words}\n")
    });
    lines.concat()
}

fn no_wire_type(bytes: &[u8]) -> String {
    let of = check(bytes).unwrap_or_default();
    let lacks = match of.first() {
        Some(&kinds::FUNCTION) => "A function lacks its argument",
        Some(&kinds::REUSABLE) => "What is reusable lacks a force",
        Some(&kinds::CIRCUIT) => "A circuit lacks an apply",
        _ => "One of the parts is none",
    };
    format!(
        "The program passes the check, and its type is {}. That is no wire type, so a run \
         would have no output wires to list: wire types are Bit, Qubit, unit and pairs of \
         these. {lacks}.",
        type_words(&of)
    )
}

fn unfinished(bytes: &[u8]) -> String {
    let then = match run(bytes, LIMIT) {
        Ok(finished) => format!(
            "With {LIMIT} steps, the limit of wirelist, it finishes: it takes {} of them",
            finished.steps
        ),
        Err(refusal) if refusal.number == 22 => format!(
            "It would not finish with more: after {} the next one exceeds a size",
            steps_before(bytes)
        ),
        Err(_) => format!("After {LIMIT} steps, the limit of wirelist, it is unfinished too"),
    };
    format!(
        "All steps that the limit allows were done, and the program is not a value yet. No \
         entry is at fault. {then}."
    )
}

fn too_large(bytes: &[u8]) -> String {
    let after = match run(bytes, LIMIT) {
        Err(refusal) if refusal.number == 22 => format!("After {}", steps_before(bytes)),
        _ => format!("After more than {LIMIT} steps"),
    };
    format!(
        "{after} the next one would exceed a size of the run: 4096 term nodes over all open \
         boxes, 2048 gates over all circuits, or 256 boxes closed. No entry is at fault. The \
         program is too large for the cabinet as it is written, whatever its limit."
    )
}

/// How many steps fit, of a run that is refused with 22: the greatest limit with which it
/// is refused with 21.
fn steps_before(bytes: &[u8]) -> String {
    let (mut fit, mut too_many) = (0, LIMIT);
    while too_many - fit > 1 {
        let between = fit + (too_many - fit) / 2;
        match run(bytes, between) {
            Err(refusal) if refusal.number == 22 => too_many = between,
            _ => fit = between,
        }
    }
    count(fit as usize, "step", "steps")
}
