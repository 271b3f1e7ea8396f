//! The same machine in plain Rust: a term is a row of nodes in a gap buffer,
//! walked to its next redex and changed in place. Benchmarks compare the
//! library with it, and a comparison can have it in the library's place. So they
//! can with the check of a listing, and with the export and import of OpenQASM.

mod check;
pub mod listing;
mod machine;
mod memory;
pub mod qasm;
mod steps;

pub use memory::Memory;

use machine::Machine;
use memory::{Node, Row, NO_WIRE, SLOTS};
use program_files::entries::MOST_LABELS;
use program_files::read::sections;
use program_files::{kinds, read, Entries, Refusal, GATES};

/// The most outputs of a listing.
const MOST_OUTPUTS: usize = 256;

/// The length of an entry of a listing: its kind and its slots.
const ENTRY: usize = 1 + 2 * SLOTS;

/// The longest listing.
pub const LONGEST: usize = 6 + ENTRY * (MOST_LABELS + memory::GATES) + 2 * MOST_OUTPUTS;

#[derive(Clone, Copy, PartialEq, Eq, Debug)]
pub enum Answer {
    Finished {
        steps: u32,
        gates: usize,
        /// The length of the listing.
        length: usize,
    },
    Refused(Refusal),
}

/// Reads, checks and runs a program file. The listing starts the output
/// buffer, which has room for the longest. Memory is zero afterwards.
pub fn run(file: &[u8], limit: u32, out: &mut [u8], memory: &mut Memory) -> Answer {
    let answer = run_in(file, limit, out, memory);
    memory.clear();
    match answer {
        Ok(answer) => answer,
        Err(refusal) => Answer::Refused(refusal),
    }
}

fn run_in(file: &[u8], limit: u32, out: &mut [u8], memory: &mut Memory) -> Result<Answer, Refusal> {
    let read = read(file)?;
    let of = check::check(&read)?;
    if !of.is_wire_type() {
        return Err(refusal(20));
    }
    let entries = sections(file)?;
    let mut machine = load(&entries, memory);
    let steps = machine.run(limit)?;
    let (rows, outputs) = machine.result();
    let length = write_listing(&entries, rows, outputs, out);
    Ok(Answer::Finished {
        steps,
        gates: rows.len(),
        length,
    })
}

fn refusal(number: u8) -> Refusal {
    Refusal { number, place: 0 }
}

/// The file's term with nothing walked yet.
fn load<'a>(entries: &Entries, memory: &'a mut Memory) -> Machine<'a> {
    for (at, entry) in entries.types.iter().enumerate() {
        memory.types[at] = entry.kind;
    }
    let first = memory::NODES - entries.terms.len();
    for (at, entry) in entries.terms.iter().enumerate() {
        memory.nodes[first + at] = Node {
            kind: entry.kind,
            argument: entry.argument,
        };
    }
    Machine::new(memory, first, entries.labels.len())
}

/// Sizes, kind bytes, slots and outputs; the answer is the length.
fn write_listing(entries: &Entries, rows: &[Row], outputs: &[Node], out: &mut [u8]) -> usize {
    let labels = entries.labels.len();
    let all = labels + rows.len();
    let outputs = outputs.iter().filter(|node| node.kind == kinds::LABEL);
    let mut put = |at: usize, number: u16| {
        out[at..at + 2].copy_from_slice(&number.to_le_bytes());
    };
    let slots = (0..labels).flat_map(|_| [NO_WIRE; SLOTS]);
    let slots = slots.chain(rows.iter().flat_map(|row| row.takes));
    let wires = slots.chain(outputs.map(|output| output.argument));
    let mut end = 6 + all;
    for wire in wires {
        put(end, wire);
        end += 2;
    }
    let outputs = (end - 6 - ENTRY * all) / 2;
    put(0, labels as u16);
    put(2, rows.len() as u16);
    put(4, outputs as u16);
    for (at, label) in entries.labels.iter().enumerate() {
        out[6 + at] = 128 + label.kind;
    }
    for (at, row) in rows.iter().enumerate() {
        debug_assert!(usize::from(row.gate) < GATES.len());
        out[6 + labels + at] = row.gate as u8;
    }
    end
}
