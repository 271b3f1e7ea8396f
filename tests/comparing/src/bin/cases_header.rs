//! Prints the table of cases for tests/header.c: in C, one row for each case
//! and limit, whose fields are those of its `struct known_case`.

use comparing::cases::{all, Case, Finished, LIMITS};
use program_files::{Refusal, Sizes};

fn main() {
    println!("/* Printed by tests/comparing/src/bin/cases_header.rs. */");
    println!("static const struct known_case cases[] = {{");
    for case in all() {
        for limit in LIMITS {
            println!("    {},", row(&case, limit));
        }
    }
    println!("}};");
}

/// The name; the file and its length; the answers; the type and the listing.
fn row(case: &Case, limit: u32) -> String {
    let run = case.run(limit);
    let read = answer(&case.read, |sizes: &Sizes| {
        [sizes.labels, sizes.types, sizes.terms]
    });
    let check = answer(&case.check, |of| [of.len()]);
    let ran = answer(&run, |Finished { steps, listing }| {
        [listing.gates, listing.bytes.len(), *steps as usize]
    });
    format!(
        "{{\"{} with limit {limit}\", {}, {}, {{{read}, {check}, {limit}, {ran}}}, {}, {}}}",
        case.name,
        bytes(&case.file),
        case.file.len(),
        bytes(case.check.unwrap_or(&[])),
        bytes(run.map_or(&[], |finished| finished.listing.bytes))
    )
}

/// The number, the place, and what else is answered where the number is 0.
fn answer<T, const N: usize>(
    answer: &Result<T, Refusal>,
    others: impl Fn(&T) -> [usize; N],
) -> String {
    let (number, place, others) = match answer {
        Ok(accepted) => (0, 0, others(accepted)),
        Err(refusal) => (refusal.number, refusal.place, [0; N]),
    };
    let others: String = others.iter().map(|other| format!(", {other}")).collect();
    format!("{number}, {place}{others}")
}

/// Bytes as a string of C.
fn bytes(bytes: &[u8]) -> String {
    let bytes: String = bytes.iter().map(|byte| format!("\\x{byte:02X}")).collect();
    format!("\"{bytes}\"")
}
