//! Prints the table of listings for tests/header.c: in C, the bytes of each case
//! and one row for it, whose fields are those of its `struct listing_case`.

use listings::cases::{all, Case};
use listings::Sizes;

fn main() {
    println!("/* Printed by tests/listings/src/bin/listing_cases_header.rs. */");
    let cases = all();
    for (at, case) in cases.iter().enumerate() {
        println!("static const uint8_t listing_{at}[] = {};", bytes(case));
    }
    println!("static const struct listing_case listing_cases[] = {{");
    for (at, case) in cases.iter().enumerate() {
        println!("    {},", row(at, case));
    }
    println!("}};");
}

/// The bytes in C, where an array has at least one.
fn bytes(case: &Case) -> String {
    let bytes: Vec<String> = case.bytes.iter().map(u8::to_string).collect();
    match bytes.is_empty() {
        true => String::from("{0}"),
        false => format!("{{{}}}", bytes.join(", ")),
    }
}

/// The name; the listing and its length; the number, the place and the sizes.
fn row(at: usize, case: &Case) -> String {
    let answer = match case.answer {
        Ok(Sizes {
            inputs,
            gates,
            outputs,
        }) => format!("0, 0, {inputs}, {gates}, {outputs}"),
        Err(refusal) => format!("{}, {}, 0, 0, 0", refusal.number, refusal.place),
    };
    let Case { name, bytes, .. } = case;
    format!("{{\"{name}\", listing_{at}, {}, {answer}}}", bytes.len())
}
