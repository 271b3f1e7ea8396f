//! Prints the tables of exports, of texts that are refused and of listings that
//! have no text for tests/header.c: in C, the bytes of each case and one row for
//! it, whose fields are those of its `struct text_case` or `struct wordless_case`.

use qasm::cases::{exports, texts, wordless};

/// Longer texts are left out.
const LONGEST: usize = 2_000;

fn main() {
    println!("/* Printed by tests/qasm/src/bin/qasm_cases_header.rs. */");
    let mut rows = Vec::new();
    for case in exports() {
        let listing = Some(case.listing.bytes());
        rows.push((case.name.to_string(), listing, case.text.into_bytes()));
    }
    for refused in texts() {
        if refused.text.len() <= LONGEST {
            rows.push((refused.name, None, refused.text));
        }
    }
    for (at, (_, listing, text)) in rows.iter().enumerate() {
        let listing = listing.as_deref().unwrap_or(&[]);
        println!(
            "static const uint8_t text_listing_{at}[] = {};",
            bytes(listing)
        );
        println!("static const uint8_t text_{at}[] = {};", bytes(text));
    }
    println!("static const struct text_case text_cases[] = {{");
    for (at, (name, listing, text)) in rows.iter().enumerate() {
        let number = if listing.is_some() { 0 } else { 27 };
        let length = listing.as_ref().map_or(0, Vec::len);
        let name = format!("{name:?}").replace("\\u{feff}", "");
        println!(
            "    {{{name}, {number}, text_listing_{at}, {length}, text_{at}, {}}},",
            text.len()
        );
    }
    println!("}};");
    print_wordless();
}

fn print_wordless() {
    let cases = wordless();
    for (at, case) in cases.iter().enumerate() {
        let listing = bytes(&case.listing.bytes());
        println!("static const uint8_t wordless_{at}[] = {listing};");
    }
    println!("static const struct wordless_case wordless_cases[] = {{");
    for (at, case) in cases.iter().enumerate() {
        let length = case.listing.sizes().length();
        let (name, place) = (case.name, case.place);
        println!("    {{{name:?}, wordless_{at}, {length}, {place}}},");
    }
    println!("}};");
}

/// The bytes in C, where an array has at least one.
fn bytes(bytes: &[u8]) -> String {
    let bytes: Vec<String> = bytes.iter().map(u8::to_string).collect();
    match bytes.is_empty() {
        true => String::from("{0}"),
        false => format!("{{{}}}", bytes.join(", ")),
    }
}
