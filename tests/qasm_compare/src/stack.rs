//! The least stack on which the export and the import under test take the
//! longest listings and texts.

use comparing::stack;
use listings::cases::{most_gates, most_wires};
use qasm::cases::{longest, under_a_bit};
use qasm::{answer, lengths, print};
use qasm_compare::under_test;

/// The first byte of what is called says which of the two it is.
const EXPORT: u8 = 0;
const IMPORT: u8 = 1;

/// The operation under test with buffers of the least lengths.
pub fn call(named: &[u8]) -> u64 {
    match named.split_first() {
        Some((&EXPORT, listing)) => {
            let mut buffers = lengths::EXPORT.map(|length| vec![0; length]);
            under_test::export(listing, buffers.each_mut().map(Vec::as_mut_slice))
        }
        Some((_, text)) => {
            let mut buffers = lengths::IMPORT.map(|length| vec![0; length]);
            under_test::import(text, buffers.each_mut().map(Vec::as_mut_slice))
        }
        None => panic!("no operation"),
    }
}

pub fn measure() {
    let mut files = Vec::new();
    for (name, listing) in [
        ("the longest text", longest()),
        ("gates under a Bit", under_a_bit()),
        ("the listing of the most gates", most_gates()),
        ("the listing of the most wires", most_wires()),
    ] {
        let (bytes, text) = (listing.bytes(), print(&listing));
        files.push((
            format!("{name}, exported"),
            [&[EXPORT], &bytes[..]].concat(),
        ));
        files.push((format!("{name}, imported"), [&[IMPORT], &text[..]].concat()));
    }
    stack::measure(files, |named| {
        answer::pack(&match named[0] {
            EXPORT => qasm::export(&named[1..]),
            _ => qasm::import(&named[1..]),
        })
    });
}
