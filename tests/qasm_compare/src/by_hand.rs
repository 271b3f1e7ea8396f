//! The tables of cases, and the listings of the examples.

use crate::compare::Comparison;
use comparing::cases::{self as programs, LIMITS};
use comparing::Known;
use example_programs::examples;
use listings::{Listing, Sizes};
use qasm::answer::first_helper;
use qasm::cases::{exports, same_programs, texts, wordless, wrong_programs};
use qasm::cases::{longest, under_a_bit, LONGEST, UNDER_A_BIT};
use qasm::{grammar, parse, CompareTexts};

pub fn compare(comparison: &mut Comparison) {
    for program in wrong_programs() {
        assert!(grammar::read(program.as_bytes()).is_err(), "{program}");
    }
    let [plain, other] = same_programs().map(|program| grammar::read(program.as_bytes()));
    assert!(plain.is_ok() && plain == other, "{plain:?} and {other:?}");
    comparison.group("written by hand");
    for case in exports() {
        let text = comparison.accepted(&case.listing);
        let text = String::from_utf8(text).expect("a text");
        assert_eq!(text, case.text, "the text of {}", case.name);
    }
    for case in wordless() {
        let known = Known::Refused(28, case.place);
        comparison.listing(&case.listing.bytes(), &known);
        assert_eq!(
            first_helper(&case.listing),
            Some(case.place),
            "{}",
            case.name
        );
    }
    for case in listings::cases::all() {
        match case.answer {
            Ok(sizes) => comparison.sound(&Listing::of_bytes(&sizes, &case.bytes)),
            Err(refusal) => comparison.listing(&case.bytes, &Known::refused(refusal)),
        }
    }
    for case in texts() {
        assert_eq!(parse(&case.text), None, "{}", case.name);
        comparison.text(&case.text, &Known::Refused(27, 0));
    }
    for (listing, length) in [(longest(), LONGEST), (under_a_bit(), UNDER_A_BIT)] {
        let text = comparison.accepted(&listing);
        assert_eq!(text.len(), length, "the length of a long text");
    }
    comparison.group("of the cases and examples that run");
    for program in programs::all() {
        for limit in LIMITS {
            if let Ok(finished) = program.run(limit) {
                comparison.sound(&parts(finished.listing.bytes));
            }
        }
    }
    for example in examples() {
        comparison.sound(&parts(&example.listing));
    }
}

/// The parts of a listing that is accepted.
fn parts(bytes: &[u8]) -> Listing {
    let sizes = Sizes::of_bytes(bytes).expect("sizes");
    Listing::of_bytes(&sizes, bytes)
}
