//! Listings written by hand, with their answers.

use crate::compare::Comparison;
use comparing::cases::{self as programs, LIMITS};
use comparing::Known;
use listings::{cases, CompareListings, Sizes};

pub fn compare(comparison: &mut Comparison) {
    comparison.group("written by hand");
    for case in cases::all() {
        comparison.case(&case);
    }
    comparison.group("of the cases that run");
    for program in programs::all() {
        for limit in LIMITS {
            if let Ok(finished) = program.run(limit) {
                let bytes = finished.listing.bytes;
                comparison.listing(bytes, &Known::Accepted);
                let gates = Sizes::of_bytes(bytes).map(|sizes| sizes.gates);
                assert_eq!(gates, Some(finished.listing.gates), "{}", program.name);
            }
        }
    }
}
