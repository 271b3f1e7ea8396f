//! The least stack on which the check under test takes the longest listings.

use comparing::stack;
use listing_compare::under_test::{self, LEAST_WORK};
use listings::{answer, cases, counting};

/// The check under test with working memory of the least length.
pub fn call(listing: &[u8]) -> u64 {
    under_test::answer(listing, &mut [0; LEAST_WORK])
}

pub fn measure() {
    let listings = [
        ("the longest accepted listing", cases::longest_accepted()),
        ("the listing of the most wires", cases::most_wires()),
        ("the longest listing", cases::longest()),
    ];
    let files = listings.map(|(name, listing)| (name.to_string(), listing.bytes()));
    stack::measure(files.to_vec(), |listing| {
        answer::pack(&counting::check(listing))
    });
}
