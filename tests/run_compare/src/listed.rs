//! Whether the check of listings accepts what a run writes.

use evaluator::circuits::wires;
use evaluator::Prepared;
use listing_compare::under_test::{self, LEAST_WORK};
use listings::{answer, Sizes};

/// The check answers the sizes of a run's listing with so many gates, and leaves
/// its working memory zero.
pub fn check(listing: &[u8], prepared: &Prepared, gates: usize) -> Result<(), String> {
    let sizes = Sizes {
        inputs: prepared.labels.len(),
        gates,
        outputs: wires(&prepared.of).len(),
    };
    let mut work = [0xA5; LEAST_WORK];
    let (is, should) = (
        under_test::answer(listing, &mut work),
        answer::pack(&Ok(sizes)),
    );
    if is != should {
        let [is, should] = [is, should].map(answer::in_words);
        return Err(format!("its listing: {is}, expected {should}"));
    }
    match work.iter().position(|&byte| byte != 0) {
        Some(at) => Err(format!("its listing leaves byte {at} of working memory")),
        None => Ok(()),
    }
}
