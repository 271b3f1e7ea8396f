//! What is compared of two answers, and answers with a fault in them.

use evaluator::Answer;

/// A fault in the gates counted or in the listing of a run.
pub type Fault = fn(&mut usize, &mut Vec<u8>);

pub const FAULTS: [(&str, Fault); 6] = [
    ("another first byte", |_, listing| listing[0] ^= 1),
    ("another byte in the middle", |_, listing| {
        let middle = listing.len() / 2;
        listing[middle] ^= 1;
    }),
    ("another last byte", |_, listing| {
        let last = listing.len() - 1;
        listing[last] ^= 1;
    }),
    ("a byte more", |_, listing| listing.push(0)),
    ("a byte fewer", |_, listing| {
        listing.pop();
    }),
    ("a gate more counted", |gates, _| *gates += 1),
];

/// The answer of a finished run with this fault.
pub fn with_fault(answer: &Answer, fault: Fault) -> Answer {
    let mut answer = answer.clone();
    if let Answer::Finished { gates, listing, .. } = &mut answer {
        fault(gates, listing);
    }
    answer
}

/// Whether both list the same gates, in every byte; none if one is not finished.
pub fn same_listing(first: &Answer, second: &Answer) -> Option<bool> {
    match (first, second) {
        (
            Answer::Finished { gates, listing, .. },
            Answer::Finished {
                gates: other_gates,
                listing: other_listing,
                ..
            },
        ) => Some(gates == other_gates && listing == other_listing),
        _ => None,
    }
}

/// Whether both are finished and list different gates.
pub fn told_apart(first: &Answer, second: &Answer) -> bool {
    same_listing(first, second) == Some(false)
}

/// The steps of a finished run.
pub fn steps(answer: &Answer) -> u32 {
    match answer {
        Answer::Finished { steps, .. } => *steps,
        Answer::Refused(refusal) => unreachable!("{refusal:?}"),
    }
}

/// 0, or the number of the refusal.
pub fn number(answer: &Answer) -> u8 {
    match answer {
        Answer::Finished { .. } => 0,
        Answer::Refused(refusal) => refusal.number,
    }
}

/// The bytes of the listing, none if the run is not finished.
pub fn length(answer: &Answer) -> usize {
    match answer {
        Answer::Finished { listing, .. } => listing.len(),
        Answer::Refused(_) => 0,
    }
}
