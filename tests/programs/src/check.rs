//! The check of a program file.

use crate::rules::{verdict, Sharing};
use crate::search::search;
use crate::survey::Survey;
use program_files::{read, Accepted, Refusal, Type};
use std::rc::Rc;

/// The type, or the refusal with the first place in file order.
pub type Answer = Result<Rc<Type>, Refusal>;

/// A check first reads.
pub fn check(file: &[u8]) -> Answer {
    check_read(&read(file)?).0
}

/// The check of what has been read, and the survey of its nodes. Type and
/// number are those of the derivations; the place is that of the search, which
/// must agree with them.
pub fn check_read(read: &Accepted) -> (Answer, Survey) {
    let derived = verdict(&read.labels, &read.term, Sharing::Free);
    let survey = Survey::new(&read.labels, &read.term);
    let found = search(&survey, read.labels.len(), read.sizes.first_term());
    assert!(
        agree(&derived, &found),
        "the derivations say {derived:?}, the search says {found:?}"
    );
    (found, survey)
}

/// Whether a verdict has the answer's type or number.
pub fn agree(verdict: &Result<Rc<Type>, u8>, answer: &Answer) -> bool {
    match (verdict, answer) {
        (Ok(of), Ok(other)) => of == other,
        (Err(number), Err(refusal)) => *number == refusal.number,
        _ => false,
    }
}
