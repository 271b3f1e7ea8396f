//! Faults put into accepted files, one for each refusal.
//!
//! Each function breaks the file so that its test refuses it, if the tests
//! before do not, and answers the place where that is known. They are applied
//! from the highest number to the lowest: a fault of a higher number leaves
//! the tests of lower numbers passed.

use crate::random::Random;
use pqm::entries::{Entries, Entry, MOST_TERMS, MOST_TYPES};
use pqm::gates::GATES;
use pqm::kinds;

/// A file with faults, and what it must give.
#[derive(Clone, PartialEq, Eq, Debug)]
pub struct Broken {
    pub bytes: Vec<u8>,
    pub number: u8,
    /// None where it is not known.
    pub place: Option<usize>,
}

/// The file with a fault of each number, ascending and at least one; none if
/// one of the faults has no room in this file.
pub fn broken(mut entries: Entries, numbers: &[u8], random: &mut Random) -> Option<Broken> {
    let mut place = None;
    for &number in numbers.iter().rev().filter(|&&number| number >= 4) {
        place = match number {
            4 => Some(wrong_kind(&mut entries, random)),
            5 => Some(wrong_argument(&mut entries, random)?),
            6 => Some(type_runs_out(&mut entries, random)?),
            7 => Some(no_wire_type(&mut entries, random)?),
            8 => not_one_term(&mut entries, random)?,
            _ => Some(no_binder(&mut entries, random)?),
        };
    }
    let mut bytes = entries.bytes();
    for &number in numbers.iter().rev().filter(|&&number| number < 4) {
        match number {
            3 => wrong_length(&mut bytes, random),
            2 => wrong_size(&mut bytes, random),
            _ => bytes.truncate(random.below(6)),
        }
        place = Some(0);
    }
    Some(Broken {
        bytes,
        number: numbers[0],
        place,
    })
}

fn wrong_length(bytes: &mut Vec<u8>, random: &mut Random) {
    let length = bytes.len();
    let wrong = match random.below(8) {
        0 => random.between(6, length - 1),
        1 => length + 256 * random.between(1, 8),
        2 if random.one_in(16) => length + 65_536,
        3 | 4 => length - random.between(1, 3),
        _ => length + random.between(1, 3),
    };
    bytes.resize_with(wrong, || random.byte());
}

fn wrong_size(bytes: &mut [u8], random: &mut Random) {
    let (at, wrong) = match random.below(4) {
        0 => (0, past(65, random)),
        1 => (2, past(513, random)),
        2 => (4, past(2_049, random)),
        _ => (4, 0),
    };
    bytes[at..at + 2].copy_from_slice(&wrong.to_le_bytes());
}

/// The bound or a number past it.
fn past(bound: u16, random: &mut Random) -> u16 {
    match random.below(6) {
        0 | 1 => bound,
        2 => bound + 1,
        3 => bound | 0x8000,
        4 => u16::MAX,
        _ => random.between(usize::from(bound), 65_535) as u16,
    }
}

/// 4: a kind of another section, or of none.
fn wrong_kind(entries: &mut Entries, random: &mut Random) -> usize {
    let sizes = entries.sizes();
    let fits = |section: usize, kind: u8| match section {
        0 => kinds::is_label_kind(kind),
        1 => kinds::type_parts(kind).is_some(),
        _ => kinds::term_parts(kind).is_some(),
    };
    loop {
        let section = random.below(3);
        let (from, list) = match section {
            0 => (0, &mut entries.labels),
            1 => (sizes.labels, &mut entries.types),
            _ => (sizes.first_term(), &mut entries.terms),
        };
        let kind = match random.below(4) {
            0 => random.byte(),
            1 => random.between(0, 7) as u8,
            2 => random.between(15, 28) as u8,
            _ => random.pick(&[1, 2, 5, 6, 7, 15, 16, 26, 27, 28, 128, 255]),
        };
        if !list.is_empty() && !fits(section, kind) {
            let at = random.below(list.len());
            list[at].kind = kind;
            return from + at;
        }
    }
}

/// 5: an argument past its bound, mostly by one.
fn wrong_argument(entries: &mut Entries, random: &mut Random) -> Option<usize> {
    let sizes = entries.sizes();
    let place = match random.below(3) {
        0 => random.below(sizes.all()),
        _ => random.between(sizes.first_term(), sizes.all() - 1),
    };
    let all = entries
        .labels
        .iter_mut()
        .chain(&mut entries.types)
        .chain(&mut entries.terms);
    let entry = all.into_iter().nth(place)?;
    let bound = if place < sizes.first_term() {
        1
    } else {
        match entry.kind {
            kinds::VARIABLE => return None,
            kinds::LABEL => sizes.labels,
            kinds::GATE => GATES.len(),
            kinds::ABSTRACTION | kinds::BOX => sizes.types,
            _ => 1,
        }
    };
    let bound = u16::try_from(bound).expect("16 bits");
    entry.argument = match random.below(3) {
        0 => bound.max(256 * random.between(1, 255) as u16),
        _ => past(bound, random),
    };
    Some(place)
}

/// 6: a leaf of the section's last type gets parts, or is taken away.
fn type_runs_out(entries: &mut Entries, random: &mut Random) -> Option<usize> {
    let count = entries.types.len();
    let mut start = 0;
    while skip_type(&entries.types, start)? < count {
        start = skip_type(&entries.types, start)?;
    }
    let used = |position: usize| {
        entries.terms.iter().any(|entry| {
            matches!(entry.kind, kinds::ABSTRACTION | kinds::BOX)
                && usize::from(entry.argument) == position
        })
    };
    if random.one_in(2) && start + 1 < count && !used(count - 1) {
        entries.types.pop();
    } else {
        let leaves: Vec<usize> = (start..count)
            .filter(|&at| kinds::type_parts(entries.types[at].kind) == Some(0))
            .collect();
        entries.types[random.pick(&leaves)].kind = random.pick(&kinds::TYPES_WITH_PARTS);
    }
    Some(entries.labels.len() + start)
}

/// Where the type at a position ends.
fn skip_type(types: &[Entry], at: usize) -> Option<usize> {
    let mut end = at + 1;
    for _ in 0..kinds::type_parts(types.get(at)?.kind)? {
        end = skip_type(types, end)?;
    }
    Some(end)
}

/// 7: a Circ or a box gets something that is no wire type.
fn no_wire_type(entries: &mut Entries, random: &mut Random) -> Option<usize> {
    let sizes = entries.sizes();
    let ends: Vec<usize> = (0..sizes.types)
        .map(|at| skip_type(&entries.types, at))
        .collect::<Option<_>>()?;
    let kind = |at: usize| entries.types[at].kind;
    let is_wire = |at: usize| (at..ends[at]).all(|inner| kinds::is_in_wire_types(kind(inner)));
    let positions = |fits: &dyn Fn(usize) -> bool| -> Vec<usize> {
        (0..sizes.types).filter(|&at| fits(at)).collect()
    };
    match random.below(4) {
        // A pair inside a Circ becomes a function.
        0 => {
            let circuits = positions(&|at| kind(at) == kinds::CIRCUIT && ends[at] - at > 3);
            let circuit = some_of(&circuits, random)?;
            let pairs: Vec<usize> = (circuit + 1..ends[circuit])
                .filter(|&at| kind(at) == kinds::PAIR_TYPE)
                .collect();
            let pair = some_of(&pairs, random)?;
            entries.types[pair].kind = kinds::FUNCTION;
            Some(sizes.labels + circuit)
        }
        // A leaf inside a Circ becomes reusable.
        1 => {
            let circuit = some_of(&positions(&|at| kind(at) == kinds::CIRCUIT), random)?;
            let leaves: Vec<usize> = (circuit + 1..ends[circuit])
                .filter(|&at| kinds::type_parts(kind(at)) == Some(0))
                .collect();
            let leaf = some_of(&leaves, random)?;
            if sizes.types == MOST_TYPES {
                return None;
            }
            entries.types.insert(leaf, Entry::new(kinds::REUSABLE, 0));
            for entry in &mut entries.terms {
                if matches!(entry.kind, kinds::ABSTRACTION | kinds::BOX)
                    && usize::from(entry.argument) >= leaf
                {
                    entry.argument += 1;
                }
            }
            Some(sizes.labels + circuit)
        }
        // A pair or function with a part that is no wire type becomes a Circ.
        2 => {
            let fitting = positions(&|at| {
                matches!(kind(at), kinds::PAIR_TYPE | kinds::FUNCTION)
                    && !(is_wire(at + 1) && is_wire(ends[at + 1]))
            });
            let at = some_of(&fitting, random)?;
            entries.types[at].kind = kinds::CIRCUIT;
            Some(sizes.labels + at)
        }
        // A box gets another type.
        _ => {
            let position = some_of(&positions(&|at| !is_wire(at)), random)?;
            let boxes: Vec<usize> = (0..sizes.terms)
                .filter(|&at| entries.terms[at].kind == kinds::BOX)
                .collect();
            let at = some_of(&boxes, random)?;
            entries.terms[at].argument = u16::try_from(position).expect("16 bits");
            Some(sizes.first_term() + at)
        }
    }
}

fn some_of(among: &[usize], random: &mut Random) -> Option<usize> {
    (!among.is_empty()).then(|| random.pick(among))
}

/// 8: entries left over or missing. The place is not known where an entry
/// with parts becomes one with none.
fn not_one_term(entries: &mut Entries, random: &mut Random) -> Option<Option<usize>> {
    let sizes = entries.sizes();
    let leaves: Vec<usize> = (0..sizes.terms)
        .filter(|&at| kinds::term_parts(entries.terms[at].kind) == Some(0))
        .collect();
    match random.below(4) {
        0 => {
            let more = random.between(1, 4);
            if sizes.terms + more > MOST_TERMS {
                return None;
            }
            for _ in 0..more {
                let kind = random.pick(&[
                    kinds::VARIABLE,
                    kinds::GATE,
                    kinds::UNIT_VALUE,
                    kinds::LIFT,
                    kinds::LET,
                    kinds::PAIR,
                ]);
                entries.terms.push(Entry::new(kind, 0));
            }
            Some(Some(sizes.all()))
        }
        1 => {
            if sizes.terms == 1 {
                return None;
            }
            let fewer = random.between(1, 3.min(sizes.terms - 1));
            entries.terms.truncate(sizes.terms - fewer);
            Some(Some(entries.sizes().all()))
        }
        2 => {
            let kind = random.pick(&[
                kinds::APPLICATION,
                kinds::PAIR,
                kinds::LET,
                kinds::LIFT,
                kinds::FORCE,
                kinds::APPLY,
            ]);
            entries.terms[some_of(&leaves, random)?] = Entry::new(kind, 0);
            Some(Some(sizes.all()))
        }
        _ => {
            let inner: Vec<usize> = (0..sizes.terms).filter(|at| !leaves.contains(at)).collect();
            let kind = random.pick(&[kinds::GATE, kinds::UNIT_VALUE]);
            entries.terms[some_of(&inner, random)?] = Entry::new(kind, 0);
            Some(None)
        }
    }
}

/// 9: a variable whose argument is the number of binders around it, mostly.
fn no_binder(entries: &mut Entries, random: &mut Random) -> Option<usize> {
    let mut binders = Vec::new();
    count_binders(&entries.terms, 0, &mut binders)?;
    let leaves: Vec<usize> = (0..entries.terms.len())
        .filter(|&at| kinds::term_parts(entries.terms[at].kind) == Some(0))
        .collect();
    let at = some_of(&leaves, random)?;
    let exactly = u16::try_from(binders[at]).expect("16 bits");
    let argument = match random.below(4) {
        0 => past(exactly, random),
        _ => exactly,
    };
    entries.terms[at] = Entry::new(kinds::VARIABLE, argument);
    Some(entries.sizes().first_term() + at)
}

/// The number of binders around each entry of the term that starts where the
/// list ends.
fn count_binders(terms: &[Entry], around: usize, binders: &mut Vec<usize>) -> Option<()> {
    let kind = terms.get(binders.len())?.kind;
    binders.push(around);
    for part in 0..kinds::term_parts(kind)? {
        let bound = match (kind, part) {
            (kinds::ABSTRACTION, 0) => 1,
            (kinds::LET, 1) => 2,
            _ => 0,
        };
        count_binders(terms, around + bound, binders)?;
    }
    Some(())
}
