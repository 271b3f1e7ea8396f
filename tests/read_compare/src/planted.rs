//! Readers with one fault each. The comparison must tell every one of them
//! from the exported reader.

use program_files::entries::{Entries, Entry};
use program_files::kinds;
use program_files::read::{
    read, sections, term_of, test_arguments, test_binders, test_kinds, test_one_term,
    test_types_end, test_wire_types, type_end, types_at,
};
use program_files::{Refusal, Sizes, Term, GATES};

pub type Reader = fn(&[u8]) -> Result<Sizes, Refusal>;

pub const PLANTED: [(&str, Reader); 22] = [
    ("test 5 before test 4", arguments_first),
    ("tests 4 and 5 in one pass", one_pass),
    ("test 7 before test 6", wire_types_first),
    ("test 9 before test 8", binders_first),
    ("boxes before Circ in test 7", boxes_first),
    ("unused type positions not tested", unused_untested),
    ("place of a left over entry one too large", left_over_past),
    (
        "place one too small where the term runs out",
        runs_out_before,
    ),
    ("a longer file read", longer_read),
    ("N 2,048 outside its range", most_terms_refused),
    ("gate 12 allowed", |file| with_gate(file, 12, 0)),
    ("gate 11 refused", |file| with_gate(file, 11, NO_GATE)),
    ("gate 10 refused", |file| with_gate(file, 10, NO_GATE)),
    ("unit's value with argument 1 allowed", |file| {
        changed(file, |entries| {
            for entry in of_kind(&mut entries.terms, kinds::UNIT_VALUE) {
                entry.argument -= u16::from(entry.argument == 1);
            }
        })
    }),
    ("term kind 28 taken for unit's value", |file| {
        changed(file, |entries| {
            for entry in of_kind(&mut entries.terms, kinds::UNIT_VALUE + 1) {
                entry.kind = kinds::UNIT_VALUE;
            }
        })
    }),
    ("type kind 7 taken for unit", |file| {
        changed(file, |entries| {
            for entry in of_kind(&mut entries.types, kinds::UNIT + 1) {
                entry.kind = kinds::UNIT;
            }
        })
    }),
    ("kind 6 among the labels", |file| {
        changed(file, |entries| {
            for entry in of_kind(&mut entries.labels, kinds::UNIT) {
                entry.kind = kinds::BIT;
            }
        })
    }),
    ("unit is no wire type in a Circ", |file| {
        without_units(file, false)
    }),
    ("unit is no wire type of a box", |file| {
        without_units(file, true)
    }),
    ("let binds one", let_binds_one),
    ("let binds in its first part", let_binds_in_first),
    ("the last variable with no binder", last_unbound),
];

/// The first number that is no gate's.
const NO_GATE: u16 = GATES.len() as u16;

/// The answer for a file in which one gate is taken for another.
fn with_gate(file: &[u8], number: u16, other: u16) -> Result<Sizes, Refusal> {
    let mut entries = sections(file)?;
    for entry in of_kind(&mut entries.terms, kinds::GATE) {
        if entry.argument == number {
            entry.argument = other;
        }
    }
    plain(&entries.bytes())
}

fn plain(file: &[u8]) -> Result<Sizes, Refusal> {
    read(file).map(|accepted| accepted.sizes)
}

fn refuse(number: u8, place: usize) -> Result<Sizes, Refusal> {
    Err(Refusal { number, place })
}

fn from_6(entries: &Entries) -> Result<Sizes, Refusal> {
    test_types_end(entries)?;
    let types = types_at(entries);
    test_wire_types(entries, &types)?;
    test_one_term(entries)?;
    test_binders(entries, &term_of(entries, &types))?;
    Ok(entries.sizes())
}

fn arguments_first(file: &[u8]) -> Result<Sizes, Refusal> {
    let entries = sections(file)?;
    test_arguments(&entries)?;
    test_kinds(&entries)?;
    from_6(&entries)
}

fn one_pass(file: &[u8]) -> Result<Sizes, Refusal> {
    let entries = sections(file)?;
    match (test_kinds(&entries), test_arguments(&entries)) {
        (Err(kind), Err(argument)) if argument.place < kind.place => Err(argument),
        (Err(kind), _) => Err(kind),
        (_, Err(argument)) => Err(argument),
        _ => from_6(&entries),
    }
}

fn wire_types_first(file: &[u8]) -> Result<Sizes, Refusal> {
    let answer = plain(file);
    let Err(Refusal { number: 6, .. }) = answer else {
        return answer;
    };
    let entries = sections(file)?;
    let wires = |from: usize, to: usize| {
        let mut range = entries.types[from..to].iter();
        range.all(|entry| kinds::is_in_wire_types(entry.kind))
    };
    for (at, entry) in entries.types.iter().enumerate() {
        if entry.kind == kinds::CIRCUIT
            && type_end(&entries, at).is_some_and(|end| !wires(at + 1, end))
        {
            return refuse(7, entries.labels.len() + at);
        }
    }
    answer
}

fn binders_first(file: &[u8]) -> Result<Sizes, Refusal> {
    let answer = plain(file);
    let Err(Refusal { number: 8, place }) = answer else {
        return answer;
    };
    let mut entries = sections(file)?;
    let first = entries.sizes().first_term();
    if place == entries.sizes().all() {
        return answer;
    }
    // The whole term before the entries left over.
    entries.terms.truncate(place - first);
    let term = term_of(&entries, &types_at(&entries));
    test_binders(&entries, &term)?;
    answer
}

fn boxes_first(file: &[u8]) -> Result<Sizes, Refusal> {
    let answer = plain(file);
    let Err(Refusal { number: 7, .. }) = answer else {
        return answer;
    };
    let entries = sections(file)?;
    let types = types_at(&entries);
    for (at, entry) in entries.terms.iter().enumerate() {
        if entry.kind == kinds::BOX && !types[usize::from(entry.argument)].is_wire_type() {
            return refuse(7, entries.sizes().first_term() + at);
        }
    }
    answer
}

fn unused_untested(file: &[u8]) -> Result<Sizes, Refusal> {
    let answer = plain(file);
    let Err(Refusal { number: 6, .. }) = answer else {
        return answer;
    };
    let entries = sections(file)?;
    let runs_out = entries.terms.iter().any(|entry| {
        matches!(entry.kind, kinds::ABSTRACTION | kinds::BOX)
            && type_end(&entries, usize::from(entry.argument)).is_none()
    });
    if runs_out {
        answer
    } else {
        Ok(entries.sizes())
    }
}

fn left_over_past(file: &[u8]) -> Result<Sizes, Refusal> {
    match plain(file) {
        Err(Refusal { number: 8, place }) if place < sections(file)?.sizes().all() => {
            refuse(8, place + 1)
        }
        answer => answer,
    }
}

fn runs_out_before(file: &[u8]) -> Result<Sizes, Refusal> {
    match plain(file) {
        Err(Refusal { number: 8, place }) if place == sections(file)?.sizes().all() => {
            refuse(8, place - 1)
        }
        answer => answer,
    }
}

fn longer_read(file: &[u8]) -> Result<Sizes, Refusal> {
    match plain(file) {
        Err(Refusal { number: 3, place }) => {
            let size = |at: usize| usize::from(file[at]) + 256 * usize::from(file[at + 1]);
            let length = 6 + 3 * (size(0) + size(2) + size(4));
            match file.get(..length) {
                Some(shorter) => plain(shorter),
                None => refuse(3, place),
            }
        }
        answer => answer,
    }
}

fn most_terms_refused(file: &[u8]) -> Result<Sizes, Refusal> {
    match file {
        [_, _, _, _, 0, 8, ..] => refuse(2, 0),
        _ => plain(file),
    }
}

/// The answer for a file whose entries are changed.
fn changed(file: &[u8], change: fn(&mut Entries)) -> Result<Sizes, Refusal> {
    let mut entries = sections(file)?;
    change(&mut entries);
    plain(&entries.bytes())
}

fn of_kind(entries: &mut [Entry], kind: u8) -> impl Iterator<Item = &mut Entry> {
    entries.iter_mut().filter(move |entry| entry.kind == kind)
}

/// Test 7 by which a type with unit inside is no wire type of a box, or none as a
/// part of a Circ.
fn without_units(file: &[u8], of_boxes: bool) -> Result<Sizes, Refusal> {
    let answer = plain(file);
    if matches!(answer, Err(Refusal { number: ..7, .. })) {
        return answer;
    }
    let entries = sections(file)?;
    let types = types_at(&entries);
    let has_unit = |at: usize| types[at].preorder().contains(&kinds::UNIT);
    let sizes = entries.sizes();
    let circuits = (0..sizes.types).filter(|&at| entries.types[at].kind == kinds::CIRCUIT);
    let circuits = circuits
        .filter(|&at| has_unit(at))
        .map(|at| sizes.labels + at);
    let boxes = (0..sizes.terms).filter(|&at| {
        let Entry { kind, argument } = entries.terms[at];
        kind == kinds::BOX && has_unit(usize::from(argument))
    });
    let boxes = boxes.map(|at| sizes.first_term() + at);
    let wrong = if of_boxes {
        boxes.min()
    } else {
        circuits.min()
    };
    match (wrong, answer) {
        (
            Some(place),
            Err(Refusal {
                number: 7,
                place: other,
            }),
        ) => refuse(7, place.min(other)),
        (Some(place), _) => refuse(7, place),
        (None, answer) => answer,
    }
}

fn let_binds_one(file: &[u8]) -> Result<Sizes, Refusal> {
    with_unbound(file, 0, 1, |unbound| unbound.first())
}

fn let_binds_in_first(file: &[u8]) -> Result<Sizes, Refusal> {
    with_unbound(file, 2, 2, |unbound| unbound.first())
}

fn last_unbound(file: &[u8]) -> Result<Sizes, Refusal> {
    with_unbound(file, 0, 2, |unbound| unbound.last())
}

/// Test 9 with so many binders of let in its first and in its second part, and
/// with this choice among the variables with no binder.
fn with_unbound(
    file: &[u8],
    in_first: usize,
    in_second: usize,
    choose: fn(&[usize]) -> Option<&usize>,
) -> Result<Sizes, Refusal> {
    match plain(file) {
        Err(refusal) if refusal.number != 9 => Err(refusal),
        _ => {
            let entries = sections(file)?;
            let term = term_of(&entries, &types_at(&entries));
            let mut walk = Walk {
                in_first,
                in_second,
                next: entries.sizes().first_term(),
                unbound: Vec::new(),
            };
            walk.term(&term, 0);
            match choose(&walk.unbound) {
                Some(&place) => refuse(9, place),
                None => Ok(entries.sizes()),
            }
        }
    }
}

struct Walk {
    in_first: usize,
    in_second: usize,
    next: usize,
    unbound: Vec<usize>,
}

impl Walk {
    fn term(&mut self, term: &Term, binders: usize) {
        let here = self.next;
        self.next += 1;
        match term {
            Term::Variable(argument) => {
                if usize::from(*argument) >= binders {
                    self.unbound.push(here);
                }
            }
            Term::Abstraction(_, body) => self.term(body, binders + 1),
            Term::Let(first, second) => {
                self.term(first, binders + self.in_first);
                self.term(second, binders + self.in_second);
            }
            other => {
                for part in other.parts() {
                    self.term(part, binders);
                }
            }
        }
    }
}
