//! A reader of program files: each test of Read, in the order of its number,
//! over the whole file before the next.

use crate::entries::{Entries, Entry, Sizes};
use crate::gates::GATES;
use crate::kinds;
use crate::refusal::Refusal;
use crate::trees::{Term, Type, Wire};
use std::rc::Rc;

/// What an accepted file says.
#[derive(Clone, PartialEq, Eq, Debug)]
pub struct Accepted {
    pub sizes: Sizes,
    pub labels: Vec<Wire>,
    /// The type at each position, used or not.
    pub types: Vec<Rc<Type>>,
    pub term: Rc<Term>,
}

pub fn read(bytes: &[u8]) -> Result<Accepted, Refusal> {
    let entries = sections(bytes)?;
    test_kinds(&entries)?;
    test_arguments(&entries)?;
    test_types_end(&entries)?;
    let types = types_at(&entries);
    test_wire_types(&entries, &types)?;
    test_one_term(&entries)?;
    let term = term_of(&entries, &types);
    test_binders(&entries, &term)?;
    Ok(Accepted {
        sizes: entries.sizes(),
        labels: labels_of(&entries),
        types,
        term,
    })
}

fn refuse<T>(number: u8, place: usize) -> Result<T, Refusal> {
    Err(Refusal { number, place })
}

/// 1: under 6 bytes. 2: a size outside its range. 3: length is not 6 + 3E.
pub fn sections(bytes: &[u8]) -> Result<Entries, Refusal> {
    if bytes.len() < 6 {
        return refuse(1, 0);
    }
    let sizes = Sizes {
        labels: number_at(bytes, 0),
        types: number_at(bytes, 2),
        terms: number_at(bytes, 4),
    };
    if !sizes.in_range() {
        return refuse(2, 0);
    }
    let all = sizes.all();
    if bytes.len() != 6 + 3 * all {
        return refuse(3, 0);
    }
    let entry = |number: usize| Entry {
        kind: bytes[6 + number],
        argument: number_at(bytes, 6 + all + 2 * number) as u16,
    };
    Ok(Entries {
        labels: (0..sizes.labels).map(entry).collect(),
        types: (sizes.labels..sizes.first_term()).map(entry).collect(),
        terms: (sizes.first_term()..all).map(entry).collect(),
    })
}

/// 16 bits, low byte first.
fn number_at(bytes: &[u8], at: usize) -> usize {
    usize::from(bytes[at]) + 256 * usize::from(bytes[at + 1])
}

/// 4: a kind not of its section; first such entry.
pub fn test_kinds(entries: &Entries) -> Result<(), Refusal> {
    let labels = entries
        .labels
        .iter()
        .map(|entry| kinds::is_label_kind(entry.kind));
    let types = entries
        .types
        .iter()
        .map(|entry| kinds::type_parts(entry.kind).is_some());
    let terms = entries
        .terms
        .iter()
        .map(|entry| kinds::term_parts(entry.kind).is_some());
    match labels.chain(types).chain(terms).position(|fits| !fits) {
        Some(place) => refuse(4, place),
        None => Ok(()),
    }
}

/// 5: an argument not allowed; first entry. A variable's is no matter of this
/// test.
pub fn test_arguments(entries: &Entries) -> Result<(), Refusal> {
    let sizes = entries.sizes();
    let fits = |(number, entry): (usize, &Entry)| {
        let argument = usize::from(entry.argument);
        if number < sizes.first_term() {
            return argument == 0;
        }
        match entry.kind {
            kinds::VARIABLE => true,
            kinds::LABEL => argument < sizes.labels,
            kinds::GATE => argument < GATES.len(),
            kinds::ABSTRACTION | kinds::BOX => argument < sizes.types,
            _ => argument == 0,
        }
    };
    match entries.all().enumerate().position(|entry| !fits(entry)) {
        Some(place) => refuse(5, place),
        None => Ok(()),
    }
}

/// 6: the type at any position, used or not, runs out; first such entry.
pub fn test_types_end(entries: &Entries) -> Result<(), Refusal> {
    let mut positions = 0..entries.types.len();
    match positions.find(|&at| type_end(entries, at).is_none()) {
        Some(at) => refuse(6, entries.labels.len() + at),
        None => Ok(()),
    }
}

/// Where the type at a position ends, read in preorder from there; none if it
/// runs out.
pub fn type_end(entries: &Entries, at: usize) -> Option<usize> {
    let mut wanted = 1;
    let mut at = at;
    while wanted > 0 {
        let entry = entries.types.get(at)?;
        wanted = wanted - 1 + kinds::type_parts(entry.kind)?;
        at += 1;
    }
    Some(at)
}

/// The type at each position, where none runs out.
pub fn types_at(entries: &Entries) -> Vec<Rc<Type>> {
    let count = entries.types.len();
    let bit = Rc::new(Type::Bit);
    let mut types = vec![bit; count];
    for at in (0..count).rev() {
        let first = || types[at + 1].clone();
        let second = || types[type_end(entries, at + 1).expect("no type runs out")].clone();
        let here = match entries.types[at].kind {
            kinds::BIT => Type::Bit,
            kinds::QUBIT => Type::Qubit,
            kinds::PAIR_TYPE => Type::Pair(first(), second()),
            kinds::FUNCTION => Type::Function(first(), second()),
            kinds::REUSABLE => Type::Reusable(first()),
            kinds::CIRCUIT => Type::Circuit(first(), second()),
            kinds::UNIT => Type::Unit,
            kind => unreachable!("kind {kind} in the type section"),
        };
        types[at] = Rc::new(here);
    }
    types
}

/// 7: a Circ or box with a part or type that is no wire type; first entry.
pub fn test_wire_types(entries: &Entries, types: &[Rc<Type>]) -> Result<(), Refusal> {
    for (at, here) in types.iter().enumerate() {
        if let Type::Circuit(from, to) = here.as_ref() {
            if !from.is_wire_type() || !to.is_wire_type() {
                return refuse(7, entries.labels.len() + at);
            }
        }
    }
    for (at, entry) in entries.terms.iter().enumerate() {
        if entry.kind == kinds::BOX && !types[usize::from(entry.argument)].is_wire_type() {
            return refuse(7, entries.sizes().first_term() + at);
        }
    }
    Ok(())
}

/// 8: the term section is not one whole term; place E if it runs out, else the
/// first entry left over.
pub fn test_one_term(entries: &Entries) -> Result<(), Refusal> {
    let mut wanted = 1;
    for (at, entry) in entries.terms.iter().enumerate() {
        if wanted == 0 {
            return refuse(8, entries.sizes().first_term() + at);
        }
        wanted = wanted - 1 + kinds::term_parts(entry.kind).expect("a kind of the term section");
    }
    if wanted > 0 {
        return refuse(8, entries.sizes().all());
    }
    Ok(())
}

/// The term, where the section is one whole term.
pub fn term_of(entries: &Entries, types: &[Rc<Type>]) -> Rc<Term> {
    // From the last entry to the first, each takes its parts off the pile.
    let mut pile: Vec<Rc<Term>> = Vec::new();
    for entry in entries.terms.iter().rev() {
        let mut part = || pile.pop().expect("one whole term");
        let over = || types[usize::from(entry.argument)].clone();
        let here = match entry.kind {
            kinds::VARIABLE => Term::Variable(entry.argument),
            kinds::LABEL => Term::Label(entry.argument),
            kinds::GATE => Term::Gate(entry.argument),
            kinds::ABSTRACTION => Term::Abstraction(over(), part()),
            kinds::APPLICATION => Term::Application(part(), part()),
            kinds::PAIR => Term::Pair(part(), part()),
            kinds::LET => Term::Let(part(), part()),
            kinds::LIFT => Term::Lift(part()),
            kinds::FORCE => Term::Force(part()),
            kinds::BOX => Term::Box(over(), part()),
            kinds::APPLY => Term::Apply(part(), part()),
            kinds::UNIT_VALUE => Term::UnitValue,
            kind => unreachable!("kind {kind} in the term section"),
        };
        pile.push(Rc::new(here));
    }
    let term = pile.pop().expect("one whole term");
    assert!(pile.is_empty(), "one whole term");
    term
}

/// 9: a variable with no binder; first entry.
pub fn test_binders(entries: &Entries, term: &Term) -> Result<(), Refusal> {
    let mut next = entries.sizes().first_term();
    match unbound(term, 0, &mut next) {
        Some(place) => refuse(9, place),
        None => Ok(()),
    }
}

/// The first variable with no binder, under so many binders; `next` is the
/// entry number of the term, and then of what follows it.
fn unbound(term: &Term, binders: usize, next: &mut usize) -> Option<usize> {
    let here = *next;
    *next += 1;
    match term {
        Term::Variable(argument) => (usize::from(*argument) >= binders).then_some(here),
        Term::Label(_) | Term::Gate(_) | Term::UnitValue => None,
        Term::Abstraction(_, body) => unbound(body, binders + 1, next),
        Term::Lift(part) | Term::Force(part) | Term::Box(_, part) => unbound(part, binders, next),
        Term::Let(first, second) => {
            unbound(first, binders, next).or_else(|| unbound(second, binders + 2, next))
        }
        Term::Application(first, second)
        | Term::Pair(first, second)
        | Term::Apply(first, second) => {
            unbound(first, binders, next).or_else(|| unbound(second, binders, next))
        }
    }
}

fn labels_of(entries: &Entries) -> Vec<Wire> {
    entries
        .labels
        .iter()
        .map(|entry| match entry.kind {
            kinds::BIT => Wire::Bit,
            _ => Wire::Qubit,
        })
        .collect()
}
