//! From a program to the entries of its file.

use crate::entries::{Entries, Entry};
use crate::kinds;
use crate::trees::{Program, Term, Type, Wire};
use std::collections::HashMap;
use std::rc::Rc;

/// Which type position an abstraction or a box gets.
pub enum Positions<'a> {
    /// Its type is written anew at the section's end.
    Fresh,
    /// The first position that already has its type, inner positions
    /// included; written anew if there is none.
    First,
    /// One of the positions that already have its type; written anew if there
    /// is none.
    Any(&'a mut dyn FnMut(&[usize]) -> usize),
}

impl Program {
    /// Its file, for sizes in range.
    pub fn bytes(&self) -> Vec<u8> {
        let entries = encode(self, Positions::First);
        entries.expect("sizes in range").bytes()
    }
}

/// The entries of the program's file; none if a size is outside its range.
pub fn encode(program: &Program, positions: Positions) -> Option<Entries> {
    let mut section = TypeSection::new(positions);
    for listed in &program.listed {
        section.write(listed);
    }
    let mut terms = Vec::new();
    write_term(&program.term, &mut section, &mut terms);
    let entries = Entries {
        labels: label_section(&program.labels),
        types: section.entries,
        terms,
    };
    entries.sizes().in_range().then_some(entries)
}

pub(crate) fn label_section(labels: &[Wire]) -> Vec<Entry> {
    let labels = labels.iter();
    labels.map(|wire| Entry::new(wire.kind(), 0)).collect()
}

/// The type section, as it grows.
pub(crate) struct TypeSection<'a> {
    positions: Positions<'a>,
    pub(crate) entries: Vec<Entry>,
    /// The positions of each type that is in the section.
    known: HashMap<Rc<Type>, Vec<usize>>,
}

impl TypeSection<'_> {
    pub(crate) fn new(positions: Positions) -> TypeSection {
        TypeSection {
            positions,
            entries: Vec::new(),
            known: HashMap::new(),
        }
    }

    /// Writes the type in preorder; the answer is its position.
    fn write(&mut self, of: &Rc<Type>) -> usize {
        let position = self.entries.len();
        self.entries.push(Entry::new(of.kind(), 0));
        self.known.entry(of.clone()).or_default().push(position);
        for part in of.parts() {
            self.write(part);
        }
        position
    }

    pub(crate) fn position(&mut self, of: &Rc<Type>) -> u16 {
        let known = match (&mut self.positions, self.known.get(of)) {
            (Positions::Fresh, _) | (_, None) => None,
            (Positions::First, Some(known)) => known.first().copied(),
            (Positions::Any(pick), Some(known)) => Some(pick(known)),
        };
        let position = known.unwrap_or_else(|| self.write(of));
        // A position this large means a size outside its range.
        u16::try_from(position).unwrap_or(u16::MAX)
    }
}

fn write_term(term: &Term, section: &mut TypeSection, terms: &mut Vec<Entry>) {
    let argument = match term {
        Term::Variable(number) | Term::Label(number) | Term::Gate(number) => *number,
        Term::Abstraction(over, _) | Term::Box(over, _) => section.position(over),
        _ => 0,
    };
    debug_assert!(kinds::term_parts(term.kind()) == Some(term.parts().len()));
    terms.push(Entry::new(term.kind(), argument));
    for part in term.parts() {
        write_term(part, section, terms);
    }
}
