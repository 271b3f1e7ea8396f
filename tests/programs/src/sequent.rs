//! What is in hand, and the type of the term to be made of it.

use crate::rules::copyable;
use crate::terms::{label, variable};
use crate::types::{pieces, sources_and_sinks};
use program_files::{Term, Type};
use std::rc::Rc;

/// A label, or a variable named by the number of binders outside its own.
#[derive(Clone, Copy, PartialEq, Eq, Debug)]
pub enum Name {
    Label(usize),
    Variable(usize),
}

#[derive(Clone, Debug)]
pub struct Held {
    pub name: Name,
    pub of: Rc<Type>,
}

/// All linear ones are to be used exactly once, the others as often as wanted.
#[derive(Clone, Debug)]
pub struct Sequent {
    pub binders: usize,
    pub copyable: Vec<Held>,
    /// Those pairs among the copyable ones that no let has taken apart.
    pub closed: Vec<Held>,
    pub linear: Vec<Held>,
    pub goal: Rc<Type>,
    /// How many boxes there are around the term.
    pub boxes: usize,
    /// Whether all sources and sinks are in scope, or wires may come and go: then
    /// there is a term for every goal.
    pub open: bool,
    /// Whether wires may come from Init and go to Discard.
    pub helpers: bool,
}

impl Sequent {
    /// Nothing but these linear ones.
    pub fn new(linear: Vec<Held>, goal: &Rc<Type>, helpers: bool) -> Sequent {
        Sequent {
            binders: 0,
            copyable: Vec::new(),
            closed: Vec::new(),
            linear,
            goal: goal.clone(),
            boxes: 0,
            open: helpers,
            helpers,
        }
    }

    pub fn leaf(&self, held: &Held) -> Rc<Term> {
        match held.name {
            Name::Label(number) => label(number),
            Name::Variable(number) => variable(self.binders - 1 - number),
        }
    }

    pub fn with_goal(&self, goal: &Rc<Type>) -> Sequent {
        self.with(self.linear.clone(), goal)
    }

    /// The same with these linear ones and this goal.
    pub fn with(&self, linear: Vec<Held>, goal: &Rc<Type>) -> Sequent {
        Sequent {
            binders: self.binders,
            copyable: self.copyable.clone(),
            closed: self.closed.clone(),
            linear,
            goal: goal.clone(),
            boxes: self.boxes,
            open: self.open,
            helpers: self.helpers,
        }
    }

    /// One more variable.
    pub fn bind(&self, of: &Rc<Type>) -> Sequent {
        let mut inside = self.clone();
        inside.add(of);
        inside
    }

    /// The two variables of a let.
    pub fn bind_two(&self, first: &Rc<Type>, second: &Rc<Type>) -> Sequent {
        let mut inside = self.bind(first);
        inside.add(second);
        inside
    }

    fn add(&mut self, of: &Rc<Type>) {
        let held = Held {
            name: Name::Variable(self.binders),
            of: of.clone(),
        };
        self.binders += 1;
        if copyable(of) {
            if is_pair(of) {
                self.closed.push(held.clone());
            }
            self.copyable.push(held);
            if !self.open {
                let mut types = sources_and_sinks().into_iter();
                self.open = types.all(|of| self.variable(&of).is_some());
            }
        } else {
            self.linear.push(held);
        }
    }

    /// One of the linear ones, and the sequent without it.
    pub fn take(&self, at: usize) -> (Held, Sequent) {
        let mut rest = self.clone();
        let held = rest.linear.remove(at);
        (held, rest)
    }

    /// A variable of this type that may be copied and dropped.
    pub fn variable(&self, of: &Type) -> Option<&Held> {
        self.copyable.iter().rev().find(|held| *held.of == *of)
    }

    /// A variable that gives this type when forced.
    pub fn source(&self, of: &Type) -> Option<&Held> {
        let gives = |held: &&Held| matches!(&*held.of, Type::Reusable(part) if **part == *of);
        self.copyable.iter().rev().find(gives)
    }

    /// A variable that when forced is a function from this type to one that
    /// may be dropped.
    pub fn sink(&self, of: &Type) -> Option<(&Held, Rc<Type>)> {
        self.copyable.iter().rev().find_map(|held| {
            let Type::Reusable(part) = &*held.of else {
                return None;
            };
            match &**part {
                Type::Function(from, to) if **from == *of && copyable(to) => {
                    Some((held, to.clone()))
                }
                _ => None,
            }
        })
    }

    /// The linear ones for a part of this type, and the others. The first
    /// that fit are taken, Bits before Qubits; none if there are too few and
    /// no sources.
    pub fn share(&self, of: &Rc<Type>) -> Option<(Vec<Held>, Vec<Held>)> {
        if let Some(at) = self.linear.iter().position(|held| held.of == *of) {
            let (held, rest) = self.take(at);
            return Some((vec![held], rest.linear));
        }
        let mut wanted = pieces(of);
        let mut taken = vec![false; self.linear.len()];
        for (at, held) in self.linear.iter().enumerate() {
            let same = |piece: &Rc<Type>| is_function(piece) && *piece == held.of;
            if let Some(piece) = wanted.iter().position(same) {
                wanted.remove(piece);
                taken[at] = true;
            }
        }
        let needs: Option<Vec<Count>> = wanted.iter().map(|piece| needs(piece)).collect();
        let mut needed = match needs {
            Some(needs) => needs.into_iter().fold(Count::default(), Count::plus),
            None if self.open => Count::default(),
            None => return None,
        };
        for bits in [true, false] {
            for (at, held) in self.linear.iter().enumerate() {
                let given = gives(&held.of);
                let left = needed.minus(given);
                let fits = given.all > 0 && left.all >= left.qubits && left.all >= 0;
                if !taken[at] && !is_function(&held.of) && (given.qubits == 0) == bits && fits {
                    taken[at] = true;
                    needed = left;
                }
            }
        }
        if needed.all > 0 && !self.open {
            return None;
        }
        let part = |wanted: bool| {
            let held = self.linear.iter().zip(&taken);
            held.filter(|(_, &taken)| taken == wanted)
                .map(|(held, _)| held.clone())
                .collect()
        };
        Some((part(true), part(false)))
    }
}

pub fn is_pair(of: &Type) -> bool {
    matches!(of, Type::Pair(..))
}

pub fn is_function(of: &Type) -> bool {
    matches!(of, Type::Function(..))
}

/// Numbers of wires: all, and how many of them must be Qubits.
#[derive(Clone, Copy, Default, Debug)]
struct Count {
    qubits: isize,
    all: isize,
}

impl Count {
    fn plus(self, other: Count) -> Count {
        Count {
            qubits: self.qubits + other.qubits,
            all: self.all + other.all,
        }
    }

    fn minus(self, other: Count) -> Count {
        Count {
            qubits: (self.qubits - other.qubits).max(0),
            all: self.all - other.all,
        }
    }
}

/// The wires that go into a term of this type; none where there cannot be
/// such a term.
fn needs(of: &Type) -> Option<Count> {
    match of {
        Type::Bit => Some(Count { qubits: 0, all: 1 }),
        Type::Qubit => Some(Count { qubits: 1, all: 1 }),
        Type::Pair(first, second) => Some(needs(first)?.plus(needs(second)?)),
        Type::Function(from, to) => {
            if is_forcing(from, to) {
                return Some(Count::default());
            }
            let count = needs(to)?.minus(gives(from));
            (count.all >= count.qubits).then_some(count)
        }
        Type::Reusable(_) | Type::Circuit(..) | Type::Unit => Some(Count::default()),
    }
}

/// Whether the function takes in a source of what it gives, at once or later.
fn is_forcing(from: &Type, to: &Type) -> bool {
    match (from, to) {
        (Type::Reusable(part), _) if **part == *to => true,
        (_, Type::Function(next, last)) => is_forcing(from, last) || is_forcing(next, last),
        _ => false,
    }
}

/// The wires that come out of a variable of this type.
fn gives(of: &Type) -> Count {
    match of {
        Type::Bit => Count { qubits: 0, all: 1 },
        Type::Qubit => Count { qubits: 1, all: 1 },
        Type::Pair(first, second) => gives(first).plus(gives(second)),
        Type::Function(from, to) => {
            let (from, to) = (needs(from).unwrap_or_default(), gives(to));
            Count {
                qubits: to.qubits - from.qubits,
                all: to.all - from.all,
            }
        }
        Type::Reusable(_) | Type::Circuit(..) | Type::Unit => Count::default(),
    }
}
