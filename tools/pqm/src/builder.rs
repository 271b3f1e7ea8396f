//! Programs built from Rust: variables are the parameters of closures, gates have
//! their names, and binders are counted when the file is written.

use crate::encode::{label_section, Positions, TypeSection};
use crate::entries::{Entries, Entry, MOST_LABELS, MOST_TERMS, MOST_TYPES};
use crate::error::{Error, Source};
use crate::gates::{Gate, GATES};
use crate::kinds;
use crate::traversal::Traversal;
use crate::trees::{Type, Wire};
use std::panic::Location;
use std::rc::Rc;
use std::sync::atomic::{AtomicU64, Ordering};

/// A variable, from the abstraction or let that binds it. It may be used any number
/// of times; whether that is allowed is for the check to say.
#[derive(Clone, Copy, PartialEq, Eq, Debug)]
pub struct Variable {
    number: u64,
    bound: Source,
}

impl Variable {
    /// One that no other is equal to.
    fn new(bound: Source) -> Variable {
        static NEXT: AtomicU64 = AtomicU64::new(0);
        Variable {
            number: NEXT.fetch_add(1, Ordering::Relaxed),
            bound,
        }
    }
}

/// A term with named variables.
#[derive(Clone, Debug)]
pub struct Named {
    /// In preorder, as in a file: no operation on a long program is deeply nested.
    nodes: Vec<Node>,
}

#[derive(Clone, Debug)]
enum Node {
    Variable(Variable),
    Label(usize, Source),
    Gate(usize),
    NoGate(String, Source),
    Abstraction(Variable, Rc<Type>),
    Let(Variable, Variable),
    Box(Rc<Type>, Source),
    /// A node of this kind, which has no argument.
    Plain(u8),
}

impl Node {
    fn with(self, parts: impl IntoIterator<Item = Named>) -> Named {
        let mut nodes = vec![self];
        nodes.extend(parts.into_iter().flat_map(|part| part.nodes));
        Named { nodes }
    }

    fn kind(&self) -> u8 {
        match self {
            Node::Variable(_) => kinds::VARIABLE,
            Node::Label(..) => kinds::LABEL,
            Node::Gate(_) | Node::NoGate(..) => kinds::GATE,
            Node::Abstraction(..) => kinds::ABSTRACTION,
            Node::Let(..) => kinds::LET,
            Node::Box(..) => kinds::BOX,
            Node::Plain(kind) => *kind,
        }
    }

    fn binds(&self) -> Vec<Variable> {
        match self {
            Node::Abstraction(variable, _) => vec![*variable],
            Node::Let(first, second) => vec![*first, *second],
            _ => Vec::new(),
        }
    }
}

impl From<Variable> for Named {
    fn from(variable: Variable) -> Named {
        Node::Variable(variable).with([])
    }
}

impl From<&Gate> for Named {
    fn from(gate: &Gate) -> Named {
        let number = GATES.iter().position(|other| other == gate);
        Node::Gate(number.expect("a gate of the table")).with([])
    }
}

/// The pair of two terms.
impl<A: Into<Named>, B: Into<Named>> From<(A, B)> for Named {
    fn from((first, second): (A, B)) -> Named {
        pair(first, second)
    }
}

pub fn pair(first: impl Into<Named>, second: impl Into<Named>) -> Named {
    Node::Plain(kinds::PAIR).with([first.into(), second.into()])
}

/// The wire that is input number so many.
#[track_caller]
pub fn label(number: usize) -> Named {
    Node::Label(number, Location::caller()).with([])
}

/// The gate of this name.
#[track_caller]
pub fn gate(name: &str) -> Named {
    match GATES.iter().position(|gate| gate.name == name) {
        Some(number) => Node::Gate(number),
        None => Node::NoGate(name.to_string(), Location::caller()),
    }
    .with([])
}

/// The value of unit.
pub fn unit_value() -> Named {
    Node::Plain(kinds::UNIT_VALUE).with([])
}

/// The abstraction over a type: a function with this body.
#[track_caller]
pub fn lambda<B: Into<Named>>(over: Rc<Type>, body: impl FnOnce(Variable) -> B) -> Named {
    let variable = Variable::new(Location::caller());
    Node::Abstraction(variable, over).with([body(variable).into()])
}

/// A function applied to an argument.
pub fn application(function: impl Into<Named>, argument: impl Into<Named>) -> Named {
    Node::Plain(kinds::APPLICATION).with([function.into(), argument.into()])
}

/// A value under a name of this type in what follows: the abstraction of what
/// follows, applied to it.
#[track_caller]
pub fn bind<R: Into<Named>>(
    of: Rc<Type>,
    value: impl Into<Named>,
    rest: impl FnOnce(Variable) -> R,
) -> Named {
    application(lambda(of, rest), value)
}

/// The halves of a pair under two names in what follows.
#[track_caller]
pub fn let_pair<R: Into<Named>>(
    value: impl Into<Named>,
    rest: impl FnOnce(Variable, Variable) -> R,
) -> Named {
    let [first, second] = [(); 2].map(|_| Variable::new(Location::caller()));
    Node::Let(first, second).with([value.into(), rest(first, second).into()])
}

pub fn lift(part: impl Into<Named>) -> Named {
    Node::Plain(kinds::LIFT).with([part.into()])
}

pub fn force(part: impl Into<Named>) -> Named {
    Node::Plain(kinds::FORCE).with([part.into()])
}

/// Box at a wire type, of a reusable function from it.
#[track_caller]
pub fn boxed(at: Rc<Type>, function: impl Into<Named>) -> Named {
    Node::Box(at, Location::caller()).with([function.into()])
}

/// The circuit of the function with this body: box at a type of lift of an
/// abstraction over it.
#[track_caller]
pub fn boxed_lambda<B: Into<Named>>(at: Rc<Type>, body: impl FnOnce(Variable) -> B) -> Named {
    boxed(at.clone(), lift(lambda(at, body)))
}

/// A circuit or gate applied to an argument.
pub fn apply(circuit: impl Into<Named>, argument: impl Into<Named>) -> Named {
    Node::Plain(kinds::APPLY).with([circuit.into(), argument.into()])
}

/// Values bound one after another, and then a term in which they may be used.
pub fn sequence<R: Into<Named>>(build: impl FnOnce(&mut Sequence) -> R) -> Named {
    let mut sequence = Sequence {
        bindings: Vec::new(),
    };
    let last = build(&mut sequence).into();
    // Of an abstraction the value stands behind all that follows, of a let before.
    let mut nodes = Vec::new();
    let mut behind = Vec::new();
    for (binder, value) in sequence.bindings {
        if let Node::Abstraction(..) = binder {
            nodes.extend([Node::Plain(kinds::APPLICATION), binder]);
            behind.push(value);
        } else {
            nodes.push(binder);
            nodes.extend(value.nodes);
        }
    }
    nodes.extend(last.nodes);
    nodes.extend(behind.into_iter().rev().flat_map(|value| value.nodes));
    Named { nodes }
}

pub struct Sequence {
    /// An abstraction or a let, and the value that it binds.
    bindings: Vec<(Node, Named)>,
}

impl Sequence {
    /// A value under a name of this type in what follows.
    #[track_caller]
    pub fn bind(&mut self, of: Rc<Type>, value: impl Into<Named>) -> Variable {
        let variable = Variable::new(Location::caller());
        let binder = Node::Abstraction(variable, of);
        self.bindings.push((binder, value.into()));
        variable
    }

    /// The halves of a pair under two names in what follows.
    #[track_caller]
    pub fn halves(&mut self, value: impl Into<Named>) -> (Variable, Variable) {
        let [first, second] = [(); 2].map(|_| Variable::new(Location::caller()));
        self.bindings.push((Node::Let(first, second), value.into()));
        (first, second)
    }
}

/// The file of the program with inputs of these types and this term. It may be
/// refused by the check or by a run, but it has the form of a program file.
pub fn file(labels: &[Wire], term: impl Into<Named>) -> Result<Vec<u8>, Error> {
    Ok(entries(labels, &term.into())?.bytes())
}

/// The entries of that file. Equal types have one position.
pub fn entries(labels: &[Wire], term: &Named) -> Result<Entries, Error> {
    let terms = term.nodes.len();
    if labels.len() > MOST_LABELS {
        return Err(Error::TooManyLabels(labels.len()));
    }
    if terms > MOST_TERMS {
        return Err(Error::TooManyTermEntries(terms));
    }
    let mut writer = Writer {
        labels: labels.len(),
        section: TypeSection::new(Positions::First),
        traversal: Traversal::default(),
        terms: Vec::new(),
    };
    for node in &term.nodes {
        writer.write(node)?;
    }
    let types = writer.section.entries;
    if types.len() > MOST_TYPES {
        return Err(Error::TooManyTypeEntries(types.len()));
    }
    Ok(Entries {
        labels: label_section(labels),
        types,
        terms: writer.terms,
    })
}

struct Writer {
    labels: usize,
    section: TypeSection<'static>,
    traversal: Traversal<Variable>,
    terms: Vec<Entry>,
}

impl Writer {
    fn write(&mut self, node: &Node) -> Result<(), Error> {
        let argument = match node {
            Node::Variable(variable) => self.binders_between(variable)?,
            Node::Label(number, at) if *number >= self.labels => {
                return Err(Error::NoLabel(*number, self.labels, at));
            }
            Node::Label(number, _) | Node::Gate(number) => *number,
            Node::NoGate(name, at) => return Err(Error::NoGate(name.clone(), at)),
            Node::Abstraction(variable, over) => match no_circuit(over) {
                Some(of) => {
                    return Err(Error::CircOfNoWireType(of.to_string(), variable.bound));
                }
                None => usize::from(self.section.position(over)),
            },
            Node::Box(at, source) if !at.is_wire_type() => {
                return Err(Error::BoxAtNoWireType(at.to_string(), source));
            }
            Node::Box(at, _) => usize::from(self.section.position(at)),
            Node::Let(..) | Node::Plain(_) => 0,
        };
        let kind = node.kind();
        let argument = u16::try_from(argument).expect("an argument of a term within the sizes");
        self.terms.push(Entry::new(kind, argument));
        let parts = kinds::term_parts(kind).expect("a kind of the term section");
        self.traversal.enter(parts, node.binds());
        Ok(())
    }

    /// How many binders stand between a variable and its own.
    fn binders_between(&self, variable: &Variable) -> Result<usize, Error> {
        let mut bound = self.traversal.bound().iter().rev();
        let found = bound.position(|other| other == variable);
        found.ok_or(Error::NoBinder(variable.bound))
    }
}

/// A Circ in the type, one of whose parts is no wire type.
fn no_circuit(of: &Rc<Type>) -> Option<&Rc<Type>> {
    match &**of {
        Type::Circuit(from, to) => (!from.is_wire_type() || !to.is_wire_type()).then_some(of),
        _ => of.parts().into_iter().find_map(no_circuit),
    }
}
