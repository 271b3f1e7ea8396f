//! Programs broken in one spot.

use crate::edit::{map_leaves, replaced, shifted};
use crate::rules::{copyable, MOST_ENTRIES};
use crate::survey::Survey;
use crate::terms::{
    abstraction, application, apply, boxed, force, gate, label, let_in, lift, pair, unit_value,
    variable,
};
use crate::types::{any_type, any_wire, any_wires, one_entry_changed, wire_type};
use program_files::entries::MOST_TERMS;
use program_files::{kinds, Program, Random, Term, Type, GATES};
use std::rc::Rc;

/// The number of the gate.
const MEAS: usize = 6;

/// What is broken.
#[derive(Clone, Copy, PartialEq, Eq, Hash, Debug)]
pub enum Way {
    VariableInBothParts,
    VariableDoubled,
    VariableReplaced,
    VariableNotUsed,
    LetVariableNotUsed,
    LabelTwice,
    LabelDoubled,
    LabelReplaced,
    LabelNotUsed,
    UseUnderLift,
    PartUnderLift,
    WrongArgument,
    NoFunction,
    WrongWires,
    WrongNesting,
    MeasuredWire,
    NoCircuit,
    ApplicationForApply,
    NoPair,
    NotReusable,
    BoxOfNotReusable,
    BoxOfNoFunction,
    BoxAtOther,
    BoxToNoWireType,
    TooLarge,
    OtherGate,
    OtherOver,
    OtherVariable,
    OtherLeaf,
    OtherPart,
    PartsSwapped,
}

pub const WAYS: [(Way, &str); 31] = [
    (
        Way::VariableInBothParts,
        "a linear variable used in both parts",
    ),
    (Way::VariableDoubled, "a linear variable paired with itself"),
    (Way::VariableReplaced, "a linear variable replaced"),
    (Way::VariableNotUsed, "an abstraction that uses nothing"),
    (Way::LetVariableNotUsed, "a let that uses one half"),
    (Way::LabelTwice, "a label used again at the end"),
    (Way::LabelDoubled, "a label paired with itself"),
    (Way::LabelReplaced, "a label replaced by another"),
    (Way::LabelNotUsed, "a label more"),
    (Way::UseUnderLift, "a linear use under a lift"),
    (Way::PartUnderLift, "a part with linear uses under a lift"),
    (Way::WrongArgument, "an application to another type"),
    (Way::NoFunction, "an application of no function"),
    (Way::WrongWires, "an apply to another type"),
    (Way::WrongNesting, "an apply to pairs nested the other way"),
    (Way::MeasuredWire, "an apply to a measured wire"),
    (Way::NoCircuit, "an apply of no circuit"),
    (
        Way::ApplicationForApply,
        "an application for an apply, or the reverse",
    ),
    (Way::NoPair, "a let of no pair"),
    (Way::NotReusable, "a force of what is not reusable"),
    (Way::BoxOfNotReusable, "a box of what is not reusable"),
    (Way::BoxOfNoFunction, "a box of no function"),
    (Way::BoxAtOther, "a box at another T"),
    (Way::BoxToNoWireType, "a box to no wire type"),
    (Way::TooLarge, "a type past 512 entries"),
    (Way::OtherGate, "another gate"),
    (Way::OtherOver, "an abstraction over another type"),
    (Way::OtherVariable, "another variable"),
    (Way::OtherLeaf, "another leaf"),
    (Way::OtherPart, "another part"),
    (Way::PartsSwapped, "two parts swapped"),
];

impl Way {
    /// The number that a well-typed program gets when it is broken so, where
    /// that is known.
    pub fn number(self) -> Option<u8> {
        match self {
            Way::WrongArgument
            | Way::NoFunction
            | Way::WrongWires
            | Way::WrongNesting
            | Way::MeasuredWire
            | Way::NoCircuit
            | Way::ApplicationForApply
            | Way::NoPair
            | Way::NotReusable
            | Way::BoxOfNotReusable
            | Way::BoxOfNoFunction
            | Way::BoxAtOther
            | Way::BoxToNoWireType
            | Way::TooLarge => Some(16),
            Way::VariableInBothParts
            | Way::VariableDoubled
            | Way::VariableReplaced
            | Way::VariableNotUsed
            | Way::LetVariableNotUsed
            | Way::LabelTwice
            | Way::LabelDoubled
            | Way::LabelReplaced
            | Way::LabelNotUsed => Some(17),
            Way::UseUnderLift | Way::PartUnderLift => Some(18),
            Way::OtherGate
            | Way::OtherOver
            | Way::OtherVariable
            | Way::OtherLeaf
            | Way::OtherPart
            | Way::PartsSwapped => None,
        }
    }
}

/// An entry: a label's, or that of a node by its number among the terms.
#[derive(Clone, Copy, PartialEq, Eq, Debug)]
pub enum Spot {
    Label(usize),
    Node(usize),
}

/// What a well-typed program gives when it is broken so.
#[derive(Clone, Copy, PartialEq, Eq, Debug)]
pub enum Expected {
    Anything,
    Number(u8),
    Refused(u8, Spot),
}

/// The program broken in one spot; none if it has no spot of this kind.
pub fn broken(random: &mut Random, program: &Program, way: Way) -> Option<(Program, Expected)> {
    let survey = Survey::new(&program.labels, &program.term);
    let mut breaking = Breaking {
        random,
        survey: &survey,
        program: program.clone(),
    };
    let expected = breaking.by(way)?;
    Some((breaking.program, expected))
}

struct Breaking<'a> {
    random: &'a mut Random,
    survey: &'a Survey,
    program: Program,
}

fn with_itself(part: &Rc<Term>) -> Rc<Term> {
    pair(part.clone(), part.clone())
}

/// A term of three parts, nested to the right, with the last of them outside. Where
/// pairs are not written out, lets take them apart.
fn nested_to_the_left(term: &Term) -> Rc<Term> {
    if let Term::Pair(first, others) = term {
        if let Term::Pair(second, third) = &**others {
            return pair(pair(first.clone(), second.clone()), third.clone());
        }
    }
    let result = pair(pair(variable(3), variable(1)), variable(0));
    let_in(Rc::new(term.clone()), let_in(variable(0), result))
}

/// The same of one that is nested to the left.
fn nested_to_the_right(term: &Term) -> Rc<Term> {
    if let Term::Pair(others, third) = term {
        if let Term::Pair(first, second) = &**others {
            return pair(first.clone(), pair(second.clone(), third.clone()));
        }
    }
    let result = pair(variable(1), pair(variable(0), variable(2)));
    let_in(Rc::new(term.clone()), let_in(variable(1), result))
}

fn at_16(node: usize) -> Option<Expected> {
    Some(Expected::Refused(16, Spot::Node(node)))
}

impl<'a> Breaking<'a> {
    fn by(&mut self, way: Way) -> Option<Expected> {
        match way {
            Way::VariableInBothParts => self.variable_in_both_parts(),
            Way::VariableDoubled => self.variable_doubled(),
            Way::VariableReplaced => self.variable_replaced(),
            Way::VariableNotUsed => self.variable_not_used(),
            Way::LetVariableNotUsed => self.let_variable_not_used(),
            Way::LabelTwice => self.label_twice(),
            Way::LabelDoubled => self.label_doubled(),
            Way::LabelReplaced => self.label_replaced(),
            Way::LabelNotUsed => self.label_not_used(),
            Way::UseUnderLift => self.use_under_lift(),
            Way::PartUnderLift => self.part_under_lift(),
            Way::WrongArgument => self.other_second(kinds::APPLICATION),
            Way::WrongWires => self.other_second(kinds::APPLY),
            Way::WrongNesting => self.wrong_nesting(),
            Way::MeasuredWire => self.measured_wire(),
            Way::NoFunction => self.other_first(kinds::APPLICATION),
            Way::NoCircuit => self.other_first(kinds::APPLY),
            Way::NoPair => self.other_first(kinds::LET),
            Way::ApplicationForApply => self.application_for_apply(),
            Way::NotReusable => self.not_reusable(),
            Way::BoxOfNotReusable => self.box_of_not_reusable(),
            Way::BoxOfNoFunction => self.box_of_no_function(),
            Way::BoxAtOther => self.box_at_other(),
            Way::BoxToNoWireType => self.box_to_no_wire_type(),
            Way::TooLarge => self.too_large(),
            Way::OtherGate => self.other_gate(),
            Way::OtherOver => self.other_over(),
            Way::OtherVariable => self.other_variable(),
            Way::OtherLeaf => self.other_leaf(),
            Way::OtherPart => self.other_part(),
            Way::PartsSwapped => self.parts_swapped(),
        }
    }

    fn some_node(&mut self, fits: impl Fn(usize) -> bool) -> Option<usize> {
        let nodes: Vec<usize> = (0..self.survey.nodes.len())
            .filter(|&at| fits(at))
            .collect();
        (!nodes.is_empty()).then(|| self.random.pick(&nodes))
    }

    fn some_of_kind(&mut self, kind: u8) -> Option<usize> {
        let survey = self.survey;
        self.some_node(|at| survey.nodes[at].term.kind() == kind)
    }

    fn term(&self, at: usize) -> &'a Rc<Term> {
        &self.survey.nodes[at].term
    }

    fn of(&self, at: usize) -> Option<&'a Rc<Type>> {
        self.survey.nodes[at].of.as_ref()
    }

    /// Whether so many entries more are a type at this node.
    fn has_room(&self, at: usize, more: usize) -> bool {
        self.of(at)
            .is_some_and(|of| of.size() + more <= MOST_ENTRIES)
    }

    fn replace(&mut self, at: usize, new: Rc<Term>) {
        self.program.term = replaced(self.survey, at, new);
    }

    fn is_linear_variable(&self, at: usize) -> bool {
        self.survey.binder(at).is_some() && self.of(at).is_some_and(|of| !copyable(of))
    }

    /// The variable of a binder, at a node in its scope.
    fn variable_at(&self, binder: usize, at: usize) -> Option<Rc<Term>> {
        let scope = &self.survey.nodes[at].scope;
        let argument = scope.iter().rev().position(|&other| other == binder)?;
        Some(variable(argument))
    }

    /// One more label, any wire.
    fn new_label(&mut self) -> (Rc<Type>, Rc<Term>) {
        let wire = any_wire(self.random);
        let number = self.program.labels.len();
        self.program.labels.push(wire);
        (wire.as_type(), label(number))
    }

    fn any_gate(&mut self) -> Rc<Term> {
        gate(self.random.below(GATES.len()))
    }

    /// Any linear variable, where there is one with so many entries of room.
    fn some_linear_variable(&mut self, room: impl Fn(usize) -> usize) -> Option<usize> {
        let this = &*self;
        let uses: Vec<usize> = (0..this.survey.nodes.len())
            .filter(|&at| this.is_linear_variable(at))
            .filter(|&at| {
                this.of(at)
                    .is_some_and(|of| room(of.size()) <= MOST_ENTRIES)
            })
            .collect();
        (!uses.is_empty()).then(|| self.random.pick(&uses))
    }

    fn variable_in_both_parts(&mut self) -> Option<Expected> {
        let used = self.some_linear_variable(|size| size)?;
        let binder = self.survey.binder(used)?;
        let survey = self.survey;
        let at = self.some_node(|at| {
            let node = &survey.nodes[at];
            node.of == survey.nodes[used].of
                && !(at..node.end).contains(&used)
                && node.scope.contains(&binder)
        })?;
        let variable = self.variable_at(binder, at)?;
        self.replace(at, variable);
        Some(Expected::Number(17))
    }

    fn variable_doubled(&mut self) -> Option<Expected> {
        let at = self.some_linear_variable(|size| 1 + 2 * size)?;
        let half = variable(self.random.below(2));
        let doubled = let_in(with_itself(self.term(at)), half);
        let binder = self.survey.binder(at)?;
        self.replace(at, doubled);
        let node = self.survey.binders[binder].node;
        Some(Expected::Refused(17, Spot::Node(node)))
    }

    /// By what is forced, by a label or by another linear variable.
    fn variable_replaced(&mut self) -> Option<Expected> {
        let at = self.some_linear_variable(|size| size)?;
        let of = self.of(at)?.clone();
        let own = self.survey.binder(at);
        let mut others: Vec<Rc<Term>> = Vec::new();
        for &binder in self.survey.nodes[at].scope.iter() {
            let variable = self.variable_at(binder, at)?;
            match self.survey.binders[binder].of.as_deref() {
                Some(Type::Reusable(part)) if *part == of => others.push(force(variable)),
                Some(other) if *other == *of && own != Some(binder) => others.push(variable),
                _ => {}
            }
        }
        for (number, wire) in self.program.labels.iter().enumerate() {
            if wire.as_type() == of {
                others.push(label(number));
            }
        }
        if others.is_empty() {
            return None;
        }
        let other = others.swap_remove(self.random.below(others.len()));
        self.replace(at, other);
        Some(Expected::Number(17))
    }

    fn variable_not_used(&mut self) -> Option<Expected> {
        let at = self.random.below(self.survey.nodes.len());
        if !self.has_room(at, 2) {
            return None;
        }
        let (over, label) = self.new_label();
        let body = shifted(self.term(at), 1);
        self.replace(at, application(abstraction(over, body), label));
        Some(Expected::Refused(17, Spot::Node(at + 1)))
    }

    fn let_variable_not_used(&mut self) -> Option<Expected> {
        let at = self.random.below(self.survey.nodes.len());
        if !self.has_room(at, 2) {
            return None;
        }
        let (_, label) = self.new_label();
        let part = self.term(at).clone();
        let used = match self.random.below(2) {
            0 => let_in(pair(label, part), variable(0)),
            _ => let_in(pair(part, label), variable(1)),
        };
        self.replace(at, used);
        Some(Expected::Refused(17, Spot::Node(at)))
    }

    fn some_label(&mut self) -> Option<usize> {
        let labels = self.program.labels.len();
        (labels > 0).then(|| self.random.below(labels))
    }

    fn label_twice(&mut self) -> Option<Expected> {
        let number = self.some_label()?;
        if !self.has_room(0, 2) {
            return None;
        }
        let term = self.program.term.clone();
        self.program.term = match self.random.below(2) {
            0 => pair(term, label(number)),
            _ => pair(label(number), term),
        };
        Some(Expected::Refused(17, Spot::Label(number)))
    }

    fn label_doubled(&mut self) -> Option<Expected> {
        let at = self.some_of_kind(kinds::LABEL)?;
        let Term::Label(number) = **self.term(at) else {
            unreachable!("a label");
        };
        let half = variable(self.random.below(2));
        let doubled = let_in(with_itself(self.term(at)), half);
        self.replace(at, doubled);
        Some(Expected::Refused(17, Spot::Label(usize::from(number))))
    }

    fn label_replaced(&mut self) -> Option<Expected> {
        let at = self.some_of_kind(kinds::LABEL)?;
        let other = self.some_label()?;
        let Term::Label(number) = **self.term(at) else {
            unreachable!("a label");
        };
        let labels = &self.program.labels;
        let number = usize::from(number);
        if other == number || labels[other] != labels[number] {
            return None;
        }
        self.replace(at, label(other));
        let first = number.min(other);
        Some(Expected::Refused(17, Spot::Label(first)))
    }

    /// A new label among the others, which are numbered on.
    fn label_not_used(&mut self) -> Option<Expected> {
        let new = self.random.between(0, self.program.labels.len());
        let wire = any_wire(self.random);
        self.program.labels.insert(new, wire);
        self.program.term = map_leaves(&self.program.term, 0, &mut |leaf, _| match **leaf {
            Term::Label(number) if usize::from(number) >= new => Rc::new(Term::Label(number + 1)),
            _ => leaf.clone(),
        });
        Some(Expected::Refused(17, Spot::Label(new)))
    }

    /// Whether a leaf is a label or a linear variable bound before a node.
    fn is_linear_use_from(&self, at: usize, before: usize) -> bool {
        match **self.term(at) {
            Term::Label(_) => true,
            Term::Variable(_) => {
                let binder = self.survey.binder(at).expect("a variable");
                self.is_linear_variable(at) && self.survey.binders[binder].node < before
            }
            _ => false,
        }
    }

    fn use_under_lift(&mut self) -> Option<Expected> {
        let this = &*self;
        let uses: Vec<usize> = (0..this.survey.nodes.len())
            .filter(|&at| this.is_linear_use_from(at, at) && this.has_room(at, 1))
            .collect();
        if uses.is_empty() {
            return None;
        }
        let at = self.random.pick(&uses);
        let lifted = force(lift(self.term(at).clone()));
        self.replace(at, lifted);
        Some(Expected::Refused(18, Spot::Node(at + 2)))
    }

    fn part_under_lift(&mut self) -> Option<Expected> {
        let at = self.random.below(self.survey.nodes.len());
        if !self.has_room(at, 1) {
            return None;
        }
        let end = self.survey.nodes[at].end;
        let first = (at..end).find(|&inner| self.is_linear_use_from(inner, at))?;
        let lifted = force(lift(self.term(at).clone()));
        self.replace(at, lifted);
        Some(Expected::Refused(18, Spot::Node(first + 2)))
    }

    /// A term of another type than the node's: a lift of it, a gate, or unit's
    /// value.
    fn of_other_type(&mut self, at: usize) -> Option<Rc<Term>> {
        let of = self.of(at)?.clone();
        if self.random.one_in(2) && self.has_room(at, 1) {
            return Some(lift(self.term(at).clone()));
        }
        if self.random.one_in(4) {
            return (*of != Type::Unit).then(unit_value);
        }
        let number = self.random.below(GATES.len());
        (GATES[number].circuit_type() != of).then(|| gate(number))
    }

    fn other_second(&mut self, kind: u8) -> Option<Expected> {
        let at = self.some_of_kind(kind)?;
        let second = self.survey.nodes[at + 1].end;
        let other = self.of_other_type(second)?;
        self.replace(second, other);
        at_16(at)
    }

    /// The argument of an apply that has a pair inside a pair, nested to the other
    /// side.
    fn wrong_nesting(&mut self) -> Option<Expected> {
        let at = self.some_of_kind(kinds::APPLY)?;
        let argument = self.survey.nodes[at + 1].end;
        let Type::Pair(first, second) = &**self.of(argument)? else {
            return None;
        };
        let term = self.term(argument).clone();
        let other = match (&**first, &**second) {
            (_, Type::Pair(..)) => nested_to_the_left(&term),
            (Type::Pair(..), _) => nested_to_the_right(&term),
            _ => return None,
        };
        self.replace(argument, other);
        at_16(at)
    }

    /// One of the Qubits that an apply takes is measured before.
    fn measured_wire(&mut self) -> Option<Expected> {
        let at = self.some_of_kind(kinds::APPLY)?;
        // The parts of the argument that are no pairs.
        let mut pairs = vec![self.survey.nodes[at + 1].end];
        let mut parts = Vec::new();
        while let Some(node) = pairs.pop() {
            match **self.term(node) {
                Term::Pair(..) => pairs.extend([self.survey.nodes[node + 1].end, node + 1]),
                _ => parts.push(node),
            }
        }
        parts.retain(|&node| self.of(node).is_some_and(|of| **of == Type::Qubit));
        if parts.is_empty() {
            return None;
        }
        let wire = self.random.pick(&parts);
        let measured = apply(gate(MEAS), self.term(wire).clone());
        self.replace(wire, measured);
        at_16(at)
    }

    fn other_first(&mut self, kind: u8) -> Option<Expected> {
        let at = self.some_of_kind(kind)?;
        let first = at + 1;
        let other = if self.random.one_in(2) && self.has_room(first, 1) {
            lift(self.term(first).clone())
        } else if kind == kinds::APPLY {
            lift(self.any_gate())
        } else {
            self.any_gate()
        };
        self.replace(first, other);
        at_16(at)
    }

    fn application_for_apply(&mut self) -> Option<Expected> {
        let survey = self.survey;
        let at = self.some_node(|at| {
            matches!(
                &*survey.nodes[at].term,
                Term::Application(..) | Term::Apply(..)
            )
        })?;
        let other = match &**self.term(at) {
            Term::Application(first, second) => apply(first.clone(), second.clone()),
            Term::Apply(first, second) => application(first.clone(), second.clone()),
            _ => unreachable!("an application or an apply"),
        };
        self.replace(at, other);
        at_16(at)
    }

    fn not_reusable(&mut self) -> Option<Expected> {
        let survey = self.survey;
        let at = self.some_node(|at| {
            let of = survey.nodes[at].of.as_deref();
            of.is_some_and(|of| !matches!(of, Type::Reusable(_)))
        })?;
        self.replace(at, force(self.term(at).clone()));
        at_16(at)
    }

    fn box_of_not_reusable(&mut self) -> Option<Expected> {
        let at = self.some_of_kind(kinds::BOX)?;
        let other = match (self.random.below(3), &**self.term(at + 1)) {
            (0, _) => self.any_gate(),
            (1, Term::Lift(part)) => part.clone(),
            _ => force(self.term(at + 1).clone()),
        };
        self.replace(at + 1, other);
        at_16(at)
    }

    fn box_of_no_function(&mut self) -> Option<Expected> {
        let at = self.some_of_kind(kinds::BOX)?;
        let other = match self.random.below(2) {
            0 if self.has_room(at + 1, 1) => lift(self.term(at + 1).clone()),
            _ => lift(self.any_gate()),
        };
        self.replace(at + 1, other);
        at_16(at)
    }

    fn box_at_other(&mut self) -> Option<Expected> {
        let at = self.some_of_kind(kinds::BOX)?;
        let Term::Box(over, part) = &**self.term(at) else {
            unreachable!("a box");
        };
        let wires = self.random.between(1, 4);
        let wires = any_wires(self.random, wires);
        let other = match self.random.below(2) {
            0 => wire_type(self.random, &wires),
            _ => one_entry_changed(self.random, over),
        };
        if other == *over || !other.is_wire_type() {
            return None;
        }
        self.replace(at, boxed(other, part.clone()));
        at_16(at)
    }

    fn box_to_no_wire_type(&mut self) -> Option<Expected> {
        let at = self.some_of_kind(kinds::BOX)?;
        let Term::Box(over, _) = &**self.term(at) else {
            unreachable!("a box");
        };
        if 4 * over.size() + 6 > MOST_ENTRIES {
            return None;
        }
        let over = over.clone();
        let body = match self.random.below(2) {
            0 => pair(variable(0), self.any_gate()),
            _ => abstraction(over.clone(), with_itself(&variable(0))),
        };
        self.replace(at + 1, lift(abstraction(over, body)));
        at_16(at)
    }

    /// Lifts up to the first type past the bound, or more, all forced.
    fn too_large(&mut self) -> Option<Expected> {
        let at = self.random.below(self.survey.nodes.len());
        let least = MOST_ENTRIES + 1 - self.of(at)?.size();
        let lifts = least + self.random.below(3);
        if self.survey.nodes.len() + 2 * lifts > MOST_TERMS {
            return None;
        }
        let lifted = (0..lifts).fold(self.term(at).clone(), |part, _| lift(part));
        let forced = (0..lifts).fold(lifted, |part, _| force(part));
        self.replace(at, forced);
        at_16(at + 2 * lifts - least)
    }

    fn other_gate(&mut self) -> Option<Expected> {
        let at = self.some_of_kind(kinds::GATE)?;
        let gate = self.any_gate();
        self.replace(at, gate);
        Some(Expected::Anything)
    }

    fn other_over(&mut self) -> Option<Expected> {
        let at = self.some_of_kind(kinds::ABSTRACTION)?;
        let Term::Abstraction(over, body) = &**self.term(at) else {
            unreachable!("an abstraction");
        };
        let other = match self.random.below(4) {
            0 => {
                let size = self.random.between(1, 7);
                any_type(self.random, size)
            }
            _ => one_entry_changed(self.random, over),
        };
        self.replace(at, abstraction(other, body.clone()));
        Some(Expected::Anything)
    }

    fn other_variable(&mut self) -> Option<Expected> {
        let at = self.some_of_kind(kinds::VARIABLE)?;
        let binders = self.survey.nodes[at].scope.len();
        let other = self.random.below(binders);
        self.replace(at, variable(other));
        Some(Expected::Anything)
    }

    fn any_leaf(&mut self, at: usize) -> Rc<Term> {
        let binders = self.survey.nodes[at].scope.len();
        match self.random.below(4) {
            0 if binders > 0 => variable(self.random.below(binders)),
            1 => match self.some_label() {
                Some(number) => label(number),
                None => self.any_gate(),
            },
            2 => unit_value(),
            _ => self.any_gate(),
        }
    }

    fn other_leaf(&mut self) -> Option<Expected> {
        let survey = self.survey;
        let at = self.some_node(|at| survey.nodes[at].end == at + 1)?;
        let other = self.any_leaf(at);
        self.replace(at, other);
        Some(Expected::Anything)
    }

    /// A node replaced by a copy of another whose variables are all in scope,
    /// or by a leaf.
    fn other_part(&mut self) -> Option<Expected> {
        let at = self.random.below(self.survey.nodes.len());
        let scope = self.survey.nodes[at].scope.clone();
        let survey = self.survey;
        let other = self.some_node(|other| scope.starts_with(&survey.nodes[other].scope))?;
        let more = scope.len() - survey.nodes[other].scope.len();
        let part = match self.random.below(4) {
            0 => self.any_leaf(at),
            _ => shifted(self.term(other), more),
        };
        self.replace(at, part);
        Some(Expected::Anything)
    }

    fn parts_swapped(&mut self) -> Option<Expected> {
        let survey = self.survey;
        let at = self.some_node(|at| {
            matches!(
                &*survey.nodes[at].term,
                Term::Application(..) | Term::Pair(..) | Term::Apply(..)
            )
        })?;
        let swapped = match &**self.term(at) {
            Term::Application(first, second) => application(second.clone(), first.clone()),
            Term::Pair(first, second) => pair(second.clone(), first.clone()),
            Term::Apply(first, second) => apply(second.clone(), first.clone()),
            _ => unreachable!("two parts"),
        };
        self.replace(at, swapped);
        Some(Expected::Anything)
    }
}
