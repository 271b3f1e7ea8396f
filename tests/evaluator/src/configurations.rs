//! Configurations, their sizes and their steps.

use super::circuits::{wires, Boxed, Circuit};
use super::contexts::redex;
use super::terms::{Form, Term};
use program_files::{Type, Wire};
use std::rc::Rc;

/// The most term nodes over all open boxes.
pub const MOST_NODES: usize = 4_096;
/// The most gates over all circuits, open or closed.
pub const MOST_GATES: usize = 2_048;
/// The most boxes closed.
pub const MOST_BOXES: usize = 256;

/// An open box.
#[derive(Clone, Debug)]
pub struct Frame {
    pub circuit: Circuit,
    pub term: Rc<Term>,
}

#[derive(Clone, Debug)]
pub struct Configuration {
    /// The open boxes, outermost first.
    pub frames: Vec<Frame>,
    /// The circuits closed so far, in order, used or not.
    pub closed: Vec<Rc<Boxed>>,
}

impl Configuration {
    /// One frame with the labels as inputs, no gate, and the term.
    pub fn start(labels: &[Wire], term: &Rc<Term>) -> Configuration {
        Configuration {
            frames: vec![Frame {
                circuit: Circuit::empty(labels),
                term: term.clone(),
            }],
            closed: Vec::new(),
        }
    }

    pub fn innermost(&self) -> &Frame {
        self.frames.last().expect("at least one frame")
    }

    /// One frame, its term a value.
    pub fn is_finished(&self) -> bool {
        self.frames.len() == 1 && self.innermost().term.is_value
    }

    /// Each frame's whole term.
    pub fn nodes(&self) -> usize {
        self.frames.iter().map(|frame| frame.term.nodes).sum()
    }

    /// The gates of all circuits, open or closed.
    pub fn gates(&self) -> usize {
        let open = self.frames.iter().map(|frame| frame.circuit.gates.len());
        let closed = self.closed.iter().map(|boxed| boxed.gates.len());
        open.sum::<usize>() + closed.sum::<usize>()
    }

    pub fn fits(&self) -> bool {
        self.nodes() <= MOST_NODES && self.gates() <= MOST_GATES && self.closed.len() <= MOST_BOXES
    }

    /// The configuration after one step. There is one for every configuration
    /// of a well-typed program that is not finished.
    pub fn next(mut self) -> Configuration {
        let frame = self.frames.last_mut().expect("at least one frame");
        let Some((context, redex)) = redex(&frame.term) else {
            return self.box_exit();
        };
        match &redex.form {
            Form::Application(function, argument) => {
                let Form::Abstraction(body) = &function.form else {
                    panic!("{function:?} is applied");
                };
                let values = [argument.clone()];
                frame.term = context.plug(body.with_values(&values));
            }
            Form::Let(pair, body) => {
                let Form::Pair(first, second) = &pair.form else {
                    panic!("{pair:?} is taken apart");
                };
                let values = [second.clone(), first.clone()];
                frame.term = context.plug(body.with_values(&values));
            }
            Form::Force(lift) => {
                let Form::Lift(body) = &lift.form else {
                    panic!("{lift:?} is forced");
                };
                frame.term = context.plug(body.clone());
            }
            Form::Box(at, lift) => {
                let Form::Lift(function) = &lift.form else {
                    panic!("{lift:?} is boxed");
                };
                return self.box_entry(at, function);
            }
            Form::Apply(circuit, argument) => {
                let constant = match &circuit.form {
                    Form::Gate(gate) => Rc::new(Boxed::of_gate(*gate)),
                    Form::Constant(constant) => constant.clone(),
                    other => panic!("{other:?} is applied to wires"),
                };
                let result = frame.circuit.append(&constant, argument);
                frame.term = context.plug(result);
            }
            other => panic!("{other:?} is no redex"),
        }
        self
    }

    /// Opens an empty circuit with one label for each wire, in which the
    /// function is applied to their tuple. The frame below keeps its term.
    fn box_entry(mut self, at: &Type, function: &Rc<Term>) -> Configuration {
        let circuit = Circuit::empty(&wires(at));
        let labels = &mut circuit.inputs.iter().map(|&(wire, _)| wire);
        let term = Form::Application(function.clone(), Term::tuple(at, labels));
        self.frames.push(Frame {
            circuit,
            term: Term::new(term),
        });
        self
    }

    /// Closes the innermost circuit; the constant takes the place of the box
    /// in the frame below.
    fn box_exit(mut self) -> Configuration {
        let top = self.frames.pop().expect("at least one frame");
        let below = self.frames.last_mut().expect("a frame below");
        let constant = Rc::new(top.circuit.close(&top.term));
        let (context, _) = redex(&below.term).expect("a box that was entered");
        below.term = context.plug(Term::new(Form::Constant(constant.clone())));
        self.closed.push(constant);
        self
    }
}
