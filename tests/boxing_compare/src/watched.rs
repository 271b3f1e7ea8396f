//! A run of a program whose spots are all boxed, by the evaluator, with what the
//! boxes of the spots do in it.

use crate::spots::Spotted;
use evaluator::circuits::Boxed;
use evaluator::contexts::redex;
use evaluator::terms::{Form, Term};
use evaluator::{Answer, Configuration, Prepared};
use program_files::Type;
use std::collections::{BTreeSet, HashMap};
use std::rc::Rc;

/// What a spot did in the run.
#[derive(Clone, Default)]
pub struct Record {
    /// How often its box was opened.
    pub times: u32,
    /// The most boxes in which it was opened.
    pub deep: usize,
    /// Whether another box was opened in it.
    pub has_box: bool,
    /// The numbers of the gates of its circuits, and whether two of these differ.
    pub gates: BTreeSet<usize>,
    pub varies: bool,
    last: Option<Vec<usize>>,
    /// Whether a wire passes through a circuit of it, and whether the wires of a
    /// result stand in another order than they were made.
    pub passes: bool,
    pub crosses: bool,
    /// Whether both its argument and its circuit had gates.
    pub both_have_gates: bool,
    /// Whether a circuit of another box in which it was opened, or in which such a
    /// circuit was applied, was applied more than once.
    pub copied: bool,
}

pub struct Watched {
    pub answer: Answer,
    pub records: Vec<Record>,
}

impl Watched {
    pub fn run(spotted: &Spotted, limit: u32) -> Watched {
        let prepared = Prepared {
            labels: spotted.program.labels.clone(),
            term: Term::of_file(&spotted.program.term),
            of: spotted.of.clone(),
        };
        let spots = spotted.spots.iter().enumerate();
        let mut run = Run {
            numbers: spots
                .map(|(number, spot)| (Rc::as_ptr(&spot.takes), number))
                .collect(),
            records: vec![Record::default(); spotted.spots.len()],
            open: Vec::new(),
            closing: None,
            closed: HashMap::new(),
        };
        let answer = prepared.run_seen(limit, &mut |now| run.look(now));
        Watched {
            answer,
            records: run.records,
        }
    }

    /// How often the boxes of these spots were opened.
    pub fn times(&self, spots: &[bool]) -> u32 {
        let records = self.records.iter().zip(spots);
        records
            .map(|(record, &counts)| if counts { record.times } else { 0 })
            .sum()
    }
}

/// A box that is open, or was closed: the spot that it is of, if any, and the spots
/// that were opened in it.
struct Opened {
    spot: Option<usize>,
    inside: BTreeSet<usize>,
}

struct Closed {
    of: Opened,
    applied: usize,
    /// The gates of the frame below when it was closed.
    gates_before: usize,
}

struct Run {
    /// The spots by their types.
    numbers: HashMap<*const Type, usize>,
    records: Vec<Record>,
    open: Vec<Opened>,
    /// The box that the step before closed.
    closing: Option<Opened>,
    closed: HashMap<*const Boxed, Closed>,
}

impl Run {
    fn look(&mut self, now: &Configuration) {
        if let Some(of) = self.closing.take() {
            self.closed(now, of);
        }
        match redex(&now.innermost().term) {
            Some((_, redex)) => match &redex.form {
                Form::Box(at, _) => self.open(at),
                Form::Apply(circuit, _) => {
                    if let Form::Constant(constant) = &circuit.form {
                        self.apply(now, constant);
                    }
                }
                _ => {}
            },
            None => self.closing = self.open.pop(),
        }
    }

    fn open(&mut self, at: &Rc<Type>) {
        let spot = self.numbers.get(&Rc::as_ptr(at)).copied();
        for around in self.open.iter().filter_map(|around| around.spot) {
            self.records[around].has_box = true;
        }
        if let Some(spot) = spot {
            let record = &mut self.records[spot];
            record.times += 1;
            record.deep = record.deep.max(self.open.len());
            for around in &mut self.open {
                around.inside.insert(spot);
            }
        }
        let inside = BTreeSet::new();
        self.open.push(Opened { spot, inside });
    }

    fn closed(&mut self, now: &Configuration, of: Opened) {
        let constant = now.closed.last().expect("the circuit that was closed");
        if let Some(spot) = of.spot {
            let record = &mut self.records[spot];
            let gates = constant.gates.iter().map(|placed| placed.gate);
            let gates: Vec<usize> = gates.collect();
            record.gates.extend(&gates);
            let last = record.last.get_or_insert_with(|| gates.clone());
            record.varies |= *last != gates;
            let result = constant.result.labels();
            record.passes |= result.iter().any(|wire| constant.inputs.contains(wire));
            record.crosses |= !result.is_sorted();
        }
        let closed = Closed {
            of,
            applied: 0,
            gates_before: now.innermost().circuit.gates.len(),
        };
        self.closed.insert(Rc::as_ptr(constant), closed);
    }

    fn apply(&mut self, now: &Configuration, constant: &Rc<Boxed>) {
        let closed = self.closed.get_mut(&Rc::as_ptr(constant));
        let closed = closed.expect("a circuit that was closed");
        closed.applied += 1;
        if closed.applied == 2 {
            for &spot in &closed.of.inside {
                self.records[spot].copied = true;
            }
        }
        for around in &mut self.open {
            around.inside.extend(&closed.of.inside);
        }
        if let Some(spot) = closed.of.spot {
            let gates = now.innermost().circuit.gates.len() - closed.gates_before;
            self.records[spot].both_have_gates |= gates > 0 && !constant.gates.is_empty();
        }
    }
}
