//! Spots put into well-typed programs, at any node of a wire type. The program
//! keeps its type.

use crate::spots::Applied;
use evaluator::circuits::wires;
use program_files::{Random, Term, Type};
use programs::edit::{map_leaves, replaced};
use programs::nested::{taken_apart, Tree};
use programs::rules::copyable;
use programs::sequent::Sequent;
use programs::survey::{Node, Survey};
use programs::terms::{self, apply, gate, label, unit_value, variable};
use programs::typed::{term_for, Goal, Plan, Rule, Typed};
use programs::types::{self, any_wire_type, qubit, shuffle, unit, wire_type_with_units};
use std::rc::Rc;

/// Types of spots have at most so many entries, so that those of their boxes are
/// within the bound.
const MOST_ENTRIES: usize = 60;

/// So many places are tried for a spot.
const TRIES: usize = 8;

/// About so many entries has the body of a function that is made for a spot.
const MOST_TERMS: usize = 24;

/// The gates that take one Qubit and give one.
pub const ON_A_QUBIT: usize = 5;

/// A node of a wire type, and whether wires may come and go in a function that is made
/// for a spot there.
struct Place<'a> {
    survey: &'a Survey,
    at: usize,
    helpers: bool,
}

/// A way to put a spot at a node: the term that takes the node's place, if there is
/// one.
type Way = fn(&mut Random, &Place) -> Option<Rc<Term>>;

const WAYS: [Way; 5] = [around_node, there_and_back, as_body, as_body, box_applied];

/// The program with so many spots more, or fewer where a place is not found.
pub fn with_spots(random: &mut Random, typed: &Typed, count: usize, helpers: bool) -> Typed {
    let mut typed = typed.clone();
    for _ in 0..count {
        let survey = Survey::new(&typed.program.labels, &typed.program.term);
        let new = (0..TRIES).find_map(|_| {
            let way = random.pick(&WAYS);
            let place = Place {
                survey: &survey,
                at: random.below(survey.nodes.len()),
                helpers,
            };
            let fits = is_small_wire_type(&survey, place.at);
            let new = fits.then(|| way(random, &place)).flatten();
            Some(replaced(&survey, place.at, new?))
        });
        typed.program.term = new.unwrap_or(typed.program.term);
    }
    typed
}

fn is_small_wire_type(survey: &Survey, at: usize) -> bool {
    let of = survey.nodes[at].of.as_ref();
    of.is_some_and(|of| of.is_wire_type() && of.size() <= MOST_ENTRIES)
}

/// A function from the node's type to itself is applied to the node.
fn around_node(random: &mut Random, place: &Place) -> Option<Rc<Term>> {
    let of = place.of();
    let body = place.body(random, &of, &of)?;
    let put = Applied {
        over: of,
        body,
        argument: place.node().term.clone(),
    };
    Some(put.boxed())
}

/// A function to another wire type, and one back.
fn there_and_back(random: &mut Random, place: &Place) -> Option<Rc<Term>> {
    let of = place.of();
    let other = other_type(random, &of, place.helpers);
    let there = Applied {
        over: of.clone(),
        body: place.body(random, &of, &other)?,
        argument: place.node().term.clone(),
    };
    let back = Applied {
        over: other.clone(),
        body: place.body(random, &other, &of)?,
        argument: there.boxed(),
    };
    Some(back.boxed())
}

/// A wire type with the same wires in another order and with units among them, or
/// any small one where wires may come and go.
fn other_type(random: &mut Random, of: &Type, helpers: bool) -> Rc<Type> {
    if helpers && random.one_in(2) {
        let leaves = random.between(1, 4);
        return any_wire_type(random, leaves);
    }
    let mut wires = wires(of);
    shuffle(random, &mut wires);
    let units = random.pick(&[0, 0, 1, 2]);
    wire_type_with_units(random, &wires, units)
}

impl Place<'_> {
    fn node(&self) -> &Node {
        &self.survey.nodes[self.at]
    }

    fn of(&self) -> Rc<Type> {
        self.node().of.clone().expect("a wire type")
    }

    /// The body of a function between these types, which may use what can be copied of
    /// the node's scope.
    fn body(&self, random: &mut Random, from: &Rc<Type>, to: &Rc<Type>) -> Option<Rc<Term>> {
        let mut sequent = Sequent::new(Vec::new(), to, self.helpers);
        for &binder in self.node().scope.iter() {
            sequent = sequent.bind(self.survey.binders[binder].of.as_ref()?);
        }
        let mut sequent = sequent.with(Vec::new(), to).bind(from);
        sequent.boxes = self.node().boxes + 1;
        let terms = random.between(1, MOST_TERMS);
        let mut plan = Plan::new(Vec::new(), Goal::Exactly(to.clone()), terms);
        plan.type_size = random.pick(&[4, 8]);
        plan.helpers = self.helpers;
        plan.weigh(random);
        if !random.one_in(3) {
            plan = plan.favouring(&[Rule::Gate]);
        }
        let (body, _) = term_for(random, &plan, &sequent)?;
        Some(body)
    }
}

/// A wire of the node's term that is bound around it, or a label, by its term there,
/// or a unit more.
struct Taken {
    term: Rc<Term>,
    of: Rc<Type>,
}

/// The node's term is the body of a function of all its wires. None if it holds
/// something linear of another type.
fn as_body(random: &mut Random, place: &Place) -> Option<Rc<Term>> {
    let (survey, at, node) = (place.survey, place.at, place.node());
    // A body that is a leaf does not do much.
    if node.end == at + 1 && !random.one_in(8) {
        return None;
    }
    let mut taken: Vec<Taken> = Vec::new();
    for inside in at..node.end {
        taken.extend(match &*survey.nodes[inside].term {
            Term::Variable(_) => match bound_around(survey, at, inside) {
                Some((argument, of)) if !copyable(of) => Some(Taken {
                    term: variable(argument),
                    of: of.clone(),
                }),
                _ => None,
            },
            Term::Label(_) => Some(Taken {
                term: survey.nodes[inside].term.clone(),
                of: survey.nodes[inside].of.clone()?,
            }),
            _ => None,
        });
    }
    if !taken.iter().all(|taken| taken.of.is_wire_type()) {
        return None;
    }
    let units = random.pick(&[0, 0, 0, 1, 2]);
    for _ in 0..units.max(usize::from(taken.is_empty())) {
        let (term, of) = (unit_value(), unit());
        taken.insert(random.between(0, taken.len()), Taken { term, of });
    }
    if random.one_in(2) {
        shuffle(random, &mut taken);
    }
    let tree = Tree::of_leaves(random, taken.len());
    let over = tree.filled(&mut taken.iter().map(|taken| taken.of.clone()), types::pair);
    if over.size() > MOST_ENTRIES {
        return None;
    }
    let body = taken_apart(&tree, |leaves| {
        let more = 1 + 2 * (taken.len() - 1);
        map_leaves(&node.term, 0, &mut |leaf, binders| {
            renamed(leaf, binders, &taken, leaves, more)
        })
    });
    let mut arguments = taken.iter().map(|taken| with_gate(random, taken));
    let argument = tree.filled(&mut arguments, terms::pair);
    let put = Applied {
        over,
        body,
        argument,
    };
    Some(put.boxed())
}

/// For a variable inside a node that is bound around that node: its argument at the
/// node, and its type.
fn bound_around(survey: &Survey, at: usize, inside: usize) -> Option<(usize, &Rc<Type>)> {
    let binder = survey.binder(inside)?;
    let scope = &survey.nodes[at].scope;
    let outside = scope.iter().position(|&other| other == binder)?;
    let of = survey.binders[binder].of.as_ref()?;
    Some((scope.len() - 1 - outside, of))
}

/// A leaf of the node's term under so many binders of its own, and under so many more
/// that take the wires apart.
fn renamed(
    leaf: &Rc<Term>,
    binders: usize,
    taken: &[Taken],
    leaves: &[usize],
    more: usize,
) -> Rc<Term> {
    let outside = match **leaf {
        Term::Variable(argument) if usize::from(argument) < binders => return leaf.clone(),
        Term::Variable(argument) => variable(usize::from(argument) - binders),
        Term::Label(number) => label(usize::from(number)),
        _ => return leaf.clone(),
    };
    match taken.iter().position(|taken| taken.term == outside) {
        Some(at) => variable(binders + leaves[at]),
        None => match **leaf {
            Term::Variable(argument) => variable(usize::from(argument) + more),
            _ => unreachable!("every label is taken"),
        },
    }
}

/// A wire, a Qubit sometimes through a gate.
fn with_gate(random: &mut Random, taken: &Taken) -> Rc<Term> {
    match taken.of == qubit() && random.one_in(3) {
        true => apply(gate(random.below(ON_A_QUBIT)), taken.term.clone()),
        false => taken.term.clone(),
    }
}

/// The node applies an abstraction that holds nothing linear.
fn box_applied(_: &mut Random, place: &Place) -> Option<Rc<Term>> {
    let put = applied(place.survey, place.at)?;
    let holds = holds_linear(place.survey, place.at + 1);
    (!holds).then(|| put.boxed())
}

/// The abstraction from a wire type to a wire type that the node applies.
pub fn applied(survey: &Survey, at: usize) -> Option<Applied> {
    let Term::Application(function, argument) = &*survey.nodes[at].term else {
        return None;
    };
    let Term::Abstraction(over, body) = &**function else {
        return None;
    };
    let fits = is_small_wire_type(survey, at) && over.is_wire_type() && over.size() <= MOST_ENTRIES;
    fits.then(|| Applied {
        over: over.clone(),
        body: body.clone(),
        argument: argument.clone(),
    })
}

/// Whether the node holds a label or a linear variable that is bound around it.
pub fn holds_linear(survey: &Survey, at: usize) -> bool {
    (at..survey.nodes[at].end).any(|inside| match *survey.nodes[inside].term {
        Term::Label(_) => true,
        _ => bound_around(survey, at, inside).is_some_and(|(_, of)| !copyable(of)),
    })
}
