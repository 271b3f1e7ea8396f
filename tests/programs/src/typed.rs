//! Well-typed programs from a seed. Each term is made for the type that it is
//! to have, from what must be used in it.

use crate::edit::map_leaves;
use crate::plain::{fits, plain, Binding};
use crate::rules::MOST_ENTRIES;
use crate::sequent::{is_function, is_pair, Held, Name, Sequent};
use crate::terms;
use crate::types::{
    any_type, any_wire_type, any_wires, changed_wires, circuit, function, made_of, open_type, pair,
    parameter_type, pieces, reusable, shuffle, wire_type_with_units,
};
use program_files::{Lean, Program, Random, Term, Type, Wire, GATES};
use std::collections::HashSet;
use std::rc::Rc;

/// The number of the gate.
const CCX: usize = 11;

/// How a term is made.
#[derive(Clone, Copy, PartialEq, Eq, Debug)]
pub enum Rule {
    /// Pair, abstraction, lift or box, as the goal says.
    Introduce,
    /// A function, mostly an abstraction, applied to something new.
    Application,
    /// A new pair taken apart.
    Let,
    Force,
    /// A new circuit applied.
    Apply,
    /// A gate applied.
    Gate,
    /// A linear function in hand applied.
    Call,
    /// A variable used that may be copied and dropped.
    Use,
    /// A pair in hand taken apart.
    Open,
}

pub const RULES: [Rule; 9] = [
    Rule::Introduce,
    Rule::Application,
    Rule::Let,
    Rule::Force,
    Rule::Apply,
    Rule::Gate,
    Rule::Call,
    Rule::Use,
    Rule::Open,
];

#[derive(Clone, PartialEq, Eq, Debug)]
pub enum Goal {
    /// A wire type that the labels can become, any wire type where wires may
    /// come and go.
    Wires,
    /// Any type that the labels can become.
    Made,
    /// A function from sources and sinks to any type of so many entries.
    Open(usize),
    Exactly(Rc<Type>),
}

#[derive(Clone, PartialEq, Eq, Debug)]
pub struct Plan {
    pub labels: Vec<Wire>,
    pub goal: Goal,
    /// About so many term entries.
    pub terms: usize,
    /// At most so many type entries.
    pub types: usize,
    /// About so many entries in a type that is chosen on the way.
    pub type_size: usize,
    /// At most so many boxes inside each other.
    pub boxes: usize,
    /// Whether wires may come from Init and go to Discard.
    pub helpers: bool,
    /// Pairs that may be copied are chosen on the way at most so deep, and
    /// seldom if it is 0.
    pub pairs: usize,
    /// Which of two parts gets the entries.
    pub lean: Lean,
    /// How often each rule is tried, in the order of `RULES`.
    pub weights: [usize; RULES.len()],
}

impl Plan {
    /// All rules, and the numbers given.
    pub fn new(labels: Vec<Wire>, goal: Goal, terms: usize) -> Plan {
        Plan {
            labels,
            goal,
            terms,
            types: 512,
            type_size: 12,
            boxes: 8,
            helpers: false,
            pairs: 0,
            lean: Lean::Any,
            weights: [2, 2, 2, 1, 2, 2, 2, 8, 2],
        }
    }

    /// Any rules, goals and numbers up to those given.
    pub fn any(random: &mut Random, labels: usize, terms: usize) -> Plan {
        let labels = random.between(0, labels);
        let goal = match random.below(6) {
            0 | 1 => Goal::Wires,
            2 | 3 => Goal::Open(random.between(1, 24)),
            _ => Goal::Made,
        };
        let mut plan = Plan::new(any_wires(random, labels), goal, random.between(1, terms));
        plan.types = random.pick(&[40, 100, 512, 512]);
        plan.type_size = random.pick(&[4, 8, 16, 30]);
        plan.boxes = random.between(1, 8);
        plan.helpers = random.one_in(4);
        plan.weigh(random);
        plan
    }

    /// A program that runs: its type is a wire type.
    pub fn of_wires(random: &mut Random, labels: usize, terms: usize) -> Plan {
        let labels = match random.below(10) {
            0 => 0,
            _ => random.between(1, labels),
        };
        let labels = any_wires(random, labels);
        let mut plan = Plan::new(labels, Goal::Wires, random.between(1, terms));
        plan.type_size = random.pick(&[4, 8, 16]);
        plan.boxes = random.between(1, 8);
        plan.helpers = random.one_in(3);
        plan.weigh(random);
        plan
    }

    /// All rules alike a third of the time, else any weights, and some rules
    /// left out.
    pub fn weigh(&mut self, random: &mut Random) {
        if random.one_in(2) {
            self.lean = random.pick(&Lean::ALL);
        }
        if random.one_in(3) {
            return;
        }
        for weight in &mut self.weights {
            *weight *= random.pick(&[0, 1, 1, 2, 4]);
        }
        self.weights[0] = self.weights[0].max(1);
    }

    /// These rules more often than the others.
    pub fn favouring(mut self, rules: &[Rule]) -> Plan {
        for (rule, weight) in RULES.iter().zip(&mut self.weights) {
            if rules.contains(rule) {
                *weight = 40;
            }
        }
        self
    }

    /// Wires may come and go.
    pub fn with_helpers(mut self) -> Plan {
        self.helpers = true;
        self
    }

    /// Boxes inside each other, 8 where there is room.
    pub fn with_nested_boxes(mut self) -> Plan {
        self.terms = self.terms.max(60);
        self.boxes = 8;
        self.lean = Lean::First;
        self.favouring(&[Rule::Apply, Rule::Introduce])
    }

    /// Circuits and reusable functions for the wires in hand, which are then
    /// used several times.
    pub fn with_copies(mut self) -> Plan {
        self.terms = self.terms.max(30);
        self.type_size = 4;
        self.lean = Lean::First;
        self.weights = [10, 10, 1, 0, 0, 2, 2, 30, 4];
        self
    }

    /// Pairs of such, at most so deep.
    pub fn with_pairs(mut self, depth: usize) -> Plan {
        self = self.with_copies();
        self.pairs = depth;
        self.lean = Lean::Any;
        self.weights = [20, 10, 2, 10, 20, 2, 2, 30, 4];
        self
    }
}

/// A program and its type.
#[derive(Clone, Debug)]
pub struct Typed {
    pub program: Program,
    pub of: Rc<Type>,
}

/// A program of the plan; none if it asks for too much.
pub fn typed(random: &mut Random, plan: &Plan) -> Option<Typed> {
    let goal = goal_of(random, plan);
    let labels = plan.labels.iter().enumerate().map(|(number, wire)| Held {
        name: Name::Label(number),
        of: wire.as_type(),
    });
    let sequent = Sequent::new(labels.collect(), &goal, plan.helpers);
    let (term, listed) = term_for(random, plan, &sequent)?;
    Some(Typed {
        program: Program {
            labels: plan.labels.clone(),
            listed,
            term,
        },
        of: goal,
    })
}

/// A term for the sequent, of the plan's numbers and rules, and the types that it
/// lists; none if that asks for too much.
pub fn term_for(
    random: &mut Random,
    plan: &Plan,
    sequent: &Sequent,
) -> Option<(Rc<Term>, Vec<Rc<Type>>)> {
    let mut generator = Generator {
        random,
        plan,
        known: HashSet::new(),
        listed: Vec::new(),
        room: plan.types,
    };
    if !generator.know_goal(&sequent.goal) || !fits(sequent, generator.random) {
        return None;
    }
    let term = generator.term(sequent, plan.terms);
    Some((term, generator.listed))
}

fn goal_of(random: &mut Random, plan: &Plan) -> Rc<Type> {
    match &plan.goal {
        Goal::Wires if plan.helpers && random.one_in(2) => {
            let leaves = random.between(1, 8);
            any_wire_type(random, leaves)
        }
        Goal::Wires => {
            let wires = changed_wires(random, &plan.labels, 6);
            let units = random.pick(&[0, 0, 0, 1, 2]);
            wire_type_with_units(random, &wires, units)
        }
        Goal::Made => {
            let parts: Vec<Rc<Type>> = plan.labels.iter().map(|wire| wire.as_type()).collect();
            made_of(random, &parts, plan.type_size)
        }
        Goal::Open(size) => {
            let to = any_type(random, *size);
            open_type(random, to)
        }
        Goal::Exactly(of) => of.clone(),
    }
}

/// Whether the rule has a place here.
fn has_place(rule: Rule, sequent: &Sequent) -> bool {
    let mut linear = sequent.linear.iter();
    match rule {
        Rule::Introduce => match *sequent.goal {
            Type::Bit | Type::Qubit | Type::Unit => false,
            Type::Pair(..) | Type::Function(..) => true,
            Type::Reusable(_) | Type::Circuit(..) => sequent.linear.is_empty(),
        },
        Rule::Application | Rule::Let | Rule::Force => true,
        Rule::Apply => sequent.goal.is_wire_type(),
        Rule::Gate => sequent.open || !sequent.linear.is_empty(),
        Rule::Call => linear.any(|held| is_function(&held.of)),
        Rule::Use => !sequent.copyable.is_empty(),
        Rule::Open => linear.any(|held| is_pair(&held.of)),
    }
}

/// With fewer entries than this left, a term is the plain one.
const LEAST_LEFT: usize = 3;
/// So many rules are tried before that, too.
const TRIES: usize = 6;

struct Generator<'a> {
    random: &'a mut Random,
    plan: &'a Plan,
    /// The types at all positions of the listed ones.
    known: HashSet<Rc<Type>>,
    listed: Vec<Rc<Type>>,
    /// How many type entries are left.
    room: usize,
}

/// Something in hand applied to an argument, or forced.
struct Step {
    head: Rc<Term>,
    /// Whether the head is a circuit.
    circuit: bool,
    argument: Option<Sequent>,
    result: Rc<Type>,
    rest: Sequent,
}

impl Generator<'_> {
    /// Lists the type if it stands at no position yet; false if there is no
    /// room for it.
    fn know(&mut self, of: &Rc<Type>) -> bool {
        if self.known.contains(of) {
            return true;
        }
        let size = of.size();
        if size > self.room {
            return false;
        }
        self.room -= size;
        self.listed.push(of.clone());
        self.know_inside(of);
        true
    }

    fn know_inside(&mut self, of: &Rc<Type>) {
        if self.known.insert(of.clone()) {
            for part in of.parts() {
                self.know_inside(part);
            }
        }
    }

    /// Lists what abstractions and boxes need in a term of this type.
    fn know_goal(&mut self, goal: &Rc<Type>) -> bool {
        match &**goal {
            Type::Bit | Type::Qubit | Type::Unit => true,
            Type::Pair(first, second) => self.know_goal(first) && self.know_goal(second),
            Type::Function(from, to) => self.know(from) && self.know_goal(to),
            Type::Reusable(of) => self.know_goal(of),
            Type::Circuit(from, _) => self.know(from),
        }
    }

    /// A term of about so many entries. The sequent has a plain one.
    fn term(&mut self, sequent: &Sequent, size: usize) -> Rc<Term> {
        if size >= LEAST_LEFT {
            let mut weights = self.plan.weights;
            for (rule, weight) in RULES.into_iter().zip(&mut weights) {
                if !has_place(rule, sequent) {
                    *weight = 0;
                }
            }
            for _ in 0..TRIES {
                let rule = self.rule(&weights);
                let term = rule.and_then(|rule| self.by_rule(rule, sequent, size));
                if let Some(term) = term {
                    return term;
                }
            }
        }
        plain(sequent, self.random).expect("a plain term")
    }

    fn rule(&mut self, weights: &[usize]) -> Option<Rule> {
        let sum: usize = weights.iter().sum();
        let mut at = if sum > 0 { self.random.below(sum) } else { 0 };
        for (rule, &weight) in RULES.into_iter().zip(weights) {
            if at < weight {
                return Some(rule);
            }
            at -= weight;
        }
        None
    }

    fn by_rule(&mut self, rule: Rule, sequent: &Sequent, size: usize) -> Option<Rc<Term>> {
        match rule {
            Rule::Introduce => self.introduce(sequent, size),
            Rule::Application => self.application(sequent, size),
            Rule::Let => self.let_pair(sequent, size),
            Rule::Force => self.force(sequent, size),
            Rule::Apply => self.apply(sequent, size),
            Rule::Gate => self.gate(sequent, size),
            Rule::Call => self.call(sequent, size),
            Rule::Use => self.use_variable(sequent, size),
            Rule::Open => self.open(sequent, size),
        }
    }

    fn fits(&mut self, sequent: &Sequent) -> bool {
        fits(sequent, self.random)
    }

    /// Terms for two sequents, which share the entries.
    fn two(&mut self, first: &Sequent, second: &Sequent, size: usize) -> (Rc<Term>, Rc<Term>) {
        let left = size.saturating_sub(1);
        let share = match self.plan.lean {
            Lean::First => left,
            Lean::Second => 0,
            Lean::Even => left / 2,
            Lean::Any => self.random.between(0, left),
        };
        let first = self.term(first, share);
        (first, self.term(second, left - share))
    }

    fn introduce(&mut self, sequent: &Sequent, size: usize) -> Option<Rc<Term>> {
        match &*sequent.goal {
            Type::Bit | Type::Qubit | Type::Unit => unreachable!("a type without parts"),
            Type::Pair(first, second) => {
                let (given, rest) = self.share(sequent, first)?;
                let first = sequent.with(given, first);
                let second = sequent.with(rest, second);
                if !self.fits(&first) || !self.fits(&second) {
                    return None;
                }
                let (first, second) = self.two(&first, &second, size);
                Some(terms::pair(first, second))
            }
            Type::Function(from, to) => {
                let body = sequent.bind(from).with_goal(to);
                if !self.fits(&body) {
                    return None;
                }
                let body = self.term(&body, size - 1);
                Some(terms::abstraction(from.clone(), body))
            }
            Type::Reusable(of) => {
                let part = sequent.with_goal(of);
                if !self.fits(&part) {
                    return None;
                }
                Some(terms::lift(self.term(&part, size - 1)))
            }
            Type::Circuit(from, to) => {
                let of = reusable(function(from.clone(), to.clone()));
                let mut part = sequent.with_goal(&of);
                part.boxes += 1;
                if part.boxes >= self.plan.boxes || of.size() > MOST_ENTRIES || !self.fits(&part) {
                    return None;
                }
                let part = self.term(&part, size - 1);
                Some(terms::boxed(from.clone(), part))
            }
        }
    }

    /// The linear ones for a part of this type, and the others: any where
    /// there are sources and sinks.
    fn share(&mut self, sequent: &Sequent, of: &Rc<Type>) -> Option<(Vec<Held>, Vec<Held>)> {
        if sequent.open && self.random.one_in(2) {
            return Some(self.some(sequent));
        }
        let mut shuffled = sequent.clone();
        shuffle(self.random, &mut shuffled.linear);
        shuffled.share(of)
    }

    /// Some of the linear ones, and the others.
    fn some(&mut self, sequent: &Sequent) -> (Vec<Held>, Vec<Held>) {
        let count = sequent.linear.len();
        let taken: Vec<bool> = match self.random.below(4) {
            0 => vec![false; count],
            1 => vec![true; count],
            2 if count > 0 => {
                let only = self.random.below(count);
                (0..count).map(|at| at == only).collect()
            }
            _ => (0..count).map(|_| self.random.one_in(2)).collect(),
        };
        let part = |wanted: bool| -> Vec<Held> {
            let held = sequent.linear.iter().zip(&taken);
            held.filter(|(_, &taken)| taken == wanted)
                .map(|(held, _)| held.clone())
                .collect()
        };
        (part(true), part(false))
    }

    /// A type that these can become.
    fn type_from(&mut self, sequent: &Sequent, given: &[Held]) -> Rc<Type> {
        let room = self.plan.type_size;
        if sequent.open && self.random.one_in(2) {
            let size = self.random.between(1, room);
            return any_type(self.random, size);
        }
        let parts: Vec<Rc<Type>> = given.iter().flat_map(|held| pieces(&held.of)).collect();
        if parts.is_empty() && self.plan.pairs > 0 && self.random.one_in(2) {
            let known: Vec<&Held> = pairs_of(&sequent.copyable).collect();
            if !known.is_empty() && self.random.one_in(2) {
                return known[self.random.below(known.len())].of.clone();
            }
            let depth = self.random.between(1, self.plan.pairs);
            return self.pairs_to_use(sequent, depth);
        }
        if parts.is_empty() && !self.random.one_in(4) {
            if let Some(of) = self.type_to_use(sequent) {
                return of;
            }
        }
        made_of(self.random, &parts, room)
    }

    /// Pairs of exactly this depth that may be copied, some of them to be used
    /// with the wires in hand.
    fn pairs_to_use(&mut self, sequent: &Sequent, depth: usize) -> Rc<Type> {
        if depth == 0 {
            let size = self.random.between(3, 4);
            let to_use = self.one_to_use(sequent).filter(|of| of.size() <= 8);
            return to_use.unwrap_or_else(|| parameter_type(self.random, size));
        }
        let deep = self.pairs_to_use(sequent, depth - 1);
        let other = match self.random.below(4) {
            0 => self.random.below(depth.min(2)),
            _ => 0,
        };
        let other = self.pairs_to_use(sequent, other);
        match self.random.below(2) {
            0 => pair(deep, other),
            _ => pair(other, deep),
        }
    }

    /// A circuit or reusable function for some of the wires in hand, or pairs
    /// of such.
    fn type_to_use(&mut self, sequent: &Sequent) -> Option<Rc<Type>> {
        let of = self.one_to_use(sequent)?;
        if of.size() > self.plan.type_size || !self.random.one_in(3) {
            return Some(of);
        }
        let other = self.type_to_use(sequent)?;
        Some(match self.random.below(2) {
            0 => pair(of, other),
            _ => pair(other, of),
        })
    }

    fn one_to_use(&mut self, sequent: &Sequent) -> Option<Rc<Type>> {
        let in_hand = sequent.linear.iter().flat_map(|held| pieces(&held.of));
        let mut wires: Vec<Wire> = in_hand
            .filter_map(|piece| match *piece {
                Type::Bit => Some(Wire::Bit),
                Type::Qubit => Some(Wire::Qubit),
                _ => None,
            })
            .collect();
        if wires.is_empty() && !sequent.helpers {
            return None;
        }
        let helpers = sequent.helpers && self.random.one_in(2);
        shuffle(self.random, &mut wires);
        wires.truncate(self.random.between(usize::from(!helpers), 3));
        let units = self.random.pick(&[0, 0, 0, 1]);
        let from = wire_type_with_units(self.random, &wires, units);
        let to = if helpers {
            let leaves = self.random.between(1, 3);
            any_wire_type(self.random, leaves)
        } else {
            let units = self.random.pick(&[0, 0, 0, 1]);
            let wires = changed_wires(self.random, &wires, 8);
            wire_type_with_units(self.random, &wires, units)
        };
        Some(match self.random.below(4) {
            0 => reusable(function(from, to)),
            1 => reusable(circuit(from, to)),
            _ => circuit(from, to),
        })
    }

    fn application(&mut self, sequent: &Sequent, size: usize) -> Option<Rc<Term>> {
        let (given, rest) = self.some(sequent);
        let from = self.type_from(sequent, &given);
        let of = function(from.clone(), sequent.goal.clone());
        if of.size() > MOST_ENTRIES {
            return None;
        }
        let argument = sequent.with(given, &from);
        let head = sequent.with(rest, &of);
        if !self.fits(&argument) || !self.fits(&head) || !self.know(&from) {
            return None;
        }
        let (head, argument) = self.two(&head, &argument, size);
        Some(terms::application(head, argument))
    }

    fn let_pair(&mut self, sequent: &Sequent, size: usize) -> Option<Rc<Term>> {
        let (given, rest) = self.some(sequent);
        let in_first = self.random.between(0, given.len());
        let half = self.type_from(sequent, &given[..in_first]);
        let other = self.type_from(sequent, &given[in_first..]);
        let of = pair(half.clone(), other.clone());
        if of.size() > MOST_ENTRIES {
            return None;
        }
        let first = sequent.with(given, &of);
        let second = sequent.with(rest, &sequent.goal).bind_two(&half, &other);
        let mut halves = [half, other].into_iter();
        if !self.fits(&first)
            || !self.fits(&second)
            || !halves.all(|half| half.is_wire_type() || self.know(&half))
        {
            return None;
        }
        let (first, second) = self.two(&first, &second, size);
        Some(terms::let_in(first, second))
    }

    fn force(&mut self, sequent: &Sequent, size: usize) -> Option<Rc<Term>> {
        let part = sequent.with_goal(&reusable(sequent.goal.clone()));
        if part.goal.size() > MOST_ENTRIES || !self.fits(&part) {
            return None;
        }
        Some(terms::force(self.term(&part, size - 1)))
    }

    fn apply(&mut self, sequent: &Sequent, size: usize) -> Option<Rc<Term>> {
        let mut wires: Vec<Wire> = pieces(&sequent.goal)
            .iter()
            .map(|piece| match **piece {
                Type::Bit if self.random.one_in(2) => Wire::Bit,
                _ => Wire::Qubit,
            })
            .collect();
        if sequent.open && self.random.one_in(2) {
            let count = self.random.between(0, 4);
            wires = any_wires(self.random, count);
        }
        shuffle(self.random, &mut wires);
        let units = self.random.pick(&[0, 0, 0, 1]);
        let from = wire_type_with_units(self.random, &wires, units);
        let of = circuit(from.clone(), sequent.goal.clone());
        let (given, rest) = match sequent.open {
            true => self.some(sequent),
            false => (sequent.linear.clone(), Vec::new()),
        };
        let argument = sequent.with(given, &from);
        let head = sequent.with(rest, &of);
        if of.size() >= MOST_ENTRIES
            || !self.fits(&argument)
            || !self.fits(&head)
            || !self.know(&from)
        {
            return None;
        }
        let (head, argument) = self.two(&head, &argument, size);
        Some(terms::apply(head, argument))
    }

    /// A gate, more often than others the one that needs three wires.
    fn gate(&mut self, sequent: &Sequent, size: usize) -> Option<Rc<Term>> {
        let number = match self.random.below(5) {
            0 => CCX,
            _ => self.random.below(GATES.len()),
        };
        let Type::Circuit(from, to) = &*GATES[number].circuit_type() else {
            unreachable!("a gate is a circuit");
        };
        let whole = *to == sequent.goal && self.random.one_in(2);
        let (given, rest) = match whole {
            true => (sequent.linear.clone(), Vec::new()),
            false => self.share(sequent, from)?,
        };
        let step = Step {
            head: terms::gate(number),
            circuit: true,
            argument: Some(sequent.with(given, from)),
            result: to.clone(),
            rest: sequent.with(rest, &sequent.goal),
        };
        self.finish(step, size)
    }

    fn call(&mut self, sequent: &Sequent, size: usize) -> Option<Rc<Term>> {
        let functions: Vec<usize> = (0..sequent.linear.len())
            .filter(|&at| is_function(&sequent.linear[at].of))
            .collect();
        let (held, rest) = sequent.take(self.random.pick(&functions));
        let Type::Function(from, to) = &*held.of else {
            unreachable!("a function");
        };
        let (given, left) = self.share(&rest, from)?;
        let step = Step {
            head: sequent.leaf(&held),
            circuit: false,
            argument: Some(rest.with(given, from)),
            result: to.clone(),
            rest: rest.with(left, &sequent.goal),
        };
        self.finish(step, size)
    }

    fn use_variable(&mut self, sequent: &Sequent, size: usize) -> Option<Rc<Term>> {
        let mut variables = sequent.copyable.clone();
        shuffle(self.random, &mut variables);
        if self.plan.pairs > 0 && self.random.one_in(2) {
            variables.sort_by_key(|held| !is_pair(&held.of));
        }
        variables.truncate(TRIES);
        variables
            .iter()
            .find_map(|held| self.use_this(sequent, held, size))
    }

    fn use_this(&mut self, sequent: &Sequent, held: &Held, size: usize) -> Option<Rc<Term>> {
        let leaf = sequent.leaf(held);
        if held.of == sequent.goal && sequent.linear.is_empty() {
            return Some(leaf);
        }
        let (head, result, is_circuit) = match &*held.of {
            Type::Reusable(of) => (terms::force(leaf), of, false),
            _ => (leaf, &held.of, true),
        };
        let step = match &**result {
            Type::Function(from, to) | Type::Circuit(from, to)
                if is_circuit || (is_function(result) && *result != sequent.goal) =>
            {
                let (given, rest) = self.share(sequent, from)?;
                Step {
                    head,
                    circuit: is_circuit,
                    argument: Some(sequent.with(given, from)),
                    result: to.clone(),
                    rest: sequent.with(rest, &sequent.goal),
                }
            }
            _ => Step {
                head,
                circuit: false,
                argument: None,
                result: result.clone(),
                rest: sequent.clone(),
            },
        };
        self.finish(step, size)
    }

    fn open(&mut self, sequent: &Sequent, size: usize) -> Option<Rc<Term>> {
        let pairs: Vec<usize> = (0..sequent.linear.len())
            .filter(|&at| is_pair(&sequent.linear[at].of))
            .collect();
        let (held, rest) = sequent.take(self.random.pick(&pairs));
        let step = Step {
            head: sequent.leaf(&held),
            circuit: false,
            argument: None,
            result: held.of.clone(),
            rest,
        };
        self.finish(step, size)
    }

    /// The step's result is the term, or comes into hand for the rest.
    fn finish(&mut self, step: Step, size: usize) -> Option<Rc<Term>> {
        if let Some(argument) = &step.argument {
            if !self.fits(argument) {
                return None;
            }
        }
        let rest = &step.rest;
        let whole = rest.linear.is_empty() && step.result == rest.goal;
        if whole && !self.random.one_in(4) {
            return Some(self.made(&step, size));
        }
        let binding = Binding::new(&step.result, rest);
        let body = binding.body(&step.result, rest)?;
        if !self.fits(&body) || !(binding == Binding::Halves || self.know(&step.result)) {
            return None;
        }
        let share = self.random.between(0, size / 2);
        let term = self.made(&step, share);
        let body = self.term(&body, size.saturating_sub(share + 2));
        Some(binding.bound(&step.result, term, body))
    }

    fn made(&mut self, step: &Step, size: usize) -> Rc<Term> {
        let Some(argument) = &step.argument else {
            return step.head.clone();
        };
        let argument = self.term(argument, size.saturating_sub(2));
        match step.circuit {
            true => terms::apply(step.head.clone(), argument),
            false => terms::application(step.head.clone(), argument),
        }
    }
}

fn pairs_of(held: &[Held]) -> impl Iterator<Item = &Held> {
    held.iter().filter(|held| is_pair(&held.of))
}

/// The same program with exactly so many term entries: forced lifts around
/// gates and values of unit, gates around Qubit labels, and an abstraction of one variable. None
/// if it is too large or has no place for them.
pub fn padded(random: &mut Random, typed: &Typed, terms: usize) -> Option<Typed> {
    let mut typed = typed.clone();
    let mut more = terms.checked_sub(typed.program.term.size())?;
    if more % 2 == 1 {
        let of = typed.of.clone();
        if more < 3 || 1 + 2 * of.size() > MOST_ENTRIES {
            return None;
        }
        let same = terms::abstraction(of, terms::variable(0));
        typed.program.term = terms::application(same, typed.program.term);
        more -= 3;
    }
    let labels = &typed.program.labels;
    let grows = |leaf: &Term| match leaf {
        Term::Gate(_) | Term::UnitValue => true,
        Term::Label(number) => labels[usize::from(*number)] == Wire::Qubit,
        _ => false,
    };
    let mut count = 0;
    map_leaves(&typed.program.term, 0, &mut |leaf, _| {
        count += usize::from(grows(leaf));
        leaf.clone()
    });
    if count == 0 && more > 0 {
        return None;
    }
    let mut growth = vec![0; count];
    for _ in 0..more / 2 {
        growth[random.below(count)] += 1;
    }
    let mut growth = growth.into_iter();
    typed.program.term = map_leaves(&typed.program.term, 0, &mut |leaf, _| {
        if !grows(leaf) {
            return leaf.clone();
        }
        let more = growth.next().expect("as many leaves");
        (0..more).fold(leaf.clone(), |inside, _| match **leaf {
            Term::Gate(_) | Term::UnitValue => terms::force(terms::lift(inside)),
            _ => terms::apply(terms::gate(random.below(5)), inside),
        })
    });
    Some(typed)
}
