//! What the runs had.

use crate::helped::Helped;
use crate::three::Three;
use comparing::Pairs;
use evaluator::circuits::Boxed;
use evaluator::configurations::{MOST_BOXES, MOST_GATES, MOST_NODES};
use evaluator::contexts::redex;
use evaluator::terms::{Form, Term};
use evaluator::{Answer, Configuration};
use program_files::GATES;
use std::collections::HashMap;
use std::rc::Rc;

const STEPS: [&str; 7] = [
    "abstraction applied",
    "let",
    "force",
    "gate applied",
    "circuit applied",
    "box entry",
    "box exit",
];

/// Boxes open at once, counted up to so many.
const DEEPEST: usize = 10;

/// The uses of values that are pairs and may be copied, and the least number of
/// each at each depth.
const USES_OF_PAIRS: [&str; 3] = ["dropped", "used once", "copied"];
const LEAST_PAIRS: [usize; 3] = [800, 800, 200];

#[derive(Default)]
pub struct Seen {
    /// Steps by their kind.
    steps: [usize; STEPS.len()],
    most_steps: u32,
    /// The most nodes, gates and closed boxes of a configuration.
    most: [usize; 3],
    /// Finished runs that had exactly as many as fit.
    at_most: [usize; 3],
    /// Runs by the most boxes that were open at once.
    open: [usize; DEEPEST + 1],
    /// Runs in which a circuit was applied twice, or in several frames.
    twice: usize,
    in_frames: usize,
    /// Circuits applied that have a wire that passes through, and those whose
    /// result has wires in another order.
    passing: usize,
    crossing: usize,
    /// Values by the uses of their variable: none, one, more.
    uses: [usize; 3],
    /// The same of those that are pairs and may be copied.
    pairs: Pairs<4>,
    helped: Helped,
    three: Three,
    /// Gates of finished runs.
    gates: [usize; GATES.len()],
}

/// One run while it goes on.
#[derive(Default)]
pub struct Run {
    configurations: u32,
    steps: [usize; STEPS.len()],
    most: [usize; 3],
    open: usize,
    /// For each circuit applied, how often, and in which frame first.
    applied: HashMap<*const Boxed, (usize, usize)>,
    in_frames: bool,
    passing: usize,
    crossing: usize,
    uses: [usize; 3],
    pairs: Pairs<4>,
    helped: Helped,
    three: Three,
}

impl Run {
    /// How many steps it took so far.
    pub fn steps(&self) -> u32 {
        self.configurations - 1
    }

    pub fn look(&mut self, now: &Configuration) {
        self.configurations += 1;
        let sizes = [now.nodes(), now.gates(), now.closed.len()];
        for (most, size) in self.most.iter_mut().zip(sizes) {
            *most = (*most).max(size);
        }
        self.open = self.open.max(now.frames.len() - 1);
        let step = match redex(&now.innermost().term) {
            None if now.is_finished() => {
                self.helped.finish(now);
                self.three.finish(now);
                return;
            }
            None => {
                self.helped.exit(&now.innermost().term);
                6
            }
            Some((_, redex)) => self.look_at(&redex.form, now.frames.len()),
        };
        self.steps[step] += 1;
    }

    /// The kind of the step that a redex is about to take.
    fn look_at(&mut self, redex: &Form, frame: usize) -> usize {
        match redex {
            Form::Application(function, argument) => {
                if let Form::Abstraction(body) = &function.form {
                    self.look_at_value(argument, uses(body, 0));
                }
                0
            }
            Form::Let(pair, body) => {
                if let Form::Pair(first, second) = &pair.form {
                    self.look_at_value(second, uses(body, 0));
                    self.look_at_value(first, uses(body, 1));
                }
                1
            }
            Form::Force(_) => 2,
            Form::Apply(circuit, argument) => {
                self.helped.argument(argument);
                match &circuit.form {
                    Form::Constant(constant) => {
                        self.look_at_circuit(constant, argument, frame);
                        4
                    }
                    Form::Gate(number) => {
                        self.three.gate(*number, argument, frame - 1);
                        3
                    }
                    other => unreachable!("{other:?} is applied to wires"),
                }
            }
            Form::Box(at, _) => {
                self.helped.entry(at);
                5
            }
            other => unreachable!("{other:?} is no redex"),
        }
    }

    fn look_at_value(&mut self, value: &Term, uses: usize) {
        self.uses[uses.min(2)] += 1;
        self.helped.value(value, uses);
        if let Some(depth @ 1..) = copyable_pairs(value) {
            self.pairs.count(depth, uses.min(2));
        }
    }

    fn look_at_circuit(&mut self, constant: &Rc<Boxed>, argument: &Term, frame: usize) {
        let (times, first) = self
            .applied
            .entry(Rc::as_ptr(constant))
            .or_insert((0, frame));
        *times += 1;
        if *times == 2 {
            self.helped.again(constant);
        }
        self.three.circuit(constant, argument, frame - 1, *times);
        self.in_frames |= *first != frame;
        let result = constant.result.labels();
        let passes = result.iter().any(|wire| constant.inputs.contains(wire));
        self.passing += usize::from(passes);
        self.crossing += usize::from(!result.is_sorted());
    }
}

/// How many pairs stand in each other, from the outermost on, in a value that
/// may be copied; none for another value.
fn copyable_pairs(value: &Term) -> Option<usize> {
    match &value.form {
        Form::Gate(_) | Form::Constant(_) | Form::Lift(_) | Form::UnitValue => Some(0),
        Form::Pair(first, second) => {
            let (first, second) = (copyable_pairs(first)?, copyable_pairs(second)?);
            Some(1 + first.max(second))
        }
        _ => None,
    }
}

/// How often a variable is used in a body.
fn uses(term: &Term, argument: usize) -> usize {
    match &term.form {
        Form::Variable(number) => usize::from(*number == argument),
        Form::Label(_) | Form::Gate(_) | Form::Constant(_) | Form::UnitValue => 0,
        Form::Abstraction(body) => uses(body, argument + 1),
        Form::Lift(part) | Form::Force(part) | Form::Box(_, part) => uses(part, argument),
        Form::Let(first, second) => uses(first, argument) + uses(second, argument + 2),
        Form::Application(first, second)
        | Form::Pair(first, second)
        | Form::Apply(first, second) => uses(first, argument) + uses(second, argument),
    }
}

impl Seen {
    pub fn count(&mut self, run: &Run, answer: &Answer) {
        add(&mut self.steps, &run.steps);
        add(&mut self.uses, &run.uses);
        self.pairs.add(&run.pairs);
        self.helped.add(&run.helped);
        self.three.add(&run.three);
        for (most, size) in self.most.iter_mut().zip(run.most) {
            *most = (*most).max(size);
        }
        self.most_steps = self.most_steps.max(run.steps());
        self.open[run.open.min(DEEPEST)] += 1;
        self.twice += usize::from(run.applied.values().any(|&(times, _)| times > 1));
        self.in_frames += usize::from(run.in_frames);
        self.passing += run.passing;
        self.crossing += run.crossing;
        if let Answer::Finished { gates, listing, .. } = answer {
            self.three.listing(listing.len());
            let bounds = [MOST_NODES, MOST_GATES, MOST_BOXES];
            for (at, bound) in bounds.into_iter().enumerate() {
                self.at_most[at] += usize::from(run.most[at] == bound);
            }
            let labels = usize::from(listing[0]);
            for &gate in &listing[6 + labels..][..*gates] {
                self.gates[usize::from(gate)] += 1;
            }
        }
    }

    /// Counts what was seen elsewhere, too.
    pub fn add(&mut self, other: &Seen) {
        add(&mut self.steps, &other.steps);
        self.most_steps = self.most_steps.max(other.most_steps);
        for (most, size) in self.most.iter_mut().zip(other.most) {
            *most = (*most).max(size);
        }
        add(&mut self.at_most, &other.at_most);
        add(&mut self.open, &other.open);
        self.twice += other.twice;
        self.in_frames += other.in_frames;
        self.passing += other.passing;
        self.crossing += other.crossing;
        add(&mut self.uses, &other.uses);
        self.pairs.add(&other.pairs);
        self.helped.add(&other.helped);
        self.three.add(&other.three);
        add(&mut self.gates, &other.gates);
    }

    pub fn report(&self) {
        for (name, steps) in STEPS.iter().zip(self.steps) {
            println!("{steps:>9} steps: {name}");
        }
        println!("most steps of a run: {}", self.most_steps);
        for (at, name) in ["nodes", "gates", "boxes closed"].iter().enumerate() {
            println!(
                "most {name}: {}, reached by {} finished runs",
                self.most[at], self.at_most[at]
            );
        }
        println!(
            "runs by boxes open at once, 0 to {DEEPEST}: {:?}",
            self.open
        );
        println!("runs with a circuit applied more than once: {}", self.twice);
        println!(
            "runs with a circuit applied in several frames: {}",
            self.in_frames
        );
        println!("circuits applied with a wire that passes: {}", self.passing);
        println!("circuits applied whose result crosses: {}", self.crossing);
        let [none, one, more] = self.uses;
        println!("values: {none} dropped, {one} used once, {more} copied");
        self.pairs.report(USES_OF_PAIRS);
        self.helped.report();
        self.three.report();
        println!("gates of finished runs by number: {:?}", self.gates);
    }

    /// Fails if too little has been seen.
    pub fn assert(&self) {
        assert!(
            self.steps.iter().all(|&steps| steps >= 50_000),
            "too few steps of some kind"
        );
        let bounds = [MOST_NODES, MOST_GATES, MOST_BOXES];
        assert_eq!(self.most, bounds, "a size not reached");
        assert!(
            self.at_most.iter().all(|&runs| runs >= 5),
            "too few at a size"
        );
        assert!(self.open[8] >= 500, "too few with 8 boxes open");
        assert!(self.most_steps >= 100_000, "no long run");
        assert!(self.twice >= 10_000, "too few circuits applied twice");
        assert!(self.in_frames >= 1_000, "too few circuits used in a box");
        assert!(self.passing >= 20_000, "too few wires that pass through");
        assert!(self.crossing >= 20_000, "too few wires that cross");
        assert!(self.uses.iter().all(|&uses| uses >= 50_000), "too few uses");
        self.pairs.assert(LEAST_PAIRS);
        self.helped.assert();
        self.three.assert();
        assert!(
            self.gates.iter().all(|&gates| gates >= 5_000),
            "too few gates"
        );
    }
}

pub fn add<const N: usize>(to: &mut [usize; N], more: &[usize; N]) {
    for (count, more) in to.iter_mut().zip(more) {
        *count += more;
    }
}
