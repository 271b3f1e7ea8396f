//! How long the run under test takes: against the same machine in plain Rust
//! and against the evaluator on trees, in one run of this program.

use evaluator::{prepare, Answer};
use port::Memory;
use program_files::{Program, Term, Wire};
use programs::extremes;
use programs::nested::in_a_row;
use programs::terms::{
    abstraction, application, apply, boxed, gate, label, let_in, lift, pair, variable,
};
use programs::types::{circuit, function, qubit, qubits, reusable};
use run_compare::interface::{number, LEAST};
use run_compare::under_test;
use std::rc::Rc;
use std::time::Instant;

/// Rounds for each time; the best counts.
const ROUNDS: usize = 6;

/// A round goes on for so many seconds.
const ROUND: f64 = 0.05;

fn main() {
    println!("run under test: {}", under_test::NAME);
    let many_steps = extremes::calls(18).program;
    row("a million steps", &many_steps);
    row("2,048 gates from nested boxes", &nested_boxes(1, 0));
    row(
        "2,048 gates on three wires from nested boxes",
        &nested_boxes(3, CCX),
    );
    row("4,000 nodes, small steps", &beside(WHOLE, Side::Walked));
    println!();
    println!("nanoseconds a step in terms of three sizes:");
    for side in [Side::Walked, Side::Waiting] {
        by_size(side);
    }
}

fn with_one_label(term: Rc<Term>) -> Program {
    Program::new(vec![Wire::Qubit], term)
}

/// The number of a gate.
const CCX: usize = 11;

/// Ten boxes inside each other, each of which applies the one inside it twice: 1,023
/// gates on so many wires in closed circuits and 1,024 in the open one, and one more
/// there on the first wire.
fn nested_boxes(wires: usize, number: usize) -> Program {
    let of = || qubits(wires);
    let boxed = |body| boxed(of(), lift(abstraction(of(), body)));
    let twice = |inside, wires| {
        let body = apply(variable(0), apply(variable(0), wires));
        application(abstraction(circuit(of(), of()), body), inside)
    };
    let first = boxed(apply(gate(number), variable(0)));
    let nested = (0..9).fold(first, |inside, _| boxed(twice(inside, variable(1))));
    let mut labels: Vec<Rc<Term>> = (0..wires).map(label).collect();
    labels[0] = apply(gate(1), label(0));
    let term = twice(nested, in_a_row(&labels, pair));
    Program::new(vec![Wire::Qubit; wires], term)
}

/// How often the calls of a small function are doubled, beside which a large
/// term stands.
const DOUBLINGS: usize = 15;

/// Nodes beside the calls: so many that there are some 4,000, or half as many.
const WHOLE: usize = 2_800;
const HALF: usize = 800;

/// Whether the large term has been walked, or waits to be walked.
#[derive(Clone, Copy, PartialEq, Eq)]
enum Side {
    Walked,
    Waiting,
}

/// Calls of a small function while some nodes stand beside them: a pair of
/// lifts, which is taken apart and dropped at the end.
fn beside(nodes: usize, side: Side) -> Program {
    let calls = extremes::calls(DOUBLINGS).program.term;
    let gates = (0..nodes / 4).fold(variable(0), |wire, _| apply(gate(0), wire));
    let large = lift(abstraction(qubit(), gates));
    let over = reusable(function(qubit(), qubit()));
    let lifts = pair(variable(0), variable(0));
    let body = match side {
        Side::Walked => let_in(pair(lifts, calls), let_in(variable(1), variable(2))),
        Side::Waiting => let_in(pair(calls, lifts), let_in(variable(0), variable(3))),
    };
    with_one_label(application(abstraction(over, body), large))
}

/// Seconds of one call in the best round, for each of the three.
struct Times {
    under_test: f64,
    port: f64,
    evaluator: f64,
}

fn times(file: &[u8]) -> Times {
    let mut buffers = LEAST.map(|length| vec![0; length]);
    let mut out = vec![0; LEAST[0]];
    let mut memory = Memory::default();
    let mut times = Times {
        under_test: f64::INFINITY,
        port: f64::INFINITY,
        evaluator: f64::INFINITY,
    };
    for _ in 0..ROUNDS {
        round(&mut times.under_test, || {
            let [out, working @ ..] = buffers.each_mut();
            let working = working.map(|buffer| &mut buffer[..]);
            let answer = under_test::answer(file, u32::MAX, out, working);
            assert_eq!(number(answer), 0, "finished");
        });
        round(&mut times.port, || {
            let answer = port::run(file, u32::MAX, &mut out, &mut memory);
            assert!(matches!(answer, port::Answer::Finished { .. }), "finished");
        });
        round(&mut times.evaluator, || {
            let answer = evaluator::run(file, u32::MAX);
            assert!(matches!(answer, Answer::Finished { .. }), "finished");
        });
    }
    times
}

/// One more round, which counts if it is the best.
fn round(best: &mut f64, mut run: impl FnMut()) {
    let start = Instant::now();
    let mut calls = 0;
    while calls == 0 || start.elapsed().as_secs_f64() < ROUND {
        run();
        calls += 1;
    }
    *best = best.min(start.elapsed().as_secs_f64() / f64::from(calls));
}

/// The steps, the gates of all circuits and the most nodes of a run.
fn sizes(file: &[u8]) -> (u32, usize, usize) {
    let prepared = prepare(file).expect("a program that runs");
    let (mut gates, mut nodes) = (0, 0);
    let answer = prepared.run_seen(u32::MAX, &mut |now| {
        gates = gates.max(now.gates());
        nodes = nodes.max(now.nodes());
    });
    match answer {
        Answer::Finished { steps, .. } => (steps, gates, nodes),
        Answer::Refused(refusal) => panic!("refused: {refusal:?}"),
    }
}

fn row(name: &str, program: &Program) {
    let file = program.bytes();
    let (steps, gates, nodes) = sizes(&file);
    let times = times(&file);
    println!("{name}: {steps} steps, {gates} gates, at most {nodes} nodes");
    println!(
        "    {} {:.6} s, port {:.6} s, evaluator {:.6} s",
        under_test::NAME,
        times.under_test,
        times.port,
        times.evaluator
    );
    println!(
        "    {0} / port {1:.2}, {0} / evaluator {2:.4}",
        under_test::NAME,
        times.under_test / times.port,
        times.under_test / times.evaluator
    );
}

/// The time of a step in terms of three sizes, of a run with so many steps that
/// all else is little.
fn by_size(side: Side) {
    let name = match side {
        Side::Walked => "walked before",
        Side::Waiting => "still waiting",
    };
    let mut smallest = None;
    for nodes in [0, HALF, WHOLE] {
        let file = beside(nodes, side).bytes();
        let (steps, _, nodes) = sizes(&file);
        let times = times(&file);
        let step = |seconds: f64| 1e9 * seconds / f64::from(steps);
        let smallest = *smallest.get_or_insert(times.under_test);
        println!(
            "    {nodes} nodes, {name}: {} {:.1} ({:.2} of the smallest), port {:.1}, evaluator {:.1}",
            under_test::NAME,
            step(times.under_test),
            times.under_test / smallest,
            step(times.port),
            step(times.evaluator),
        );
    }
}
