//! How long the export and the import of OpenQASM under test take: against
//! those in plain Rust, and for listings of several sizes, in one run of this
//! program.

use comparing::packed::number;
use listings::generate::{passing_gates, valid, Order, Shape};
use listings::sizes::{MOST_GATES, MOST_INPUTS, MOST_WIRES};
use listings::{Entry, Listing};
use program_files::{Random, Wire};
use qasm::{lengths, print};
use qasm_compare::under_test::{self, NAME};
use std::hint::black_box;
use std::time::Instant;

/// Rounds for each time; the best counts.
const ROUNDS: usize = 12;

/// A round goes on for so many seconds.
const ROUND: f64 = 0.01;

/// Numbers of gates, each twice the one before.
const GATES: [usize; 4] = [MOST_GATES / 8, MOST_GATES / 4, MOST_GATES / 2, MOST_GATES];

/// The numbers of gates.
const H: u8 = 0;
const CNOT: u8 = 5;
const BX: u8 = 7;
const CCX: u8 = 11;

fn main() {
    println!("export and import under test: {NAME}");
    row("gates on one line", one_line);
    row("CNOTs on 64 lines", |gates| {
        of_shape(gates, vec![CNOT], Order::OldestFirst)
    });
    row("CCXs on 64 lines", |gates| {
        of_shape(gates, vec![CCX], Order::OldestFirst)
    });
    row("gates under a Bit on 64 lines", |gates| {
        of_shape(gates, vec![BX], Order::Any)
    });
    row("any gates on 64 lines", |gates| {
        of_shape(gates, passing_gates(), Order::Any)
    });
}

/// Gates that take one wire each, that of the gate before.
fn one_line(gates: usize) -> Listing {
    let gate = |gate: usize| Entry::gate(H, &[gate as u16]);
    Listing {
        inputs: vec![Entry::input(Wire::Qubit)],
        gates: (0..gates).map(gate).collect(),
        outputs: vec![gates as u16],
    }
}

/// Gates of these numbers on as many lines as there can be.
fn of_shape(gates: usize, numbers: Vec<u8>, taken: Order) -> Listing {
    let mut shape = Shape::new(MOST_INPUTS, gates);
    shape.bits = MOST_INPUTS / 4;
    shape.numbers = numbers;
    shape.kept = MOST_INPUTS / 2;
    shape.taken = taken;
    let listing = valid(&mut Random::new(1), &shape);
    assert_eq!(listing.gates.len(), gates, "so many gates");
    listing
}

/// Seconds of one call in the best round, for each of the two.
struct Times {
    under_test: f64,
    plain: f64,
}

fn times(mut under_test: impl FnMut(), mut plain: impl FnMut()) -> Times {
    let mut times = Times {
        under_test: f64::INFINITY,
        plain: f64::INFINITY,
    };
    for _ in 0..ROUNDS {
        round(&mut times.under_test, &mut under_test);
        round(&mut times.plain, &mut plain);
    }
    times
}

/// One more round, which counts if it is the best.
fn round(best: &mut f64, mut call: impl FnMut()) {
    let start = Instant::now();
    let mut calls = 0;
    while calls == 0 || start.elapsed().as_secs_f64() < ROUND {
        call();
        calls += 1;
    }
    *best = best.min(start.elapsed().as_secs_f64() / f64::from(calls));
}

fn export_times(listing: &[u8]) -> Times {
    let mut buffers = lengths::EXPORT.map(|length| vec![0; length]);
    let [mut out, mut work] = [vec![0; lengths::LONGEST_TEXT], vec![0; MOST_WIRES]];
    times(
        || {
            let buffers = buffers.each_mut().map(Vec::as_mut_slice);
            let answer = under_test::export(black_box(listing), buffers);
            assert_eq!(number(answer), 0, "accepted");
        },
        || {
            let answer = port::qasm::export(black_box(listing), &mut out, &mut work);
            assert!(answer.is_ok(), "accepted");
        },
    )
}

fn import_times(text: &[u8]) -> Times {
    let mut buffers = lengths::IMPORT.map(|length| vec![0; length]);
    let mut out = vec![0; lengths::IMPORT[0]];
    times(
        || {
            let buffers = buffers.each_mut().map(Vec::as_mut_slice);
            let answer = under_test::import(black_box(text), buffers);
            assert_eq!(number(answer), 0, "accepted");
        },
        || {
            let answer = port::qasm::import(black_box(text), &mut out);
            assert!(answer.is_ok(), "accepted");
        },
    )
}

/// Export and import for each number of gates.
fn row(name: &str, of: impl Fn(usize) -> Listing) {
    let listings = GATES.map(of);
    report(
        "export",
        name,
        listings.each_ref().map(|of| export_times(&of.bytes())),
    );
    report(
        "import",
        name,
        listings.each_ref().map(|of| import_times(&print(of))),
    );
}

/// The times with the most gates, and how they grow.
fn report(operation: &str, name: &str, times: [Times; 4]) {
    let [.., half, whole] = &times;
    println!(
        "{operation} of {MOST_GATES} {name}: {NAME} {:.1} us, plain {:.1} us, {NAME} / plain {:.2}",
        whole.under_test * 1e6,
        whole.plain * 1e6,
        whole.under_test / whole.plain
    );
    for (gates, times) in GATES.iter().zip(&times).take(GATES.len() - 1) {
        println!(
            "    {gates}: {NAME} {:.1} us, plain {:.1} us, {NAME} / plain {:.2}",
            times.under_test * 1e6,
            times.plain * 1e6,
            times.under_test / times.plain
        );
    }
    println!(
        "    twice the gates, {} to {MOST_GATES}: {NAME} {:.2} times the time, plain {:.2} times",
        MOST_GATES / 2,
        whole.under_test / half.under_test,
        whole.plain / half.plain
    );
}
