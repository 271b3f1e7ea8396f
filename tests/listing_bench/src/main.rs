//! How long the check of listings under test takes: against one in plain Rust,
//! and for listings of two sizes, in one run of this program.

use comparing::packed::number;
use listing_compare::under_test::{self, LEAST_WORK, NAME};
use listings::generate::{passing_gates, valid, Order, Shape};
use listings::sizes::MOST_INPUTS;
use listings::{Entry, Listing};
use program_files::{Random, Wire};
use std::hint::black_box;
use std::time::Instant;

/// Rounds for each time; the best counts.
const ROUNDS: usize = 12;

/// A round goes on for so many seconds.
const ROUND: f64 = 0.02;

/// The most gates, and half of them.
const WHOLE: usize = 2_048;
const HALF: usize = 1_024;

/// The numbers of gates.
const H: u8 = 0;
const CNOT: u8 = 5;
const CCX: u8 = 11;

fn main() {
    println!("check under test: {NAME}");
    row("gates on one wire", one_wire);
    row("CNOTs on 64 wires", |gates| {
        of_shape(gates, vec![CNOT], Order::OldestFirst)
    });
    row("CCXs on 64 wires", |gates| {
        of_shape(gates, vec![CCX], Order::OldestFirst)
    });
    row("any gates on 64 wires", |gates| {
        of_shape(gates, passing_gates(), Order::Any)
    });
}

/// Gates that take one wire each, that of the gate before.
fn one_wire(gates: usize) -> Listing {
    let gate = |gate: usize| Entry::gate(H, &[gate as u16]);
    Listing {
        inputs: vec![Entry::input(Wire::Qubit)],
        gates: (0..gates).map(gate).collect(),
        outputs: vec![gates as u16],
    }
}

/// Gates of these numbers on as many wires as there can be.
fn of_shape(gates: usize, numbers: Vec<u8>, taken: Order) -> Listing {
    let mut shape = Shape::new(MOST_INPUTS, gates);
    shape.numbers = numbers;
    shape.kept = MOST_INPUTS / 2;
    shape.taken = taken;
    let listing = valid(&mut Random::new(1), &shape);
    assert_eq!(listing.gates.len(), gates, "so many gates");
    listing
}

/// Seconds of one call in the best round, for each of the two.
struct Times {
    under_test: f64,
    plain: f64,
}

fn times(listing: &[u8]) -> Times {
    let mut work = vec![0; LEAST_WORK];
    let mut times = Times {
        under_test: f64::INFINITY,
        plain: f64::INFINITY,
    };
    for _ in 0..ROUNDS {
        round(&mut times.under_test, || {
            let answer = under_test::answer(black_box(listing), &mut work);
            assert_eq!(number(answer), 0, "accepted");
        });
        round(&mut times.plain, || {
            let answer = port::listing::check(black_box(listing), &mut work);
            assert!(answer.is_ok(), "accepted");
        });
    }
    times
}

/// One more round, which counts if it is the best.
fn round(best: &mut f64, mut check: impl FnMut()) {
    let start = Instant::now();
    let mut calls = 0;
    while calls == 0 || start.elapsed().as_secs_f64() < ROUND {
        check();
        calls += 1;
    }
    *best = best.min(start.elapsed().as_secs_f64() / f64::from(calls));
}

/// The listing with the most gates, and the one with half of them.
fn row(name: &str, of: impl Fn(usize) -> Listing) {
    let [whole, half] = [WHOLE, HALF].map(|gates| times(&of(gates).bytes()));
    println!(
        "{WHOLE} {name}: {NAME} {:.2} us, plain {:.2} us, {NAME} / plain {:.2}",
        whole.under_test * 1e6,
        whole.plain * 1e6,
        whole.under_test / whole.plain
    );
    println!(
        "{HALF} {name}: {NAME} {:.2} us, plain {:.2} us; {WHOLE} / {HALF}: {NAME} {:.2}, plain {:.2}",
        half.under_test * 1e6,
        half.plain * 1e6,
        whole.under_test / half.under_test,
        whole.plain / half.plain
    );
}
