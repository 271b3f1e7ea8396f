//! How long the exported check takes for programs of 2,048 nodes: against a
//! reader and a check in Rust, by derivations and by counting on trees, and
//! against programs of half the size.

use check_compare::counting::{self, Wrong};
use check_compare::library::{self, number, LEAST_OUT, LEAST_WORK};
use program_files::{encode, read, Positions, Random};
use programs::extremes;
use programs::rules::{derive, Rules, Sharing};
use programs::typed::{padded, typed, Plan, Typed};
use std::time::Instant;

const WHOLE: usize = 2_048;
const HALF: usize = 1_024;

/// Rounds for each number, and calls in each round; the best round counts.
const ROUNDS: usize = 12;
const CALLS: usize = 8;

fn main() {
    println!("at 2,048 nodes, the library against derivations and against counting in Rust;");
    println!("the library and these two at 2,048 against 1,024 nodes:");
    let extremes = extremes::all(WHOLE).into_iter().zip(extremes::all(HALF));
    for ((name, whole), (_, half)) in extremes {
        row(name, &whole, &half);
    }
    for seed in 1..=4 {
        let name = format!("any rules, seed {seed}");
        row(&name, &any(seed, WHOLE), &any(seed, HALF));
    }
}

fn row(name: &str, whole: &Typed, half: &Typed) {
    let (whole, half) = (whole.program.bytes(), half.program.bytes());
    let exported = [exported(&whole), exported(&half)];
    let derived = [derived(&whole), derived(&half)];
    let counted = [counted(&whole), counted(&half)];
    println!(
        "{name}: {:.2} {:.2}; {:.2} {:.2} {:.2}; library {:.0} us",
        exported[0] / derived[0],
        exported[0] / counted[0],
        exported[0] / exported[1],
        derived[0] / derived[1],
        counted[0] / counted[1],
        exported[0] * 1e6,
    );
}

/// A well-typed program of exactly so many nodes.
fn any(seed: u64, terms: usize) -> Typed {
    let mut random = Random::new(seed);
    loop {
        let plan = Plan::of_wires(&mut random, 64, terms);
        let typed = typed(&mut random, &plan);
        let typed = typed.and_then(|typed| padded(&mut random, &typed, terms));
        if let Some(typed) = typed {
            if encode(&typed.program, Positions::First).is_some() {
                return typed;
            }
        }
    }
}

/// Seconds of one call of the exported check.
fn exported(file: &[u8]) -> f64 {
    let mut out = vec![0; LEAST_OUT];
    let mut work = vec![0; LEAST_WORK];
    best(|| {
        let answer = library::answer(file, &mut out, &mut work);
        assert_eq!(number(answer), 0, "accepted");
    })
}

/// Seconds to read the file and to derive its type.
fn derived(file: &[u8]) -> f64 {
    best(|| {
        let read = read(file).expect("a file that is read");
        let of = derive(&read.labels, &read.term, Rules::All, Sharing::Free);
        assert!(of.is_some(), "accepted");
    })
}

/// Seconds to read the file and to count uses.
fn counted(file: &[u8]) -> f64 {
    best(|| {
        let read = read(file).expect("a file that is read");
        let answer = counting::check(Wrong::Nothing, &read);
        assert!(answer.is_ok(), "accepted");
    })
}

fn best(mut run: impl FnMut()) -> f64 {
    let rounds = (0..ROUNDS).map(|_| {
        let start = Instant::now();
        for _ in 0..CALLS {
            run();
        }
        start.elapsed().as_secs_f64() / CALLS as f64
    });
    rounds.fold(f64::INFINITY, f64::min)
}
