//! The files that the builder writes, and why it writes none.

use pqm::entries::Entries;
use pqm::kinds::*;
use pqm::types::{circuit, function, pair as pair_type, qubit, qubits, reusable, unit};
use pqm::Wire::{Bit, Qubit};
use pqm::{
    application, apply, bind, boxed, boxed_lambda, file, force, gate, label, lambda, let_pair,
    lift, pair, sequence, unit_value, Named, Wire, CNOT, H, MEAS,
};

/// The file of these entries.
fn entries(labels: &[u8], types: &[u8], terms: &[(u8, u16)]) -> Vec<u8> {
    Entries::new(labels, types, terms).bytes()
}

/// Why there is no file.
fn error(labels: &[Wire], term: impl Into<Named>) -> String {
    file(labels, term).expect_err("no file").to_string()
}

/// The same without the place in this source, which is that of this line.
fn error_at(line: u32, labels: &[Wire], term: impl Into<Named>) -> String {
    let error = error(labels, term);
    let place = format!("{}:{line}:", file!());
    let rest = error.strip_prefix(&place).expect(&error);
    let (_, words) = rest.split_once(": ").expect(&error);
    words.to_string()
}

/// The first cases of 01, in its bytes and entries.
#[test]
fn cases_of_01() {
    let c1 = [1, 0, 0, 0, 1, 0, 1, 17, 0, 0, 0, 0];
    assert_eq!(file(&[Qubit], label(0)).as_deref(), Ok(&c1[..]));

    let c2 = entries(&[QUBIT], &[], &[(APPLY, 0), (GATE, 0), (LABEL, 0)]);
    assert_eq!(file(&[Qubit], apply(H, label(0))), Ok(c2));

    let exchanged = let_pair(apply(CNOT, (label(0), label(1))), |a, b| (b, a));
    let c3 = [
        (LET, 0),
        (APPLY, 0),
        (GATE, 5),
        (PAIR, 0),
        (LABEL, 0),
        (LABEL, 1),
        (PAIR, 0),
        (VARIABLE, 0),
        (VARIABLE, 1),
    ];
    assert_eq!(
        file(&[Qubit, Qubit], exchanged),
        Ok(entries(&[QUBIT, QUBIT], &[], &c3))
    );

    let boxed_h = apply(boxed_lambda(qubit(), |q| apply(H, q)), label(0));
    let c4 = [
        (APPLY, 0),
        (BOX, 0),
        (LIFT, 0),
        (ABSTRACTION, 0),
        (APPLY, 0),
        (GATE, 0),
        (VARIABLE, 0),
        (LABEL, 0),
    ];
    assert_eq!(
        file(&[Qubit], boxed_h),
        Ok(entries(&[QUBIT], &[QUBIT], &c4))
    );

    let on_one = circuit(qubit(), qubit());
    let twice = bind(on_one, H, |h| apply(h, apply(h, label(0))));
    let c10 = [
        (APPLICATION, 0),
        (ABSTRACTION, 0),
        (APPLY, 0),
        (VARIABLE, 0),
        (APPLY, 0),
        (VARIABLE, 0),
        (LABEL, 0),
        (GATE, 0),
    ];
    assert_eq!(
        file(&[Qubit], twice),
        Ok(entries(&[QUBIT], &[CIRCUIT, QUBIT, QUBIT], &c10))
    );
}

/// Every kind of term, and gates by their names.
#[test]
fn all_terms() {
    let term = application(
        lambda(unit(), |_| force(lift(pair(gate("Meas"), gate("CCX"))))),
        unit_value(),
    );
    let terms = [
        (APPLICATION, 0),
        (ABSTRACTION, 0),
        (FORCE, 0),
        (LIFT, 0),
        (PAIR, 0),
        (GATE, 6),
        (GATE, 11),
        (UNIT_VALUE, 0),
    ];
    assert_eq!(file(&[], term), Ok(entries(&[], &[UNIT], &terms)));
}

/// A variable counts the binders between it and its own, whatever the order in which
/// they were made.
#[test]
fn binders_are_counted() {
    let inner = |x| {
        lambda(qubit(), move |y| {
            let_pair((x, y), move |a, b| (a, (b, (y, x))))
        })
    };
    let term = lambda(qubit(), inner);
    let terms = [
        (ABSTRACTION, 0),
        (ABSTRACTION, 0),
        (LET, 0),
        (PAIR, 0),
        (VARIABLE, 1),
        (VARIABLE, 0),
        (PAIR, 0),
        (VARIABLE, 1),
        (PAIR, 0),
        (VARIABLE, 0),
        (PAIR, 0),
        (VARIABLE, 2),
        (VARIABLE, 3),
    ];
    assert_eq!(file(&[], term), Ok(entries(&[], &[QUBIT], &terms)));
}

/// A sequence binds by abstraction or by let, as by hand.
#[test]
fn sequences() {
    let in_sequence = sequence(|s| {
        let (a, b) = s.halves((label(0), label(1)));
        let a = s.bind(pqm::types::bit(), apply(MEAS, a));
        (b, a)
    });
    let by_hand = let_pair((label(0), label(1)), |a, b| {
        bind(pqm::types::bit(), apply(MEAS, a), |a| (b, a))
    });
    let labels = [Qubit, Qubit];
    assert_eq!(file(&labels, in_sequence), file(&labels, by_hand));
}

/// Equal types have one position, parts of others too.
#[test]
fn types_are_shared() {
    let over = |of| lambda(of, |x| x);
    let term = pair(
        over(reusable(function(qubits(2), qubit()))),
        pair(over(qubits(2)), pair(over(qubit()), over(qubits(2)))),
    );
    let types = [REUSABLE, FUNCTION, PAIR_TYPE, QUBIT, QUBIT, QUBIT];
    let positions: Vec<u16> = pqm::read::read(&file(&[], term).expect("a file"))
        .map(|read| read.types.len() as u16)
        .into_iter()
        .collect();
    assert_eq!(positions, [types.len() as u16]);
}

#[test]
fn sizes() {
    let lifts = |count: usize| (0..count).fold(Named::from(H), |part, _| lift(part));
    assert!(file(&[], lifts(2_047)).is_ok());
    let words = "too many entries in the term: 2049, and a file holds at most 2048";
    assert_eq!(error(&[], lifts(2_048)), words);

    assert!(file(&[Bit; 64], label(63)).is_ok());
    let words = "too many labels: 65, and a file holds at most 64";
    assert_eq!(error(&[Bit; 65], label(64)), words);

    let over = |count: usize| lambda(qubits(count), |x| x);
    assert!(file(&[], lambda(reusable(qubits(256)), |x| x)).is_ok());
    let words =
        "too many entries in the types of abstractions and boxes: 513, and a file holds at most 512";
    assert_eq!(error(&[], over(257)), words);
}

/// A program that is far too long is told to be so.
#[test]
fn long_sequences() {
    let long = sequence(|s| {
        let mut q = s.bind(qubit(), label(0));
        for _ in 0..20_000 {
            q = s.bind(qubit(), apply(H, q));
        }
        q
    });
    let words = "too many entries in the term: 100004, and a file holds at most 2048";
    assert_eq!(error(&[Qubit], long), words);
}

#[test]
fn places_in_the_source() {
    let words = "label 2 is used, and the program has labels 0 to 1";
    assert_eq!(error_at(line!(), &[Qubit, Qubit], label(2)), words);
    let words = "label 0 is used, and the program has none";
    assert_eq!(error_at(line!(), &[], label(0)), words);

    let words = "no gate has the name Hadamard; there are H, X, Z, S, T, CNOT, Meas, BX, BZ, \
                 Init, Discard, CCX";
    assert_eq!(error_at(line!(), &[], gate("Hadamard")), words);

    let words = "a box at !Qubit, which is no wire type";
    assert_eq!(error_at(line!(), &[], boxed(reusable(qubit()), H)), words);

    let of = pair_type(unit(), circuit(qubit(), function(qubit(), unit())));
    let words = "an abstraction over a type with Circ(Qubit, Qubit ⊸ unit) inside, whose parts \
                 must be wire types";
    assert_eq!(error_at(line!(), &[], lambda(of, |x| x)), words);
}

/// A variable that has left what binds it.
#[test]
fn escaped_variables() {
    let mut kept = None;
    let identity = lambda(qubit(), |x| {
        kept = Some(x);
        x
    });
    let line = line!() - 4;
    let words = "the variable bound here is used outside of what binds it";
    let escaped = pair(identity, kept.expect("a variable"));
    assert_eq!(error_at(line, &[], escaped), words);
}

/// Types as 000 writes them.
#[test]
fn types_are_written() {
    let of = |of: std::rc::Rc<pqm::Type>| of.to_string();
    let to_bit = function(pair_type(qubit(), qubits(2)), pqm::types::bit());
    assert_eq!(of(to_bit.clone()), "Qubit ⊗ (Qubit ⊗ Qubit) ⊸ Bit");
    assert_eq!(
        of(reusable(to_bit.clone())),
        "!(Qubit ⊗ (Qubit ⊗ Qubit) ⊸ Bit)"
    );
    assert_eq!(
        of(function(to_bit, function(unit(), qubit()))),
        "(Qubit ⊗ (Qubit ⊗ Qubit) ⊸ Bit) ⊸ unit ⊸ Qubit"
    );
    assert_eq!(of(circuit(unit(), qubits(2))), "Circ(unit, Qubit ⊗ Qubit)");
    assert_eq!(of(pair_type(qubits(2), qubit())), "(Qubit ⊗ Qubit) ⊗ Qubit");
    assert_eq!(pqm::types::written(&[PAIR_TYPE, REUSABLE], 9), "!? ⊗ ?");
    assert_eq!(pqm::types::written(&[PAIR_TYPE, 77, QUBIT], 2), "? ⊗ …");
}
