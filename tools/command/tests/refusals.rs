//! Each refusal by a file that gives it, and its explanation, which is compared with the
//! one in the folder `explanations`. With PQM_WRITE set they are written.

use gawipsol::{check, check_listing, check_with, export, import, run, LIMIT};
use pqm::entries::Entries;
use pqm::kinds::*;
use pqm::listing::{self, Listing};
use pqm::types::{circuit, function, qubit, qubits, reusable, unit};
use pqm::Wire::{self, Bit, Qubit};
use pqm::{
    application, apply, boxed, boxed_lambda, file, force, label, lambda, let_pair, lift, pair,
    sequence, unit_value, Named, Refusal, Type, CCX, CNOT, H, INIT, MEAS,
};
use pqm_command::explain::{explain, explain_file, Sort};
use pqm_command::meanings::MEANINGS;
use std::env;
use std::fs;
use std::path::Path;
use std::rc::Rc;

struct Case {
    name: &'static str,
    bytes: Vec<u8>,
    /// What the library answers, by the operation that refuses.
    refused: Option<Refusal>,
}

/// The file of a program whose labels are Qubits.
fn program(labels: usize, term: impl Into<Named>) -> Vec<u8> {
    file(&vec![Qubit; labels], term).expect("a file")
}

/// A file by its entries, of any form.
fn of_entries(labels: &[u8], types: &[u8], terms: &[(u8, u16)]) -> Vec<u8> {
    Entries::new(labels, types, terms).bytes()
}

fn checked(name: &'static str, bytes: Vec<u8>) -> Case {
    let refused = check(&bytes).err();
    Case {
        name,
        bytes,
        refused,
    }
}

fn ran(name: &'static str, bytes: Vec<u8>, limit: u32) -> Case {
    let refused = run(&bytes, limit).err();
    Case {
        name,
        bytes,
        refused,
    }
}

fn listed(name: &'static str, bytes: Vec<u8>) -> Case {
    let refused = check_listing(&bytes).err();
    Case {
        name,
        bytes,
        refused,
    }
}

fn form() -> Vec<Case> {
    let one_label = [1, 0, 0, 0, 1, 0, 1, 17, 0, 0, 0, 0];
    let bell = pair(label(0), label(1));
    let cut = program(2, bell)[..20].to_vec();
    let long = [program(1, label(0)), vec![0; 1]].concat();
    let sizes = |sizes: [u8; 6]| [&sizes[..], &one_label[6..]].concat();
    let argument = |term: &[(u8, u16)]| of_entries(&[QUBIT, QUBIT], &[QUBIT], term);
    let accepted = |gates: &[listing::Entry]| listing(&[Qubit], gates, &[0]).bytes();
    vec![
        checked("01-empty", Vec::new()),
        checked("01-cut", vec![1, 0, 0]),
        checked("02-no-term", sizes([1, 0, 0, 0, 0, 0])),
        checked("02-labels", sizes([65, 0, 0, 0, 1, 0])),
        checked("02-types", sizes([1, 0, 1, 2, 1, 0])),
        checked("02-terms", sizes([1, 0, 0, 0, 1, 8])),
        checked("03-listing", accepted(&[])),
        checked("03-cut", cut),
        checked("03-long", long),
        checked("04-label", of_entries(&[2], &[], &[(LABEL, 0)])),
        checked("04-type", of_entries(&[QUBIT], &[LIFT], &[(LABEL, 0)])),
        checked("04-term", of_entries(&[QUBIT], &[], &[(77, 0)])),
        checked("05-label", argument(&[(PAIR, 0), (LABEL, 0), (LABEL, 2)])),
        checked("05-no-label", of_entries(&[], &[], &[(LABEL, 0)])),
        checked("05-gate", argument(&[(APPLY, 0), (GATE, 12), (LABEL, 0)])),
        checked("05-position", argument(&[(ABSTRACTION, 1), (VARIABLE, 0)])),
        checked("05-other", argument(&[(LIFT, 3), (GATE, 0)])),
        checked(
            "06-type",
            of_entries(&[QUBIT], &[BIT, FUNCTION, PAIR_TYPE, QUBIT], &[(LABEL, 0)]),
        ),
        checked(
            "07-circ",
            of_entries(&[], &[CIRCUIT, QUBIT, REUSABLE, QUBIT], &[(GATE, 0)]),
        ),
        checked(
            "07-box",
            of_entries(
                &[],
                &[BIT, REUSABLE, QUBIT],
                &[(BOX, 1), (LIFT, 0), (GATE, 0)],
            ),
        ),
        checked(
            "08-runs-out",
            of_entries(&[QUBIT], &[], &[(PAIR, 0), (LABEL, 0)]),
        ),
        checked(
            "08-left-over",
            of_entries(&[QUBIT, QUBIT], &[], &[(LABEL, 0), (PAIR, 0), (LABEL, 1)]),
        ),
        checked("09-none", of_entries(&[QUBIT], &[], &[(VARIABLE, 0)])),
        checked(
            "09-too-far",
            of_entries(
                &[QUBIT],
                &[QUBIT],
                &[
                    (ABSTRACTION, 0),
                    (LET, 0),
                    (GATE, 5),
                    (PAIR, 0),
                    (VARIABLE, 2),
                    (VARIABLE, 3),
                ],
            ),
        ),
    ]
}

/// A type with so many entries, or one more.
fn large(entries: usize) -> Rc<Type> {
    (1..entries / 2).fold(reusable(qubit()), |of, _| reusable(reusable(of)))
}

fn typing() -> Vec<Case> {
    let identity = || lambda(qubit(), |x| x);
    let on_two = || lambda(qubits(2), |wires| wires);
    let left = pair(pair(label(0), label(1)), label(2));
    let many = (1..40)
        .rev()
        .fold(label(40), |rest, at| pair(label(at), rest));
    let many = application(lambda(qubits(40), |x| x), many);
    let last_is_bit: Vec<Wire> = (0..=40)
        .map(|at| if at < 40 { Qubit } else { Bit })
        .collect();
    let often = (1..12).fold(label(0), |rest, _| pair(label(0), rest));
    vec![
        checked(
            "16-application-of-circuit",
            program(1, application(H, label(0))),
        ),
        checked(
            "16-application-of-lift",
            program(1, application(lift(identity()), label(0))),
        ),
        checked(
            "16-application-of-wire",
            program(2, application(label(0), label(1))),
        ),
        checked(
            "16-application-argument",
            program(1, application(on_two(), label(0))),
        ),
        checked(
            "16-application-large",
            file(&last_is_bit, (label(0), many)).expect("a file"),
        ),
        checked(
            "16-apply-of-function",
            program(1, apply(identity(), label(0))),
        ),
        checked(
            "16-apply-of-lift",
            program(1, apply(lift(identity()), label(0))),
        ),
        checked(
            "16-apply-argument",
            program(1, apply(H, apply(MEAS, label(0)))),
        ),
        checked("16-apply-nested", program(3, apply(CCX, left))),
        checked("16-let", program(1, let_pair(label(0), |a, b| (a, b)))),
        checked("16-force", program(1, force(label(0)))),
        checked("16-box-not-lifted", program(1, boxed(qubit(), identity()))),
        checked("16-box-no-function", program(1, boxed(qubit(), lift(H)))),
        checked(
            "16-box-other-type",
            program(1, boxed(qubits(2), lift(identity()))),
        ),
        checked(
            "16-box-no-wires",
            program(1, boxed_lambda(unit(), |_| lift(unit_value()))),
        ),
        checked(
            "16-too-large",
            program(1, lambda(large(400), |x| lambda(large(120), |_| x))),
        ),
        checked("17-label-twice", program(1, (label(0), label(0)))),
        checked("17-label-never", program(2, label(1))),
        checked("17-label-often", program(1, often)),
        checked("17-abstraction", program(0, lambda(qubit(), |x| (x, x)))),
        checked(
            "17-let",
            program(2, let_pair((label(0), label(1)), |a, _| (a, (a, a)))),
        ),
        checked("17-in-lift", program(0, lambda(qubit(), |x| (x, lift(x))))),
        checked("18-label", program(1, lift(label(0)))),
        checked(
            "18-variable",
            program(
                1,
                application(
                    lambda(qubit(), |q| lift(lambda(qubit(), |x| (x, q)))),
                    label(0),
                ),
            ),
        ),
    ]
}

/// A function that gives the Qubit it takes, by twice calling the function of one level
/// less.
fn doubling(level: usize) -> Named {
    if level == 0 {
        return lambda(qubit(), |x| x);
    }
    let lifted = lift(doubling(level - 1));
    lambda(qubit(), |x| {
        sequence(|s| {
            let once = s.bind(reusable(function(qubit(), qubit())), lifted);
            application(force(once), application(force(once), x))
        })
    })
}

/// A circuit that is a gate so often, from circuits of half as many.
fn many_gates(doublings: usize) -> Named {
    let on_one = circuit(qubit(), qubit());
    sequence(|s| {
        let mut twice = s.bind(on_one.clone(), H);
        for _ in 0..doublings {
            twice = s.bind(
                on_one.clone(),
                boxed_lambda(qubit(), |q| apply(twice, apply(twice, q))),
            );
        }
        apply(twice, label(0))
    })
}

fn runs() -> Vec<Case> {
    let boxed_h = program(1, apply(boxed_lambda(qubit(), |q| apply(H, q)), label(0)));
    let short = Case {
        name: "19-short",
        refused: check_with(&boxed_h, [511, 54_880]).err(),
        bytes: boxed_h.clone(),
    };
    let long = program(1, application(doubling(20), label(0)));
    vec![
        short,
        ran("20-function", program(0, lambda(qubit(), |x| x)), LIMIT),
        ran("20-lift", program(0, lift(unit_value())), LIMIT),
        ran("21-finishes", boxed_h, 4),
        ran("21-long", long, LIMIT),
        ran("21-then-22", program(1, many_gates(12)), 9),
        ran("22-gates", program(1, many_gates(12)), LIMIT),
    ]
}

fn listing(inputs: &[Wire], gates: &[listing::Entry], outputs: &[u16]) -> Listing {
    Listing {
        inputs: inputs.iter().map(|&of| listing::Entry::input(of)).collect(),
        gates: gates.to_vec(),
        outputs: outputs.to_vec(),
    }
}

fn number_of(gate: &pqm::gates::Gate) -> u8 {
    let number = pqm::gates::GATES.iter().position(|other| other == gate);
    number.expect("a gate") as u8
}

fn listings() -> Vec<Case> {
    let gate = |of, wires: &[u16]| listing::Entry::gate(number_of(of), wires);
    let of = |inputs: &[Wire], gates: &[listing::Entry], outputs: &[u16]| {
        listing(inputs, gates, outputs).bytes()
    };
    let one = of(&[Qubit], &[gate(H, &[0])], &[1]);
    let mut other_kind = one.clone();
    other_kind[7] = 12;
    let mut other_input = one.clone();
    other_input[6] = 1;
    let mut used_slot = one.clone();
    used_slot[8] = 0;
    let mut second_slot = one.clone();
    second_slot[16] = 0;
    let many = [&[65, 0][..], &one[2..]].concat();
    let with_init = of(&[], &[gate(INIT, &[])], &[0]);
    let exported = Case {
        name: "28-init",
        refused: export(&with_init).err(),
        bytes: with_init,
    };
    vec![
        listed("24-short", vec![0; 5]),
        listed("24-sizes", many),
        listed("24-length", one[..one.len() - 1].to_vec()),
        listed("24-program", program(1, label(0))),
        listed("25-gate", other_kind),
        listed("25-input", other_input),
        listed("25-slot-of-input", used_slot),
        listed("25-slot-of-gate", second_slot),
        listed("26-not-made", of(&[Qubit], &[gate(H, &[1])], &[1])),
        listed(
            "26-no-wire",
            of(&[Qubit], &[gate(H, &[listing::NO_WIRE])], &[0]),
        ),
        listed(
            "26-other-type",
            of(&[Qubit, Bit], &[gate(CNOT, &[0, 1])], &[2, 3]),
        ),
        listed(
            "26-twice",
            of(&[Qubit, Qubit], &[gate(CNOT, &[0, 0])], &[2, 3]),
        ),
        listed(
            "26-gone",
            of(
                &[Qubit],
                &[gate(H, &[0]), gate(MEAS, &[1]), gate(H, &[0])],
                &[2],
            ),
        ),
        listed("26-output-not-made", of(&[Qubit], &[], &[0, 1])),
        listed(
            "26-output-no-wire",
            of(&[Qubit], &[], &[0, listing::NO_WIRE]),
        ),
        listed("26-output-gone", of(&[Qubit], &[gate(H, &[0])], &[1, 0])),
        listed("26-left-over", of(&[Qubit, Qubit], &[gate(H, &[0])], &[2])),
        exported,
    ]
}

fn texts() -> Vec<Case> {
    let gate = |of, wires: &[u16]| listing::Entry::gate(number_of(of), wires);
    let gates = [gate(H, &[0]), gate(CNOT, &[2, 1]), gate(MEAS, &[3])];
    let text = export(&listing(&[Qubit, Qubit], &gates, &[5, 4]).bytes()).expect("a text");
    let text = String::from_utf8(text).expect("a text");
    let lines = |count: usize| -> String { text.split_inclusive('\n').take(count).collect() };
    let cases = [
        ("27-empty", String::new()),
        ("27-head", text.replace("2.0", "3.0")),
        ("27-register", text.replace("qreg q1", "qreg q2")),
        ("27-gate", text.replace("cx q0[0],q1[0]", "cx q0[0], q1[0]")),
        (
            "27-measured",
            text.replace("cx q0", "measure q0[0] -> c0[0];\ncx q0"),
        ),
        ("27-line-end", text.replace('\n', "\r\n")),
        ("27-outputs", text.replace("// out c0 q1", "// out q0 q1")),
        ("27-cut", lines(8)),
        ("27-no-line-feed", text.trim_end().to_string()),
        ("27-more", format!("{text}// end\n")),
    ];
    let cases = cases.map(|(name, text)| Case {
        name,
        refused: import(text.as_bytes()).err(),
        bytes: text.into_bytes(),
    });
    cases.into()
}

#[test]
fn each_refusal_is_explained() {
    let folder = Path::new(env!("CARGO_MANIFEST_DIR")).join("tests/explanations");
    let cases = [form(), typing(), runs(), listings(), texts()].concat_all();
    let mut numbers: Vec<u8> = Vec::new();
    for case in &cases {
        let number: u8 = case.name[..2].parse().expect("a number");
        let refusal = case.refused.expect(case.name);
        assert_eq!(refusal.number, number, "the refusal of {}", case.name);
        numbers.push(number);
        let explanation = explain(&case.bytes, refusal);
        let sentences = explanation.split("\n\n").nth(1).unwrap_or_default();
        let words = sentences.trim().replace('\n', " ");
        let count = 1 + words.matches(". ").count();
        assert!((2..=3).contains(&count), "{}: {count} sentences", case.name);
        assert!(!explanation.contains("not refused so"), "{}", case.name);
        let path = folder.join(case.name).with_extension("txt");
        if env::var_os("PQM_WRITE").is_some() {
            fs::write(&path, &explanation).expect("an explanation written");
        }
        let known = fs::read_to_string(&path).unwrap_or_default();
        assert_eq!(known, explanation, "the explanation of {}", case.name);
    }
    for (number, _) in MEANINGS {
        assert!(numbers.contains(&number), "no file gives refusal {number}");
    }
    let files = fs::read_dir(&folder).expect("the folder").count();
    assert_eq!(files, cases.len(), "an explanation of no case");
}

trait Concat<T> {
    fn concat_all(self) -> Vec<T>;
}

impl<T, const N: usize> Concat<T> for [Vec<T>; N] {
    fn concat_all(self) -> Vec<T> {
        self.into_iter().flatten().collect()
    }
}

/// `pqm explain FILE` takes the refusal from the library.
#[test]
fn the_library_is_asked() {
    // Two of the runs have another limit than the one of `pqm explain`, and one lends less.
    let runs = runs().into_iter().filter(|case| {
        ["20", "21-long", "22"]
            .iter()
            .any(|name| case.name.starts_with(name))
    });
    for case in form().into_iter().chain(typing()).chain(runs) {
        let refusal = case.refused.expect(case.name);
        let explanation = explain_file(Sort::Program, &case.bytes);
        assert_eq!(explanation, explain(&case.bytes, refusal), "{}", case.name);
    }
    for case in texts() {
        let refusal = case.refused.expect(case.name);
        let explanation = explain_file(Sort::Text, &case.bytes);
        assert_eq!(explanation, explain(&case.bytes, refusal), "{}", case.name);
    }
    for case in listings() {
        let refusal = case.refused.expect(case.name);
        let explanation = explain_file(Sort::Listing, &case.bytes);
        assert_eq!(explanation, explain(&case.bytes, refusal), "{}", case.name);
    }
    let accepted = program(1, label(0));
    let words = "Nothing is refused: the run finishes after 0 steps with 0 gates.\n";
    assert_eq!(explain_file(Sort::Program, &accepted), words);
}

/// A number or a place that is not the file's is said to be so.
#[test]
fn other_refusals_are_told() {
    let bytes = program(1, (label(0), label(0)));
    for refusal in [
        (17, 1),
        (16, 2),
        (18, 3),
        (4, 9_999),
        (20, 0),
        (21, 0),
        (24, 0),
        (27, 0),
    ] {
        let (number, place) = refusal;
        let explanation = explain(&bytes, Refusal { number, place });
        let is_other = explanation.contains("not refused so") != matches!(number, 24 | 27);
        assert!(is_other, "{explanation}");
    }
    for number in (0..=255).filter(|number| MEANINGS.iter().all(|(other, _)| other != number)) {
        let explanation = explain(&bytes, Refusal { number, place: 0 });
        let words = format!("refused {number} 0: no operation refuses with this number\n");
        assert_eq!(explanation, words);
    }
}
