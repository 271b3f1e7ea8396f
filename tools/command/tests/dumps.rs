//! Dumps of files, damaged or not, as in the folder `dumps`. With PQM_WRITE set they are
//! written.

use gawipsol::check;
use pqm::entries::Entries;
use pqm::kinds::*;
use pqm::types::{qubit, qubits};
use pqm::Wire::Qubit;
use pqm::{apply, boxed_lambda, file, label, lambda, let_pair, CCX, H};
use pqm_command::dump::Dump;
use std::env;
use std::fs;
use std::path::Path;

fn cases() -> Vec<(&'static str, Vec<u8>)> {
    let boxed = boxed_lambda(qubit(), |q| apply(H, q));
    let boxed = file(&[Qubit], apply(boxed, label(0))).expect("a file");
    let three = lambda(qubits(3), |wires| {
        let_pair(apply(CCX, wires), |a, others| {
            let_pair(others, |b, c| (a, (b, c)))
        })
    });
    let terms = [(LIFT, 0), (77, 3), (PAIR, 0), (VARIABLE, 5)];
    let wrong = Entries::new(&[QUBIT, 9], &[PAIR_TYPE, FUNCTION, BIT, 8, CIRCUIT], &terms);
    let deep = (0..40).fold(pqm::Named::from(H), |part, _| pqm::lift(part));
    vec![
        ("empty", Vec::new()),
        ("sizes-cut", boxed[..5].to_vec()),
        ("kinds-cut", boxed[..12].to_vec()),
        ("arguments-cut", boxed[..boxed.len() - 5].to_vec()),
        ("longer", [&boxed[..], &[0; 2]].concat()),
        ("boxed", boxed),
        ("three-wires", file(&[], three).expect("a file")),
        ("wrong-kinds", wrong.bytes()),
        (
            "no-rule",
            file(&[Qubit], apply(label(0), H)).expect("a file"),
        ),
        ("deep", file(&[], deep).expect("a file")),
        (
            "runs-out",
            Entries::new(&[], &[], &[(PAIR, 0), (GATE, 0)]).bytes(),
        ),
    ]
}

#[test]
fn files_are_dumped() {
    let folder = Path::new(env!("CARGO_MANIFEST_DIR")).join("tests/dumps");
    for (name, bytes) in cases() {
        let text = Dump::new(&bytes).text(check(&bytes).err());
        let path = folder.join(name).with_extension("txt");
        if env::var_os("PQM_WRITE").is_some() {
            fs::write(&path, &text).expect("a dump written");
        }
        let known = fs::read_to_string(&path).unwrap_or_default();
        assert_eq!(known, text, "the dump of {name}");
    }
    let files = fs::read_dir(&folder).expect("the folder").count();
    assert_eq!(files, cases().len(), "a dump of no file");
}
