//! Writes one module for each fault: a copy of the source with the fault's
//! edits, each of which must have exactly one place.

mod boxing_faults;
mod faults;
mod qasm_faults;

use boxing_faults::BOXING;
use faults::{Edit, FAULTS};
use qasm_faults::{PARSERS, PRINTERS};
use std::env;
use std::fs;
use std::path::{Path, PathBuf};

/// What is copied, and the faults of the copies.
struct Copied {
    /// The table of the copies' functions, and their type.
    table: &'static str,
    of: &'static str,
    /// The function in a copy.
    function: &'static str,
    source: &'static str,
    /// The files that a copy has.
    files: &'static [&'static str],
    /// What else a copy needs to see.
    uses: &'static str,
    faults: &'static [(&'static str, &'static [Edit])],
}

/// The files of the evaluator. What its copies answer is the evaluator's own type.
const EVALUATOR: Copied = Copied {
    table: "PLANTED",
    of: "Run",
    function: "run::run",
    source: "../evaluator/src",
    files: &[
        "circuits",
        "configurations",
        "contexts",
        "listing",
        "run",
        "terms",
    ],
    uses: "use evaluator::answer;",
    faults: FAULTS,
};

const COPIED: [Copied; 4] = [
    EVALUATOR,
    Copied {
        table: "BOXING",
        faults: BOXING,
        ..EVALUATOR
    },
    Copied {
        table: "PRINTERS",
        of: "Print",
        function: "print::print",
        source: "../qasm/src",
        files: &["print"],
        uses: "",
        faults: PRINTERS,
    },
    Copied {
        table: "PARSERS",
        of: "Parse",
        function: "parse::parse",
        source: "../qasm/src",
        files: &["parse"],
        uses: "",
        faults: PARSERS,
    },
];

fn main() {
    println!("cargo:rerun-if-changed=build.rs");
    println!("cargo:rerun-if-changed=boxing_faults.rs");
    println!("cargo:rerun-if-changed=faults.rs");
    println!("cargo:rerun-if-changed=qasm_faults.rs");
    let variable = |name: &str| PathBuf::from(env::var_os(name).expect(name));
    let mut all = String::new();
    for of in &COPIED {
        let source = variable("CARGO_MANIFEST_DIR").join(of.source);
        for file in of.files {
            let file = source.join(file).with_extension("rs");
            println!("cargo:rerun-if-changed={}", file.display());
        }
        all += &copies(of, &source);
    }
    let file = variable("OUT_DIR").join("planted.rs");
    fs::write(file, all).expect("the copies written");
}

/// The table, and the module of each copy.
fn copies(of: &Copied, source: &Path) -> String {
    let Copied { table, faults, .. } = of;
    let module = |at: usize| format!("{}_{at}", table.to_lowercase());
    let mut all = format!(
        "pub const {table}: [(&str, {}); {}] = [\n",
        of.of,
        faults.len()
    );
    for (at, (name, _)) in faults.iter().enumerate() {
        all += &format!("    ({name:?}, {}::{}),\n", module(at), of.function);
    }
    all += "];\n";
    for (at, (name, edits)) in faults.iter().enumerate() {
        all += &copy(of, source, &module(at), name, edits);
    }
    all
}

fn copy(of: &Copied, source: &Path, module: &str, name: &str, edits: &[Edit]) -> String {
    let mut module = format!("mod {module} {{\n{}\n", of.uses);
    for file in of.files {
        let path = source.join(file).with_extension("rs");
        let mut text = fs::read_to_string(&path).expect("the source");
        for (_, old, new) in edits.iter().filter(|(of, _, _)| of == file) {
            let places = text.matches(old).count();
            assert_eq!(places, 1, "places in {file} for the fault: {name}");
            text = text.replace(old, new);
        }
        module += &format!("pub mod {file} {{\n{text}\n}}\n");
    }
    assert!(
        edits.iter().all(|(file, _, _)| of.files.contains(file)),
        "a file of the copy for the fault: {name}"
    );
    module + "}\n"
}
