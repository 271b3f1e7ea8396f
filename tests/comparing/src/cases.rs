//! The cases of 01, c1 to c12 and the two files that are not read, and those of
//! 02, as one table: of each its file, and what the reading, the check and runs
//! answer.

use crate::copied_pairs::{self, Copied};
use crate::first_faults::{self, Faulty};
use crate::helpers;
use crate::known::Known;
use crate::three_wires;
use crate::without_box;
use crate::written::{entries, type_of, Written, ABS, APP, FUN, VAR};
use program_files::kinds::*;
use program_files::{encode, Entries, Positions, Program, Refusal, Sizes, Term, Wire};
use std::rc::Rc;

pub struct Case {
    pub name: String,
    pub file: Vec<u8>,
    pub read: Result<Sizes, Refusal>,
    /// The type in preorder.
    pub check: Result<&'static [u8], Refusal>,
    /// With enough steps.
    run: Run,
}

/// A program with these labels, which is accepted and finishes.
pub struct Finishing {
    pub name: &'static str,
    pub labels: Vec<Wire>,
    pub term: Rc<Term>,
    /// The type in preorder.
    pub of: &'static [u8],
    pub steps: u32,
    pub listing: &'static Listing,
}

/// What a run answers.
pub type Run = Result<Finished, Refusal>;

#[derive(Clone, Copy)]
pub struct Finished {
    pub steps: u32,
    pub listing: &'static Listing,
}

pub struct Listing {
    pub gates: usize,
    pub bytes: &'static [u8],
    /// As `wirelist` prints it.
    pub lines: &'static str,
}

/// The limits with which each case is run: those around the steps of each, and
/// that of `wirelist`.
pub const LIMITS: [u32; 20] = [
    0, 1, 2, 3, 4, 5, 6, 7, 8, 9, 10, 11, 12, 13, 14, 24, 25, 30, 31, 1_000_000,
];

/// The table.
pub fn all() -> Vec<Case> {
    assert_eq!(entries(C1).bytes(), C1_FILE, "the file of c1");
    let mut all = vec![
        finished("c1", C1, &[QUBIT], 0, &ONE_WIRE),
        finished("c2", C2, &[QUBIT], 1, &ONE_GATE),
        finished("c3", C3, &[PAIR_TYPE, QUBIT, QUBIT], 2, &CROSSED),
        finished("c4", C4, &[QUBIT], 5, &ONE_GATE),
        not_typed("c5", C5, 17, 0),
        not_typed("c6", C6, 17, 0),
        not_typed("c7", C7, 18, 2),
        not_typed("c8", C8, 16, 1),
        not_typed("c9", C9, 17, 1),
        finished("c10", C10, &[QUBIT], 3, &TWO_GATES),
        no_wires("c11", C11, &[FUN, QUBIT, QUBIT]),
        finished("c12", C12, &[QUBIT], 1, &ONE_WIRE),
        not_read("the empty file", &[], 1),
        not_read("sizes 1, 0, 0 alone", &[1, 0, 0, 0, 0, 0], 2),
    ];
    all.extend(first_faults::all().into_iter().map(faulty));
    all.extend(copied_pairs::accepted().into_iter().map(copied));
    all.extend(copied_pairs::refused().into_iter().map(faulty));
    all.extend(helpers::accepted().into_iter().map(finishing));
    all.extend(helpers::refused().into_iter().map(faulty));
    all.push(read(
        "a function from unit to unit",
        &written(Vec::new(), helpers::no_wires()),
        Ok(&[FUN, UNIT, UNIT]),
        Err(refusal(20, 0)),
    ));
    all.extend(three_wires::accepted().into_iter().map(finishing));
    all.extend(three_wires::refused().into_iter().map(faulty));
    all.extend(without_box::accepted().into_iter().map(finishing));
    all
}

fn faulty(of: Faulty) -> Case {
    let refusal = refusal(of.number, of.place);
    let entries = written(of.labels, of.term);
    read(&of.name, &entries, Err(refusal), Err(refusal))
}

fn copied(of: Copied) -> Case {
    let Copied { steps, listing, .. } = of;
    let run = Ok(Finished { steps, listing });
    let entries = written(vec![Wire::Qubit], of.term);
    read(of.name, &entries, Ok(&[QUBIT]), run)
}

fn finishing(of: Finishing) -> Case {
    let Finishing { steps, listing, .. } = of;
    let run = Ok(Finished { steps, listing });
    read(of.name, &written(of.labels, of.term), Ok(of.of), run)
}

/// The program of a term with these labels. Each type is written anew, as in the
/// proved table.
fn written(labels: Vec<Wire>, term: Rc<Term>) -> Entries {
    let program = Program::new(labels, term);
    encode(&program, Positions::Fresh).expect("a file")
}

fn finished(
    name: &str,
    program: Written,
    of: &'static [u8],
    steps: u32,
    listing: &'static Listing,
) -> Case {
    let run = Ok(Finished { steps, listing });
    read(name, &entries(program), Ok(of), run)
}

/// Its type is no wire type.
fn no_wires(name: &str, program: Written, of: &'static [u8]) -> Case {
    read(name, &entries(program), Ok(of), Err(refusal(20, 0)))
}

/// A run first checks.
fn not_typed(name: &str, program: Written, number: u8, place: usize) -> Case {
    let refusal = refusal(number, place);
    read(name, &entries(program), Err(refusal), Err(refusal))
}

/// A check first reads.
fn not_read(name: &str, file: &[u8], number: u8) -> Case {
    let refusal = refusal(number, 0);
    Case {
        name: name.to_string(),
        file: file.to_vec(),
        read: Err(refusal),
        check: Err(refusal),
        run: Err(refusal),
    }
}

fn read(name: &str, entries: &Entries, check: Result<&'static [u8], Refusal>, run: Run) -> Case {
    Case {
        name: name.to_string(),
        file: entries.bytes(),
        read: Ok(entries.sizes()),
        check,
        run,
    }
}

fn refusal(number: u8, place: usize) -> Refusal {
    Refusal { number, place }
}

impl Case {
    /// What a run with this limit answers.
    pub fn run(&self, limit: u32) -> Run {
        match self.run {
            Ok(Finished { steps, .. }) if limit < steps => Err(refusal(21, 0)),
            run => run,
        }
    }

    /// What the reading is known to give.
    pub fn known_read(&self) -> Known {
        match self.read {
            Ok(_) => Known::Accepted,
            Err(refusal) => Known::refused(refusal),
        }
    }

    /// What the check is known to give.
    pub fn known(&self) -> Known {
        match self.check {
            Ok(kinds) => Known::Type(type_of(kinds)),
            Err(refusal) => Known::refused(refusal),
        }
    }
}

/// The lines that `wirelist` prints for the answer of a run.
pub fn lines(run: &Run) -> String {
    match run {
        Ok(Finished { steps, listing }) => format!("{}steps {steps}\n", listing.lines),
        Err(Refusal { number, place }) => format!("refused {number} {place}\n"),
    }
}

/// The listing of c1 and c12.
pub const ONE_WIRE: Listing = Listing {
    gates: 0,
    bytes: &[1, 0, 0, 0, 1, 0, 0x81, 255, 255, 255, 255, 255, 255, 0, 0],
    lines: "in 0 Qubit\nout 0\n",
};

/// The listing of c2 and c4, as 02 rewrites it.
const ONE_GATE: Listing = Listing {
    gates: 1,
    bytes: &[
        1, 0, 1, 0, 1, 0, 0x81, 0, 255, 255, 255, 255, 255, 255, 0, 0, 255, 255, 255, 255, 1, 0,
    ],
    lines: "in 0 Qubit\ngate H 0 : 1\nout 1\n",
};

/// The listing of c3; its lines as 01 has them.
const CROSSED: Listing = Listing {
    gates: 1,
    bytes: &[
        2, 0, 1, 0, 2, 0, 0x81, 0x81, 5, 255, 255, 255, 255, 255, 255, 255, 255, 255, 255, 255,
        255, 0, 0, 1, 0, 255, 255, 3, 0, 2, 0,
    ],
    lines: "in 0 Qubit\nin 1 Qubit\ngate CNOT 0 1 : 2 3\nout 3 2\n",
};

/// The listing of c10.
const TWO_GATES: Listing = Listing {
    gates: 2,
    bytes: &[
        1, 0, 2, 0, 1, 0, 0x81, 0, 0, 255, 255, 255, 255, 255, 255, 0, 0, 255, 255, 255, 255, 1, 0,
        255, 255, 255, 255, 2, 0,
    ],
    lines: "in 0 Qubit\ngate H 0 : 1\ngate H 1 : 2\nout 2\n",
};

/// The file of c1, as 01 has it.
const C1_FILE: [u8; 12] = [1, 0, 0, 0, 1, 0, 1, 0x11, 0, 0, 0, 0];

const C1: Written = (&[QUBIT], &[], &[(LABEL, 0)]);

const C2: Written = (&[QUBIT], &[], &[(APPLY, 0), (GATE, 0), (LABEL, 0)]);

const C3: Written = (
    &[QUBIT, QUBIT],
    &[],
    &[
        (LET, 0),
        (APPLY, 0),
        (GATE, 5),
        (PAIR, 0),
        (LABEL, 0),
        (LABEL, 1),
        (PAIR, 0),
        (VAR, 0),
        (VAR, 1),
    ],
);

pub const C4: Written = (
    &[QUBIT],
    &[QUBIT],
    &[
        (APPLY, 0),
        (BOX, 0),
        (LIFT, 0),
        (ABS, 0),
        (APPLY, 0),
        (GATE, 0),
        (VAR, 0),
        (LABEL, 0),
    ],
);

const C5: Written = (&[QUBIT], &[], &[(PAIR, 0), (LABEL, 0), (LABEL, 0)]);

const C6: Written = (&[QUBIT], &[QUBIT], &[(ABS, 0), (VAR, 0)]);

const C7: Written = (&[QUBIT], &[], &[(LIFT, 0), (LABEL, 0)]);

const C8: Written = (
    &[QUBIT],
    &[],
    &[(APPLY, 0), (GATE, 0), (APPLY, 0), (GATE, 6), (LABEL, 0)],
);

const C9: Written = (&[], &[QUBIT], &[(ABS, 0), (PAIR, 0), (VAR, 0), (VAR, 0)]);

const C10: Written = (
    &[QUBIT],
    &[CIRCUIT, QUBIT, QUBIT],
    &[
        (APP, 0),
        (ABS, 0),
        (APPLY, 0),
        (VAR, 0),
        (APPLY, 0),
        (VAR, 0),
        (LABEL, 0),
        (GATE, 0),
    ],
);

const C11: Written = (&[], &[QUBIT], &[(ABS, 0), (VAR, 0)]);

const C12: Written = (
    &[QUBIT],
    &[CIRCUIT, QUBIT, QUBIT],
    &[(APP, 0), (ABS, 0), (LABEL, 0), (GATE, 0)],
);
