//! One file at a time to both readers; what has been seen is counted.

use crate::library;
use crate::planted::{Reader, PLANTED};
use comparing::files::ComparePrograms;
use comparing::{Counts, Expected, Known, Lent, Planted};
use program_files::read::sections;
use program_files::{kinds, read, Accepted, Entry, Refusal, GATES};

/// The least number of files in all, and for each answer.
const LEAST_FILES: usize = 200_000;
const LEAST_EACH: usize = 5_000;

/// What accepted files have of unit and of CCX, and in how many of them at least.
const ACCEPTED: [(&str, usize); 5] = [
    ("unit in the type section", 20_000),
    ("a Circ with unit inside", 3_000),
    ("a box at a type with unit inside", 1_000),
    ("unit's value", 20_000),
    ("CCX", 10_000),
];

/// Files that are refused at the first number that is no gate's.
const LEAST_NO_GATE: usize = 200;

/// The number of the gate.
const CCX: u16 = 11;

pub struct Comparison {
    counts: Counts,
    lent: Lent<0>,
    longest: usize,
    deepest_term: usize,
    deepest_type: usize,
    least_sizes: [usize; 3],
    most_sizes: [usize; 3],
    /// In the order of `ACCEPTED`.
    accepted: [usize; ACCEPTED.len()],
    no_gate: usize,
    planted: Planted<Reader>,
}

impl Comparison {
    pub fn new() -> Comparison {
        Comparison {
            counts: Counts::default(),
            lent: Lent::new(1, [], library::in_words),
            longest: 0,
            deepest_term: 0,
            deepest_type: 0,
            least_sizes: [usize::MAX; 3],
            most_sizes: [0; 3],
            accepted: [0; ACCEPTED.len()],
            no_gate: 0,
            planted: Planted::new(1, PLANTED),
        }
    }

    pub fn files(&self) -> usize {
        self.counts.all()
    }

    fn count_accepted(&mut self, file: &[u8], accepted: &Accepted) {
        let entries = sections(file).expect("an accepted file");
        let has = |at: usize| accepted.types[at].preorder().contains(&kinds::UNIT);
        let mut types = entries.types.iter().enumerate();
        let mut terms = entries.terms.iter();
        let is_box = |entry: &Entry| entry.kind == kinds::BOX && has(entry.argument.into());
        let seen = [
            entries.types.iter().any(|entry| entry.kind == kinds::UNIT),
            types.any(|(at, entry)| entry.kind == kinds::CIRCUIT && has(at)),
            entries.terms.iter().any(is_box),
            terms.any(|entry| entry.kind == kinds::UNIT_VALUE),
            entries.terms.contains(&Entry::new(kinds::GATE, CCX)),
        ];
        for (count, seen) in self.accepted.iter_mut().zip(seen) {
            *count += usize::from(seen);
        }
    }

    /// Prints the counts, and fails if too little has been seen.
    pub fn report(&self) {
        self.counts.report("accepted", 1..10);
        println!("longest file: {} bytes", self.longest);
        for (name, at) in [("L", 0), ("P", 1), ("N", 2)] {
            let (least, most) = (self.least_sizes[at], self.most_sizes[at]);
            println!("{name} of accepted files: {least} to {most}");
        }
        println!("deepest term accepted: {}", self.deepest_term);
        println!("deepest type accepted: {}", self.deepest_type);
        for ((name, _), files) in ACCEPTED.iter().zip(self.accepted) {
            println!("{files:>9} accepted with {name}");
        }
        println!("{:>9} refused with 5 at gate {}", self.no_gate, GATES.len());
        self.planted.report("file");
        assert!(self.counts.distinct() >= LEAST_FILES, "too few files");
        assert!(
            (0..10).all(|number| self.counts.with(number) >= LEAST_EACH),
            "too few files for some answer"
        );
        assert!(self.longest > 65_536, "no file past 16 bits");
        assert_eq!(self.least_sizes, [0, 0, 1], "least sizes not reached");
        assert_eq!(self.most_sizes, [64, 512, 2_048], "most sizes not reached");
        assert_eq!(self.deepest_term, 2_048, "deepest term not reached");
        assert_eq!(self.deepest_type, 512, "deepest type not reached");
        for ((name, least), files) in ACCEPTED.iter().zip(self.accepted) {
            assert!(files >= *least, "too few with {name}");
        }
        assert!(self.no_gate >= LEAST_NO_GATE, "too few at the last gate");
    }
}

impl ComparePrograms for Comparison {
    fn group(&mut self, name: &str) {
        self.counts.group(name);
    }

    /// Compares both readers with each other and with what is known.
    fn program(&mut self, file: &[u8], known: &Known) {
        let accepted = read(file);
        let refusal = accepted.as_ref().err();
        if !known.fits(refusal) {
            let words = format!("known {known:?}, expected {refusal:?}");
            self.counts.differs(file, &words);
        }
        let packed = library::pack(accepted.as_ref().map(|a| a.sizes).map_err(|&r| r));
        let expected = Expected {
            packed,
            out: &[],
            cleared: false,
        };
        let call = |lent: &mut Lent<0>| library::answer(lent.file());
        if let Err(words) = self.lent.call(call, file, &[], &expected) {
            self.counts.differs(file, &words);
        }
        self.planted.look(self.counts.all(), |reader| {
            library::pack(reader(file)) != packed
        });
        let number = refusal.map_or(0, |refusal| refusal.number);
        self.counts.count(file, number);
        self.longest = self.longest.max(file.len());
        if let Err(Refusal { number: 5, place }) = accepted {
            let entries = sections(file).expect("a file with right sizes");
            let wrong = entries.all().nth(place);
            let no_gate = Entry::new(kinds::GATE, GATES.len() as u16);
            self.no_gate += usize::from(wrong == Some(&no_gate));
        }
        if let Ok(accepted) = accepted {
            let sizes = [
                accepted.sizes.labels,
                accepted.sizes.types,
                accepted.sizes.terms,
            ];
            for (at, size) in sizes.into_iter().enumerate() {
                self.least_sizes[at] = self.least_sizes[at].min(size);
                self.most_sizes[at] = self.most_sizes[at].max(size);
            }
            self.deepest_term = self.deepest_term.max(accepted.term.depth());
            for of in &accepted.types {
                self.deepest_type = self.deepest_type.max(of.depth());
            }
            self.count_accepted(file, &accepted);
        }
    }
}
