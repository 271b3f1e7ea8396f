//! One program at a time to both checks; what has been seen is counted.

use crate::memory::{Check, MEMORY};
use crate::seen::{name_of, Seen};
use check_compare::counting::{self, Wrong, PLANTED};
use check_compare::library::{self, is_short, pack, Lengths, LEAST_OUT, LEAST_WORK, SHORT};
use comparing::files::ComparePrograms;
use comparing::{Counts, Expected, Known, Lent, Planted};
use program_files::{kinds, read, Accepted, Random, Term};
use programs::check::{agree, check_read, Answer};
use programs::rules::{verdict, Sharing};
use programs::survey::Survey;
use std::collections::BTreeMap;

/// The least number of distinct generated programs, and of programs for each
/// answer.
const LEAST_GENERATED: usize = 100_000;
const LEAST_ACCEPTED: usize = 30_000;
const LEAST_REFUSED: [(u8, usize); 3] = [(16, 30_000), (17, 20_000), (18, 6_000)];
const LEAST_NOT_READ: usize = 30;

/// So many generated programs must tell a planted fault from the exported
/// check.
const LEAST_FOUND: usize = 10;

/// Every way to share is tried with at most so many nodes, and so many linear
/// variables and labels.
const MOST_NODES: usize = 12;
const MOST_LINEAR: usize = 5;

pub struct Comparison {
    counts: Counts,
    lent: Lent<2>,
    random: Random,
    calls: usize,
    short: usize,
    every_sharing: usize,
    planted: Planted<Wrong>,
    memory: Planted<Check>,
    /// Whether pairs that may be copied are counted in the programs that follow:
    /// not where each is made to have one.
    pub counts_pairs: bool,
    /// By number, and by what stands at the place.
    places: BTreeMap<(u8, &'static str), usize>,
    seen: Seen,
}

impl Comparison {
    pub fn new() -> Comparison {
        Comparison {
            counts: Counts::default(),
            lent: Lent::new(
                1,
                ["the output buffer", "the working memory"],
                library::in_words,
            ),
            random: Random::new(2),
            calls: 0,
            short: 0,
            every_sharing: 0,
            planted: Planted::new(LEAST_FOUND, PLANTED),
            memory: Planted::new(LEAST_FOUND, MEMORY),
            counts_pairs: true,
            places: BTreeMap::new(),
            seen: Seen::default(),
        }
    }

    pub fn programs(&self) -> usize {
        self.counts.all()
    }

    /// Compares calls with buffers of these lengths, and looks for planted
    /// faults in the use of memory.
    pub fn lengths(&mut self, file: &[u8], lengths: &[Lengths]) {
        let answer = self.expected(file, &Known::Nothing);
        for &lengths in lengths {
            self.call(file, lengths, &answer);
            let lent = &mut self.lent;
            self.memory.look(self.calls, |&fault| {
                call(lent, fault, file, lengths, &answer).is_err()
            });
        }
    }

    /// The answer of this workspace's check, of which the others are tried.
    fn expected(&mut self, file: &[u8], known: &Known) -> Answer {
        let read = read(file);
        let (answer, survey) = match &read {
            Ok(read) => {
                let (answer, survey) = check_read(read);
                (answer, Some(survey))
            }
            Err(refusal) => (Err(*refusal), None),
        };
        let refusal = answer.as_ref().err();
        let fits = match (known, &answer) {
            (Known::Type(of), Ok(other)) => of == other,
            _ => known.fits(refusal),
        };
        if !fits {
            let words = format!("known {known:?}, expected {answer:?}");
            self.counts.differs(file, &words);
        }
        let number = refusal.map_or(0, |refusal| refusal.number);
        self.counts.count(file, number);
        if let (Ok(read), Some(survey)) = (&read, &survey) {
            self.other_checks(file, read, &answer);
            self.look(read, survey, &answer);
        }
        answer
    }

    fn call(&mut self, file: &[u8], lengths: Lengths, answer: &Answer) {
        if let Err(words) = call(&mut self.lent, exported, file, lengths, answer) {
            let words = format!("buffers of {lengths:?} bytes: {words}");
            self.counts.differs(file, &words);
        }
        self.short += usize::from(is_short(lengths));
        self.calls += 1;
    }

    /// The check that counts, with a fault and without, and the derivations
    /// with every way to share.
    fn other_checks(&mut self, file: &[u8], read: &Accepted, answer: &Answer) {
        let counted = counting::check(Wrong::Nothing, read);
        if counted != *answer {
            self.counts
                .differs(file, &format!("counted {counted:?}, expected {answer:?}"));
        }
        if self.counts.is_generated() {
            self.planted.look(self.counts.all(), |&fault| {
                counting::check(fault, read) != *answer
            });
        }
        if read.sizes.terms <= MOST_NODES && linear(read) <= MOST_LINEAR {
            let every = verdict(&read.labels, &read.term, Sharing::Every);
            if !agree(&every, answer) {
                self.counts.differs(
                    file,
                    &format!("every sharing {every:?}, expected {answer:?}"),
                );
            }
            self.every_sharing += 1;
        }
    }

    /// Counts what the program has, or what stands at the place.
    fn look(&mut self, read: &Accepted, survey: &Survey, answer: &Answer) {
        match answer {
            Ok(of) => {
                self.seen.look(read, survey, of);
                if self.counts_pairs {
                    self.seen.look_at_pairs(survey);
                }
            }
            Err(refusal) => {
                let node = refusal.place.checked_sub(read.sizes.first_term());
                let name = match node {
                    Some(node) => name_of(survey.nodes[node].term.kind()),
                    None => "label entry",
                };
                if let (16, Some(node)) = (refusal.number, node) {
                    self.seen.three.refused(survey, node);
                }
                *self.places.entry((refusal.number, name)).or_default() += 1;
            }
        }
    }

    /// Prints the counts, and fails if too little has been seen.
    pub fn report(&self) {
        self.counts.report("accepted", (1..10).chain(16..19));
        println!("{:>9} calls, {} refused with 19", self.calls, self.short);
        println!("{:>9} with every way to share", self.every_sharing);
        for ((number, name), programs) in &self.places {
            println!("{programs:>9} refused with {number} at: {name}");
        }
        self.seen.report();
        self.planted.report("program");
        self.memory.report("call");
        let counts = &self.counts;
        assert!(counts.distinct() >= LEAST_GENERATED, "too few generated");
        assert!(counts.with(0) >= LEAST_ACCEPTED, "too few accepted");
        counts.assert_refused(&LEAST_REFUSED);
        assert!(
            (1..10).all(|number| counts.with(number) >= LEAST_NOT_READ),
            "too few refused by read"
        );
        self.assert_places();
        assert!(self.every_sharing >= 10_000, "too few with every sharing");
        assert!(self.short >= 1_000, "too few short buffers");
        self.seen.assert();
    }

    /// Each refusal at each entry where it can be.
    fn assert_places(&self) {
        let rules = kinds::TERMS_WITH_PARTS.map(|kind| (16, name_of(kind)));
        let others = [
            (17, "label entry"),
            (17, "abstraction"),
            (17, "let"),
            (18, "label"),
            (18, "variable"),
        ];
        for place in rules.into_iter().chain(others) {
            let seen = self.places.get(&place).copied().unwrap_or(0);
            assert!(seen >= 300, "too few refused at {place:?}: {seen}");
        }
        let typing = self.places.keys().filter(|(number, _)| *number >= 16);
        assert_eq!(typing.count(), 13, "a refusal where it cannot be");
    }
}

impl ComparePrograms for Comparison {
    fn group(&mut self, name: &str) {
        self.counts.group(name);
    }

    fn listed_group(&mut self, name: &str) {
        self.counts.listed_group(name);
    }

    /// Compares both checks with each other and with what is known. The least
    /// lengths are lent, or more.
    fn program(&mut self, file: &[u8], known: &Known) {
        let answer = self.expected(file, known);
        let lengths = match self.random.below(32) {
            0 => [LEAST_OUT + 1, LEAST_WORK],
            1 => [LEAST_OUT, LEAST_WORK + 1],
            2 | 3 => [
                self.random.between(LEAST_OUT, 2_000),
                self.random.between(LEAST_WORK, 60_000),
            ],
            4 if self.random.one_in(16) => [70_000, 140_000],
            _ => [LEAST_OUT, LEAST_WORK],
        };
        self.call(file, lengths, &answer);
    }
}

/// The exported check.
fn exported(lent: &mut Lent<2>) -> u64 {
    let (file, [out, work]) = lent.parts();
    library::answer(file, out, work)
}

/// Calls a check with buffers of these lengths on a file that has this answer.
/// What differs, if anything.
fn call(
    lent: &mut Lent<2>,
    check: Check,
    file: &[u8],
    lengths: Lengths,
    answer: &Answer,
) -> Result<(), String> {
    let short = is_short(lengths);
    let out = match answer {
        Ok(of) if !short => of.preorder(),
        _ => Vec::new(),
    };
    let expected = Expected {
        packed: match short {
            true => pack(&Err(SHORT)),
            false => pack(answer),
        },
        out: &out,
        cleared: !short,
    };
    lent.call(check, file, &lengths, &expected)
}

/// How many labels and bound variables there are.
fn linear(read: &Accepted) -> usize {
    fn binders(term: &Term) -> usize {
        let inside: usize = term.parts().into_iter().map(|part| binders(part)).sum();
        match term {
            Term::Abstraction(..) => inside + 1,
            Term::Let(..) => inside + 2,
            _ => inside,
        }
    }
    read.labels.len() + binders(&read.term)
}
