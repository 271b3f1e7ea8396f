//! Program files: dumps and explanations.

use crate::planted::{Change, DUMPS};
use crate::{dumps, explained};
use comparing::files::ComparePrograms;
use comparing::{Counts, Known, Planted};
use pqm_command::dump::Dump;
use pqm_command::explain::{explain, explain_file, Sort};
use program_files::Random;

/// One file in so many is taken.
const OF_READ: usize = 12;
const OF_CHECK: usize = 6;

/// One file in so many is run, and given to another explanation.
const RUN: usize = 16;

/// So many files at least are refused with each number, and so many in all.
const LEAST_EACH: usize = 400;
const LEAST: usize = 40_000;

pub struct Programs {
    counts: Counts,
    random: Random,
    /// One of so many is taken.
    of: usize,
    offered: usize,
    others: usize,
    planted: Planted<Change>,
}

pub fn compare() -> Programs {
    let mut programs = Programs {
        counts: Counts::default(),
        random: Random::new(1),
        of: OF_READ,
        offered: 0,
        others: 0,
        planted: Planted::new(3, DUMPS),
    };
    read_compare::by_hand::compare(&mut programs);
    read_compare::families::compare(&mut programs);
    programs.of = OF_CHECK;
    check_compare::families::compare(&mut programs);
    programs
}

impl Programs {
    pub fn all(&self) -> usize {
        self.counts.all()
    }

    pub fn report(&self) {
        self.counts
            .report("accepted by the check", (1..10).chain(16..19));
        println!("{:>9} explained with another number or place", self.others);
        self.planted.report("program");
        let numbers = (1..10).chain(16..19).map(|number| (number, LEAST_EACH));
        self.counts.assert_refused(&numbers.collect::<Vec<_>>());
        assert!(self.all() >= LEAST, "too few programs");
    }

    fn take(&mut self, file: &[u8]) {
        let refusal = gawipsol::check(file).err();
        let text = Dump::new(file).text(refusal);
        if let Some(words) = dumps::fault(&text, file, refusal) {
            self.counts.differs(file, &format!("{words}\n{text}"));
        }
        self.planted.look(self.counts.all(), |change| {
            change(&text).is_some_and(|text| dumps::fault(&text, file, refusal).is_some())
        });
        if let Some(refusal) = refusal {
            let explanation = explain(file, refusal);
            let length = file.len();
            // Where the term runs out, the place is behind all entries.
            let marks = refusal.number >= 4 && 6 + 3 * refusal.place < length;
            let fault = explained::fault(&explanation, refusal, marks).or_else(|| {
                let is_use = refusal.number == 17;
                is_use.then(|| explained::use_fault(&explanation, file, refusal.place))?
            });
            if let Some(words) = fault {
                self.counts
                    .differs(file, &format!("{words}\n{explanation}"));
            }
        }
        if self.random.one_in(RUN) {
            let explanation = explain_file(Sort::Program, file);
            let is_whole = match refusal {
                Some(refusal) => explanation == explain(file, refusal),
                None => ["Nothing is refused", "refused 2"]
                    .iter()
                    .any(|of| explanation.starts_with(of)),
            };
            if !is_whole {
                self.counts.differs(file, &explanation);
            }
            explained::any(&mut self.random, file);
            self.others += 1;
        }
        self.counts
            .count(file, refusal.map_or(0, |refusal| refusal.number));
    }
}

impl ComparePrograms for Programs {
    fn group(&mut self, name: &str) {
        self.counts.group(name);
    }

    fn program(&mut self, file: &[u8], _: &Known) {
        self.offered += 1;
        if self.offered.is_multiple_of(self.of) {
            self.take(file);
        }
    }
}
