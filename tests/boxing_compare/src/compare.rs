//! Two programs at a time to the library: they differ in nothing but the boxes of
//! some spots. What has been seen is counted.

use crate::answers::{self, length, number, same_listing, steps, told_apart, with_fault};
use crate::changed::{changed, Change, CHANGES};
use crate::library::Library;
use crate::outcomes::Outcome;
use crate::seen::{of_pair, What};
use crate::spots::Spotted;
use crate::watched::Watched;
use comparing::files::entries;
use comparing::quiet::quietly;
use comparing::tally::Tally;
use comparing::{Counts, Planted};
use evaluator::answer::refused;
use evaluator::text::{text, LIMIT};
use evaluator::Answer;
use planted::{BOXING, PLANTED};
use program_files::{encode, Positions, Program, Random};
use programs::typed::Typed;
use programs::types::shuffle;
use std::collections::hash_map::DefaultHasher;
use std::collections::HashSet;
use std::hash::{Hash, Hasher};

/// The least number of distinct programs, and of distinct pairs in which both are
/// finished and differ in a spot that is run.
const LEAST_DISTINCT: usize = 40_000;
const LEAST_PAIRS: usize = 30_000;

/// So many pairs must tell a planted fault.
const LEAST_FOUND: usize = 3;

/// A fault in an answer is planted in listings of at least so many bytes, so that every
/// part of them must be compared.
const LONG: usize = 1_000;

/// Every run ends with fewer steps than `LIMIT`; one with a planted fault need not.
const MOST_FAULTY_STEPS: u32 = 10_000;

/// A box costs so many steps whenever it is run: it is opened, it is closed, and its
/// circuit is applied.
const STEPS_OF_A_BOX: u32 = 3;

/// Two entries of a file, which a box and its lift take, have so many bytes.
const BYTES_OF_A_BOX: usize = 6;

/// Once in so many times a pair is also run with its steps as limits.
const AT_LIMITS: usize = 16;

/// Faults of the evaluator among those that run_compare plants, too.
const ALSO_PLANTED: [&str; 7] = [
    "one counter of wires for all open boxes",
    "a wire lost that passes through untouched",
    "a wire that passes through gets a new number",
    "inputs matched right to left",
    "the leaves counted at box entry, the wires at apply",
    "unit saved as a label at box exit",
    "unit loaded as a label at apply",
];

pub struct Comparison {
    library: Library,
    random: Random,
    counts: Counts,
    outcomes: Tally<Outcome>,
    seen: Tally<What>,
    /// The distinct pairs with a spot that is run.
    distinct: HashSet<u64>,
    /// Copies of the evaluator with a fault. What one lists for the program with all
    /// boxes is held against the library's listing of another version; and, of those
    /// with a fault in boxes, against what itself lists for that version.
    faulty: Planted<planted::Run>,
    alone: Planted<planted::Run>,
    /// Changes of the program without the box.
    changes: Planted<Change>,
    /// Faults in its answer.
    answers: Planted<answers::Fault>,
}

/// A program of which versions are compared.
struct Compared {
    spotted: Spotted,
    sharing: Sharing,
    /// The run with all boxes, if it is finished.
    watched: Option<Watched>,
}

/// A program with some of its spots unboxed, and what its run answers.
struct Version {
    unboxed: Vec<bool>,
    file: Vec<u8>,
    answer: Answer,
}

/// How the types of a program are written in its file.
#[derive(Clone, Copy, PartialEq, Eq)]
enum Sharing {
    /// Each once: then versions differ only in the entries of boxes and lifts.
    Once,
    Any,
}

impl Comparison {
    pub fn new() -> Comparison {
        let also = |(name, _): &(&str, planted::Run)| ALSO_PLANTED.contains(name);
        let also: Vec<(&str, planted::Run)> = PLANTED.into_iter().filter(also).collect();
        assert_eq!(also.len(), ALSO_PLANTED.len(), "a name that no fault has");
        let alone = BOXING.map(|(name, run)| (format!("{name}, by its own listings"), run));
        Comparison {
            library: Library::new(),
            random: Random::new(1),
            counts: Counts::default(),
            outcomes: Tally::default(),
            seen: Tally::default(),
            distinct: HashSet::new(),
            faulty: Planted::new(LEAST_FOUND, also.into_iter().chain(BOXING)),
            alone: Planted::new(LEAST_FOUND, alone),
            changes: Planted::new(LEAST_FOUND, CHANGES),
            answers: Planted::new(LEAST_FOUND, answers::FAULTS),
        }
    }

    /// The programs that follow are counted under this name.
    pub fn group(&mut self, name: &str) {
        self.counts.group(name);
    }

    pub fn pairs(&self) -> usize {
        self.outcomes.of(Outcome::Compared)
    }

    pub fn finished(&self) -> usize {
        self.outcomes.of(Outcome::Finished)
    }

    /// Compares versions of a well-typed program: all spots boxed with one unboxed and
    /// with all unboxed, and two with any of them unboxed.
    pub fn program(&mut self, typed: &Typed) {
        let mut compared = Compared {
            spotted: Spotted::new(typed),
            sharing: match self.random.below(4) {
                0 => Sharing::Any,
                _ => Sharing::Once,
            },
            watched: None,
        };
        let count = compared.spotted.spots.len();
        if count == 0 {
            return;
        }
        let Some(boxed) = self.version(&compared, vec![false; count]) else {
            return;
        };
        compared.watched = self.watched(&compared.spotted, &boxed);
        let mut spots: Vec<usize> = (0..count).collect();
        shuffle(&mut self.random, &mut spots);
        for &only in spots.iter().take(2) {
            let one = (0..count).map(|spot| spot == only).collect();
            self.against(&compared, &boxed, one);
        }
        if count > 1 {
            self.against(&compared, &boxed, vec![true; count]);
            let [some, others] = [self.some(count), self.some(count)];
            if let Some(some) = self.version(&compared, some) {
                self.against(&compared, &some, others);
            }
        }
    }

    /// Whether each of so many is chosen.
    fn some(&mut self, count: usize) -> Vec<bool> {
        (0..count).map(|_| self.random.one_in(2)).collect()
    }

    /// Compares a version with the one in which these spots are unboxed.
    fn against(&mut self, compared: &Compared, first: &Version, unboxed: Vec<bool>) {
        if first.unboxed == unboxed {
            return;
        }
        if let Some(second) = self.version(compared, unboxed) {
            self.pair(compared, first, &second);
        }
    }

    /// Compares the lines of a program with all boxes, and with none, with those that
    /// are known.
    pub fn known(&mut self, typed: &Typed, lines: &str, steps: [u32; 2]) {
        let spotted = Spotted::new(typed);
        for (is_unboxed, steps) in [false, true].into_iter().zip(steps) {
            let unboxed = vec![is_unboxed; spotted.spots.len()];
            let file = spotted.unboxed(&unboxed).bytes();
            let answer = text(&self.library.run(&file, LIMIT));
            let known = format!("{lines}steps {steps}\n");
            if answer != known {
                let words = format!("known:\n{known}answered:\n{answer}");
                self.counts.differs(&file, &words);
            }
        }
    }

    /// A program that applies the box of an abstraction that holds a wire, and the one
    /// that applies the abstraction: only the second one passes.
    pub fn only_unboxed_passes(&mut self, boxed: &Program, unboxed: &Typed) {
        let (Some(file), Some(other)) = (
            self.file(boxed, Sharing::Once),
            self.file(&unboxed.program, Sharing::Once),
        ) else {
            return;
        };
        let answer = self.library.run(&file, LIMIT);
        if number(&answer) != 18 {
            let words = format!("run: {answer:?}, expected refusal 18");
            self.counts.differs(&file, &words);
        }
        self.has_type(&other, &unboxed.of.preorder());
        self.counts.count(&file, 18);
        if number(&self.library.run(&other, LIMIT)) == 0 {
            self.outcomes.add(Outcome::OnlyUnboxedPasses);
        }
    }

    /// The program's file; none if a size is out of range.
    fn file(&mut self, program: &Program, sharing: Sharing) -> Option<Vec<u8>> {
        let entries = match sharing {
            Sharing::Once => encode(program, Positions::First),
            Sharing::Any => entries(&mut self.random, program),
        };
        Some(entries?.bytes())
    }

    fn has_type(&mut self, file: &[u8], of: &[u8]) {
        let answer = self.library.check(file);
        if answer != Ok(of) {
            let words = format!("check: {answer:?}, expected the type {of:?}");
            self.counts.differs(file, &words);
        }
    }

    /// The version with these spots unboxed, checked and run: it must have the
    /// program's type. None if it has no file.
    fn version(&mut self, compared: &Compared, unboxed: Vec<bool>) -> Option<Version> {
        let spotted = &compared.spotted;
        let file = self.file(&spotted.unboxed(&unboxed), compared.sharing)?;
        self.has_type(&file, &spotted.of.preorder());
        let answer = self.library.run(&file, LIMIT);
        let number = number(&answer);
        let fits = match spotted.of.is_wire_type() {
            true => number == 0 || number == 22,
            false => number == 20,
        };
        if !fits {
            self.counts.differs(&file, &format!("run: {answer:?}"));
        }
        self.counts.count(&file, number);
        Some(Version {
            unboxed,
            file,
            answer,
        })
    }

    /// The evaluator's run of the version with all boxes; none if it is not finished.
    fn watched(&mut self, spotted: &Spotted, boxed: &Version) -> Option<Watched> {
        if !spotted.of.is_wire_type() {
            return None;
        }
        let watched = Watched::run(spotted, LIMIT);
        if watched.answer != boxed.answer {
            let words = format!("run: {:?}, evaluator: {:?}", boxed.answer, watched.answer);
            self.counts.differs(&boxed.file, &words);
        }
        (number(&watched.answer) == 0).then_some(watched)
    }

    fn pair(&mut self, compared: &Compared, first: &Version, second: &Version) {
        self.outcomes.add(Outcome::Compared);
        if compared.sharing == Sharing::Once {
            let whole = [first, second].map(Version::bytes_with_boxes);
            assert_eq!(whole[0], whole[1], "the files differ in more than boxes");
        }
        let mut both = first.unboxed.iter().zip(&second.unboxed);
        let has_more = both.all(|(first, second)| first <= second);
        let outcome = match (number(&first.answer), number(&second.answer)) {
            (0, 0) => Outcome::Finished,
            (20, 20) => Outcome::NoWireType,
            (22, 22) => Outcome::BothTooLarge,
            (22, _) if has_more => Outcome::OnlyWithFewer,
            (_, 22) if has_more => Outcome::OnlyWithMore,
            _ => Outcome::OnlyOne,
        };
        self.outcomes.add(outcome);
        if outcome == Outcome::Finished {
            self.both_finished(compared, first, second);
        }
    }

    fn both_finished(&mut self, compared: &Compared, first: &Version, second: &Version) {
        if same_listing(&first.answer, &second.answer) != Some(true) {
            self.differ(first, second);
        }
        let Some(watched) = &compared.watched else {
            return;
        };
        let whole = steps(&watched.answer);
        for version in [first, second] {
            let fewer = STEPS_OF_A_BOX * watched.times(&version.unboxed);
            if steps(&version.answer) + fewer != whole {
                let words = format!("run: {:?}, with all boxes {whole} steps", version.answer);
                self.counts.differs(&version.file, &words);
            }
        }
        let unboxed = [&first.unboxed[..], &second.unboxed];
        let seen = of_pair(&compared.spotted, watched, unboxed);
        if seen.is_empty() {
            return;
        }
        self.outcomes.add(Outcome::Run);
        let mut hasher = DefaultHasher::new();
        let files = [&first.file, &second.file];
        (files.iter().min(), files.iter().max()).hash(&mut hasher);
        self.distinct.insert(hasher.finish());
        for what in seen {
            self.seen.add(what);
        }
        if self.random.one_in(AT_LIMITS) {
            self.at_limits(first, second);
        }
        if !first.unboxed.contains(&true) {
            self.plant(&compared.spotted, first, second);
        }
    }

    /// Both versions with the steps of each as the limit, and with one fewer.
    fn at_limits(&mut self, first: &Version, second: &Version) {
        let both = [first, second].map(|version| steps(&version.answer));
        for limit in both.into_iter().flat_map(|steps| [steps, steps - 1]) {
            for version in [first, second] {
                let answer = self.library.run(&version.file, limit);
                let expected = match steps(&version.answer) <= limit {
                    true => version.answer.clone(),
                    false => refused(21),
                };
                if answer != expected {
                    let words = format!("limit {limit}: {answer:?}, expected {expected:?}");
                    self.counts.differs(&version.file, &words);
                }
            }
        }
        self.outcomes.add(Outcome::AtLimits);
    }

    /// Looks for planted faults in a program with all its boxes and another version,
    /// which differ in a spot that is run. A fault is told only by two listings.
    fn plant(&mut self, spotted: &Spotted, boxed: &Version, other: &Version) {
        let pair = self.pairs();
        let faulty = |run: &planted::Run, version: &Version| {
            quietly(|| run(&version.file, MOST_FAULTY_STEPS))
        };
        self.faulty.look(pair, |run| {
            let answer = faulty(run, boxed);
            answer.is_some_and(|answer| told_apart(&answer, &other.answer))
        });
        self.alone.look(pair, |run| {
            let both = faulty(run, boxed).zip(faulty(run, other));
            both.is_some_and(|(first, second)| told_apart(&first, &second))
        });
        if length(&other.answer) >= LONG {
            self.answers.look(pair, |&fault| {
                told_apart(&boxed.answer, &with_fault(&other.answer, fault))
            });
        }
        let mut unboxed = (0..other.unboxed.len()).filter(|&spot| other.unboxed[spot]);
        let (Some(only), None) = (unboxed.next(), unboxed.next()) else {
            return;
        };
        let library = &mut self.library;
        self.changes.look(pair, |&change| {
            let changed = changed(spotted, only, change);
            let entries = changed.and_then(|program| encode(&program, Positions::First));
            entries.is_some_and(|entries| {
                let answer = library.run(&entries.bytes(), LIMIT);
                told_apart(&boxed.answer, &answer)
            })
        });
    }

    fn differ(&self, first: &Version, second: &Version) -> ! {
        let bytes = second.file.iter();
        let hex: String = bytes.map(|byte| format!("{byte:02X}")).collect();
        let words = format!("other    {hex}\n{:?}\n{:?}", first.answer, second.answer);
        self.counts.differs(&first.file, &words);
    }

    /// Prints the counts, and fails if too little has been seen.
    pub fn report(&self) {
        self.counts.report("finished", [18, 20, 22]);
        println!("{:>9} calls", self.library.calls);
        self.outcomes.report();
        let distinct = self.distinct.len();
        println!("{distinct:>9} distinct pairs with a spot that is run");
        self.seen.report();
        self.faulty.report("pair");
        self.alone.report("pair");
        self.changes.report("pair");
        self.answers.report("pair");
        assert!(self.counts.distinct() >= LEAST_DISTINCT, "too few programs");
        assert!(distinct >= LEAST_PAIRS, "too few distinct pairs");
        self.outcomes.assert();
        self.seen.assert();
    }
}

impl Version {
    /// How many bytes the file would have with all boxes.
    fn bytes_with_boxes(&self) -> usize {
        let unboxed = self.unboxed.iter().filter(|&&unboxed| unboxed);
        self.file.len() + BYTES_OF_A_BOX * unboxed.count()
    }
}
