//! One program at a time to the run under test and to the evaluator; what has
//! been seen is counted.

use crate::listed;
use crate::memory::{self, Fault};
use crate::seen::{add, Run, Seen};
use crate::sound;
use comparing::files::ComparePrograms;
use comparing::quiet::quietly;
use comparing::{Counts, Expected, Known, Planted};
use evaluator::text::text;
use evaluator::{prepare, Answer, Prepared};
use planted::PLANTED;
use program_files::Random;
use run_compare::interface::{self, is_short, pack, Lengths, Lent, LEAST, SHORT};
use run_compare::under_test;

/// The least number of distinct programs, and of programs for each answer.
const LEAST_DISTINCT: usize = 100_000;
const LEAST_FINISHED: usize = 60_000;
const LEAST_REFUSED: [(u8, usize); 15] = [
    (1, 500),
    (2, 500),
    (3, 500),
    (4, 500),
    (5, 500),
    (6, 500),
    (7, 500),
    (8, 500),
    (9, 500),
    (16, 5_000),
    (17, 4_000),
    (18, 1_000),
    (20, 4_000),
    (21, 0),
    (22, 300),
];

/// So many programs must tell a planted fault from the rules.
const LEAST_FOUND: usize = 3;

/// Every run ends with fewer steps.
const MOST_STEPS: u32 = 1_000_000;

pub struct Comparison {
    pub counted: Counted,
    lent: Lent,
    random: Random,
    /// Faults in the evaluation, and faults in the use of memory.
    planted: Planted<planted::Run>,
    memory: Planted<Fault>,
}

/// What has been compared.
#[derive(Default)]
pub struct Counted {
    counts: Counts,
    calls: usize,
    calls_by_number: [usize; 23],
    /// Listings that the check of listings accepted.
    listings: usize,
    seen: Seen,
}

impl Counted {
    pub fn programs(&self) -> usize {
        self.counts.all()
    }

    pub fn calls(&self) -> usize {
        self.calls
    }

    /// Counts what was compared elsewhere, too.
    pub fn add(&mut self, other: Counted) {
        self.counts.add(other.counts);
        self.calls += other.calls;
        add(&mut self.calls_by_number, &other.calls_by_number);
        self.listings += other.listings;
        self.seen.add(&other.seen);
    }
}

impl Comparison {
    /// A comparison that looks for no planted fault.
    pub fn new() -> Comparison {
        Comparison {
            counted: Counted::default(),
            lent: Lent::new(1, std::array::from_fn(interface::name), interface::in_words),
            random: Random::new(2),
            planted: Planted::none(),
            memory: Planted::none(),
        }
    }

    pub fn with_planted_faults() -> Comparison {
        Comparison {
            planted: Planted::new(LEAST_FOUND, PLANTED),
            memory: Planted::new(LEAST_FOUND, memory::faults()),
            ..Comparison::new()
        }
    }

    /// Compares one call with this limit, of which the answer is known.
    pub fn at_limit(&mut self, file: &[u8], limit: u32, lines: &str) {
        let answer = evaluator::run(file, limit);
        if text(&answer) != lines {
            self.differs(file, limit, &format!("known {lines}, expected {answer:?}"));
        }
        self.call(file, limit, &answer);
    }

    /// Compares calls with buffers of these lengths, and looks for planted
    /// faults in the use of memory.
    pub fn lengths(&mut self, file: &[u8], limit: u32, lengths: &[Lengths]) {
        let answer = evaluator::run(file, limit);
        self.count(file, &answer, &Known::Nothing);
        for lengths in lengths {
            self.call_with(file, limit, lengths, &answer);
            let lent = &mut self.lent;
            self.memory.look(self.counted.calls, |fault| {
                let run = |lent: &mut Lent| fault(lent, &answer);
                call(lent, run, file, lengths, &answer).is_err()
            });
        }
    }

    /// The limits for a run that ends with so many steps, and sometimes
    /// another one.
    fn limits(&mut self, steps: u32) -> Vec<u32> {
        let mut limits = vec![0, 1, steps.saturating_sub(1), steps, steps + 1];
        match self.random.below(16) {
            0 => limits.push(u32::MAX),
            1 => limits.push(self.random.below(1 + steps as usize) as u32),
            _ => {}
        }
        limits.sort_unstable();
        limits.dedup();
        limits
    }

    /// The answer without a limit, and with how many steps the run ended.
    fn whole_run(&mut self, file: &[u8], prepared: &Prepared) -> (Answer, u32) {
        let mut run = Run::default();
        let answer = prepared.run_seen(MOST_STEPS, &mut |now| run.look(now));
        let steps = run.steps();
        assert!(steps < MOST_STEPS, "a run without end");
        self.counted.seen.count(&run, &answer);
        if let Answer::Finished { listing, gates, .. } = &answer {
            let checked = sound::check(listing, prepared)
                .and_then(|()| listed::check(listing, prepared, *gates));
            if let Err(words) = checked {
                self.differs(file, MOST_STEPS, &words);
            }
            self.counted.listings += 1;
        }
        (answer, steps)
    }

    fn call(&mut self, file: &[u8], limit: u32, answer: &Answer) {
        let mut lengths = LEAST;
        if self.random.one_in(16) {
            let longer = self.random.below(lengths.len());
            lengths[longer] += match self.random.below(16) {
                0 => self.random.below(65_536),
                _ => self.random.between(1, 256),
            };
        }
        self.call_with(file, limit, &lengths, answer);
        self.planted.look(self.counted.programs(), |run| {
            quietly(|| run(file, limit)).as_ref() != Some(answer)
        });
    }

    fn call_with(&mut self, file: &[u8], limit: u32, lengths: &Lengths, answer: &Answer) {
        let run = |lent: &mut Lent| {
            let (file, [out, working @ ..]) = lent.parts();
            under_test::answer(file, limit, out, working)
        };
        if let Err(words) = call(&mut self.lent, run, file, lengths, answer) {
            let words = format!("buffers of {lengths:?} bytes: {words}");
            self.differs(file, limit, &words);
        }
        let number = match is_short(lengths) {
            true => 19,
            false => number(answer),
        };
        self.counted.calls_by_number[usize::from(number)] += 1;
        self.counted.calls += 1;
    }

    fn differs(&self, file: &[u8], limit: u32, words: &str) -> ! {
        let words = format!("limit {limit}: {words}");
        self.counted.counts.differs(file, &words);
    }

    fn count(&mut self, file: &[u8], answer: &Answer, known: &Known) {
        let number = number(answer);
        let fits = match known {
            // 20 if it is no wire type, else it runs.
            Known::Type(of) => (number == 20) != of.is_wire_type() && !(1..20).contains(&number),
            _ => known.fits(match answer {
                Answer::Finished { .. } => None,
                Answer::Refused(refusal) => Some(refusal),
            }),
        };
        if !fits {
            let words = format!("known {known:?}, expected {answer:?}");
            self.differs(file, MOST_STEPS, &words);
        }
        self.counted.counts.count(file, number);
    }

    /// Prints the counts, and fails if too little has been seen.
    pub fn report(&self) {
        let Counted {
            counts,
            calls,
            calls_by_number,
            listings,
            seen,
        } = &self.counted;
        let numbers = LEAST_REFUSED.iter().map(|&(number, _)| number);
        counts.report("finished", numbers);
        println!("{calls:>9} calls");
        println!("{:>9} of them finished", calls_by_number[0]);
        for number in [19, 21, 22] {
            let calls = calls_by_number[number];
            println!("{calls:>9} of them refused with {number}");
        }
        println!("{listings:>9} listings of finished runs accepted by their check");
        seen.report();
        self.planted.report("program");
        self.memory.report("call");
        assert!(counts.distinct() >= LEAST_DISTINCT, "too few programs");
        assert!(counts.with(0) >= LEAST_FINISHED, "too few finished");
        assert!(*listings >= LEAST_FINISHED, "too few listings");
        counts.assert_refused(&LEAST_REFUSED);
        assert!(calls_by_number[19] >= 1_000, "too few short buffers");
        seen.assert();
    }
}

impl ComparePrograms for Comparison {
    fn group(&mut self, name: &str) {
        self.counted.counts.group(name);
    }

    /// Compares the run under test with the evaluator and with what is known:
    /// at the limits 0 and 1, and at those around the step with which the run
    /// ends. The least lengths are lent, or more.
    fn program(&mut self, file: &[u8], known: &Known) {
        match prepare(file) {
            Ok(prepared) => {
                let (answer, steps) = self.whole_run(file, &prepared);
                self.count(file, &answer, known);
                for limit in self.limits(steps) {
                    let answer = prepared.run(limit);
                    self.call(file, limit, &answer);
                }
            }
            Err(refusal) => {
                let answer = Answer::Refused(refusal);
                self.count(file, &answer, known);
                let limit = self.random.pick(&[0, 1, 2, 100, 1_000_000, u32::MAX]);
                self.call(file, limit, &answer);
            }
        }
    }
}

/// 0, or the number of the refusal.
fn number(answer: &Answer) -> u8 {
    interface::number(pack(answer))
}

/// Calls a run with buffers of these lengths on a program that has this
/// answer. What differs, if anything.
fn call(
    lent: &mut Lent,
    run: impl FnOnce(&mut Lent) -> u64,
    file: &[u8],
    lengths: &Lengths,
    answer: &Answer,
) -> Result<(), String> {
    let short = is_short(lengths);
    let answer = if short { &SHORT } else { answer };
    let expected = Expected {
        packed: pack(answer),
        out: match answer {
            Answer::Finished { listing, .. } => listing,
            Answer::Refused(_) => &[],
        },
        cleared: !short,
    };
    lent.call(run, file, lengths, &expected)
}
