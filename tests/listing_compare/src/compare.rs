//! One listing at a time to the check under test and to the one that counts;
//! what has been seen is counted.

use crate::memory::{self, Check};
use crate::plain::{self, Fault};
use crate::seen::Seen;
use comparing::packed::SHORT;
use comparing::{Counts, Expected, Known, Lent, Planted};
use listing_compare::under_test::{self, LEAST_WORK};
use listings::cases::Case;
use listings::{answer, counting, Answer, CompareListings};
use program_files::Random;
use std::collections::hash_map::DefaultHasher;
use std::collections::HashSet;
use std::hash::{Hash, Hasher};

/// The least number of distinct listings in all, and for each answer.
const LEAST_LISTINGS: usize = 200_000;
const LEAST_ACCEPTED: usize = 5_000;
const LEAST_REFUSED: [(u8, usize); 3] = [(24, 5_000), (25, 5_000), (26, 5_000)];

/// The least number of calls with too little working memory.
const LEAST_SHORT: usize = 5_000;

/// So many listings must tell a planted fault from the check under test.
const LEAST_FOUND: usize = 3;

/// No lent working memory is longer.
const LONGEST_WORK: usize = 3 * 65_536;

pub struct Comparison {
    counts: Counts,
    /// The hashes of the listings that were compared.
    compared: HashSet<u64>,
    calls: usize,
    short: usize,
    lent: Lent<1>,
    random: Random,
    /// Faults in the check, and faults in the use of memory.
    planted: Planted<Fault>,
    memory: Planted<Check>,
    zeros: Vec<u8>,
    seen: Seen,
}

impl Comparison {
    pub fn new() -> Comparison {
        Comparison {
            counts: Counts::default(),
            compared: HashSet::new(),
            calls: 0,
            short: 0,
            lent: Lent::new(1, ["the working memory"], answer::in_words),
            random: Random::new(2),
            planted: Planted::new(LEAST_FOUND, plain::PLANTED),
            memory: Planted::new(LEAST_FOUND, memory::MEMORY),
            zeros: vec![0; LONGEST_WORK],
            seen: Seen::default(),
        }
    }

    /// The distinct listings.
    pub fn listings(&self) -> usize {
        self.counts.all()
    }

    pub fn calls(&self) -> usize {
        self.calls
    }

    /// Compares what a case answers, too.
    pub fn case(&mut self, case: &Case) {
        assert_eq!(counting::check(&case.bytes), case.answer, "{}", case.name);
        self.listing(&case.bytes, &Known::Nothing);
    }

    /// Compares calls with working memory of these lengths, and looks for
    /// planted faults in its use.
    pub fn lengths(&mut self, bytes: &[u8], lengths: impl IntoIterator<Item = usize>) {
        self.listing(bytes, &Known::Nothing);
        let answer = counting::check(bytes);
        for length in lengths {
            self.call(bytes, length, &answer);
            let (lent, zeros) = (&mut self.lent, &self.zeros);
            self.memory.look(self.calls, |&fault| {
                call(lent, fault, bytes, length, &answer, zeros).is_err()
            });
        }
    }

    /// The least length of the working memory, or sometimes more.
    fn some_length(&mut self) -> usize {
        match self.random.below(64) {
            0 => LEAST_WORK + self.random.below(65_536),
            1..=8 => LEAST_WORK + self.random.between(1, 256),
            _ => LEAST_WORK,
        }
    }

    fn call(&mut self, bytes: &[u8], length: usize, answer: &Answer) {
        let under_test = |lent: &mut Lent<1>| {
            let (listing, [work]) = lent.parts();
            under_test::answer(listing, work)
        };
        let called = call(
            &mut self.lent,
            under_test,
            bytes,
            length,
            answer,
            &self.zeros,
        );
        if let Err(words) = called {
            let words = format!("working memory of {length} bytes: {words}");
            self.counts.differs(bytes, &words);
        }
        self.calls += 1;
        self.short += usize::from(length < LEAST_WORK);
    }

    /// Prints the counts, and fails if too little has been seen.
    pub fn report(&self) {
        let numbers = LEAST_REFUSED.iter().map(|&(number, _)| number);
        self.counts.report("accepted", numbers);
        println!("{:>9} calls", self.calls);
        println!("{:>9} of them refused with 19", self.short);
        self.seen.report();
        self.planted.report("listing");
        self.memory.report("call");
        assert!(self.listings() >= LEAST_LISTINGS, "too few listings");
        assert!(self.counts.with(0) >= LEAST_ACCEPTED, "too few accepted");
        self.counts.assert_refused(&LEAST_REFUSED);
        assert!(self.short >= LEAST_SHORT, "too few refused with 19");
        self.seen.assert();
    }
}

fn hash(bytes: &[u8]) -> u64 {
    let mut hasher = DefaultHasher::new();
    bytes.hash(&mut hasher);
    hasher.finish()
}

/// Calls a check with working memory of this length on a listing that has this
/// answer. What differs, if anything.
fn call(
    lent: &mut Lent<1>,
    check: impl FnOnce(&mut Lent<1>) -> u64,
    bytes: &[u8],
    length: usize,
    answer: &Answer,
    zeros: &[u8],
) -> Result<(), String> {
    // The working memory is the one buffer, and nothing but zeros is left in it.
    let expected = match length < LEAST_WORK {
        true => Expected {
            packed: answer::pack(&Err(SHORT)),
            out: &[],
            cleared: false,
        },
        false => Expected {
            packed: answer::pack(answer),
            out: &zeros[..length],
            cleared: true,
        },
    };
    lent.call(check, bytes, &[length], &expected)
}

impl CompareListings for Comparison {
    fn group(&mut self, name: &str) {
        self.counts.group(name);
    }

    /// Compares the check under test with the one that counts and with what is
    /// known, unless this listing was compared before.
    fn listing(&mut self, bytes: &[u8], known: &Known) {
        let found = counting::find(bytes);
        let answer = found.map_err(|fault| fault.refusal());
        if !known.fits(answer.as_ref().err()) {
            let words = format!("known {known:?}, expected {answer:?}");
            self.counts.differs(bytes, &words);
        }
        if !self.compared.insert(hash(bytes)) {
            return;
        }
        let plain = plain::check(bytes, None);
        if plain != answer {
            let words = format!("by a table {plain:?}, by counting {answer:?}");
            self.counts.differs(bytes, &words);
        }
        let number = answer.as_ref().err().map_or(0, |refusal| refusal.number);
        self.counts.count(bytes, number);
        self.seen.count(bytes, &found);
        let length = self.some_length();
        self.call(bytes, length, &answer);
        let packed = answer::pack(&answer);
        self.planted.look(self.counts.all(), |&fault| {
            answer::pack(&plain::check(bytes, Some(fault))) != packed
        });
    }
}
