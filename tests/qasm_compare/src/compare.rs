//! One listing or text at a time to the export or import under test and to the
//! printer or parser; what has been seen is counted.

use crate::exports::{self, Export};
use crate::memory::{self, Operation};
use crate::seen::Seen;
use comparing::packed::SHORT;
use comparing::{Counts, Expected, Known, Lent, Planted};
use listings::{counting, Listing};
use planted::{Parse, Print, PARSERS, PRINTERS};
use program_files::Random;
use qasm::answer::{self, first_helper, Answer};
use qasm::{lengths, traced, CompareTexts};
use qasm_compare::under_test;
use std::collections::hash_map::DefaultHasher;
use std::collections::HashSet;
use std::hash::{Hash, Hasher};

/// The least number of distinct listings and texts, and of each answer.
const LEAST_EXPORTED: usize = 15_000;
const LEAST_LISTINGS_REFUSED: [(u8, usize); 4] = [(24, 500), (25, 2_000), (26, 2_000), (28, 5_000)];
const LEAST_IMPORTED: usize = 30_000;
const LEAST_TEXTS_REFUSED: [(u8, usize); 1] = [(27, 200_000)];

/// The least number of calls with a buffer that is too short.
const LEAST_SHORT: usize = 4_000;

/// So many listings or texts must tell a planted fault, and one those faults
/// that show where there is no wire.
const LEAST_FOUND: usize = 3;
const SHOWN_ONCE: [&str; 2] = ["a space where no output is", "no inputs refused"];

pub struct Comparison {
    listings: Counts,
    texts: Counts,
    /// The hashes of what was compared.
    compared: [HashSet<u64>; 2],
    calls: usize,
    short: usize,
    export: Lent<2>,
    import: Lent<5>,
    random: Random,
    /// Faults in the printer and the parser, in which gates have a text, and in the use
    /// of memory.
    exports: Planted<Export>,
    printers: [Planted<Print>; 2],
    parsers: [Planted<Parse>; 2],
    export_memory: Planted<memory::Fault>,
    import_memory: Planted<memory::Fault>,
    seen: Seen,
}

impl Comparison {
    pub fn new() -> Comparison {
        let export = ["the output buffer", "the working memory"];
        let import = [
            "the output buffer",
            "the slots",
            "the listing",
            "the table",
            "the exported text",
        ];
        Comparison {
            listings: Counts::default(),
            texts: Counts::default(),
            compared: [HashSet::new(), HashSet::new()],
            calls: 0,
            short: 0,
            export: Lent::new(1, export, answer::in_words),
            import: Lent::new(2, import, answer::in_words),
            random: Random::new(3),
            exports: Planted::new(LEAST_FOUND, exports::PLANTED),
            printers: planted(PRINTERS),
            parsers: planted(PARSERS),
            export_memory: Planted::new(LEAST_FOUND, memory::faults(&export, &[24, 25, 26, 28])),
            import_memory: Planted::new(LEAST_FOUND, memory::faults(&import, &[27])),
            seen: Seen::default(),
        }
    }

    /// The listings and texts that follow are counted under this name.
    pub fn group(&mut self, name: &str) {
        self.listings.group(&format!("listings {name}"));
        self.texts_group(name);
    }

    /// The distinct listings.
    pub fn listings(&self) -> usize {
        self.listings.all()
    }

    /// The distinct texts.
    pub fn texts(&self) -> usize {
        self.texts.all()
    }

    pub fn calls(&self) -> usize {
        self.calls
    }

    /// A listing that is accepted: its text, which is imported, too.
    pub fn accepted(&mut self, listing: &Listing) -> Vec<u8> {
        let bytes = listing.bytes();
        self.listing(&bytes, &Known::Accepted);
        qasm::print(listing)
    }

    /// A listing that the check accepts, with Init and Discard or without.
    pub fn sound(&mut self, listing: &Listing) {
        let known = match first_helper(listing) {
            Some(place) => Known::Refused(28, place),
            None => Known::Accepted,
        };
        self.listing(&listing.bytes(), &known);
    }

    /// Compares the export of these bytes, and the import of the text.
    pub fn listing(&mut self, bytes: &[u8], known: &Known) {
        let answer = qasm::export(bytes);
        if !known.fits(answer.as_ref().err()) {
            let words = format!("known {known:?}, expected {answer:?}");
            self.listings.differs(bytes, &words);
        }
        if !self.compared[0].insert(hash(bytes)) {
            return;
        }
        let number = answer.as_ref().err().map_or(0, |refusal| refusal.number);
        self.listings.count(bytes, number);
        let lengths = self.some_lengths(lengths::EXPORT);
        self.export(bytes, lengths, &answer);
        self.exports
            .look(self.listings.all(), |export| export(bytes) != answer);
        self.seen.refused(bytes, &answer);
        let Ok(text) = answer else {
            return;
        };
        let sizes = counting::check(bytes).expect("a listing that is accepted");
        let listing = Listing::of_bytes(&sizes, bytes);
        self.seen.exported(&listing, &text);
        if let Err(words) = traced::compare(&text, &listing) {
            let text = String::from_utf8_lossy(&text);
            self.listings.differs(bytes, &format!("{words}\n{text}"));
        }
        for printers in &mut self.printers {
            printers.look(self.listings.all(), |print| print(&listing) != text);
        }
        if qasm::import(&text).as_deref() != Ok(bytes) {
            self.listings.differs(bytes, "the parser gives another");
        }
        self.text(&text, &Known::Accepted);
    }

    /// Compares an export with buffers of these lengths, and looks for planted
    /// faults in the use of memory.
    pub fn export_lengths(&mut self, listing: &[u8], lengths: [usize; 2]) {
        self.listing(listing, &Known::Nothing);
        let answer = qasm::export(listing);
        self.export(listing, lengths, &answer);
        let lent = &mut self.export;
        self.export_memory.look(self.calls, |&fault| {
            let faulty = |lent: &mut Lent<2>| memory::perform(&memory::EXPORT, fault, lent);
            called(lent, faulty, listing, lengths, &memory::EXPORT, &answer).is_err()
        });
    }

    /// The same of an import.
    pub fn import_lengths(&mut self, text: &[u8], lengths: [usize; 5]) {
        self.text(text, &Known::Nothing);
        let answer = qasm::import(text);
        self.import(text, lengths, &answer);
        let lent = &mut self.import;
        self.import_memory.look(self.calls, |&fault| {
            let faulty = |lent: &mut Lent<5>| memory::perform(&memory::IMPORT, fault, lent);
            called(lent, faulty, text, lengths, &memory::IMPORT, &answer).is_err()
        });
    }

    /// The least length of each buffer, or sometimes more.
    fn some_lengths<const N: usize>(&mut self, least: [usize; N]) -> [usize; N] {
        least.map(|least| match self.random.below(64) {
            0 => least + self.random.below(65_536),
            1..=8 => least + self.random.between(1, 256),
            _ => least,
        })
    }

    fn export(&mut self, listing: &[u8], lengths: [usize; 2], answer: &Answer) {
        let under_test = |lent: &mut Lent<2>| {
            let (listing, buffers) = lent.parts();
            under_test::export(listing, buffers)
        };
        let lent = &mut self.export;
        if let Err(words) = called(lent, under_test, listing, lengths, &memory::EXPORT, answer) {
            let words = format!("export with buffers of {lengths:?} bytes: {words}");
            self.listings.differs(listing, &words);
        }
        self.count_call(lengths, lengths::EXPORT);
    }

    fn import(&mut self, text: &[u8], lengths: [usize; 5], answer: &Answer) {
        let under_test = |lent: &mut Lent<5>| {
            let (text, buffers) = lent.parts();
            under_test::import(text, buffers)
        };
        let lent = &mut self.import;
        if let Err(words) = called(lent, under_test, text, lengths, &memory::IMPORT, answer) {
            let shown = String::from_utf8_lossy(&text[..text.len().min(4_000)]);
            let words = format!("import with buffers of {lengths:?} bytes: {words}\n{shown}");
            self.texts.differs(text, &words);
        }
        self.count_call(lengths, lengths::IMPORT);
    }

    fn count_call<const N: usize>(&mut self, lengths: [usize; N], least: [usize; N]) {
        self.calls += 1;
        self.short += usize::from(is_short(&lengths, &least));
    }

    /// Prints the counts, and fails if too little has been seen.
    pub fn report(&self) {
        let numbers = LEAST_LISTINGS_REFUSED.iter().map(|&(number, _)| number);
        self.listings.report("exported", numbers);
        let numbers = LEAST_TEXTS_REFUSED.iter().map(|&(number, _)| number);
        self.texts.report("imported", numbers);
        println!("{:>9} calls", self.calls);
        println!("{:>9} of them refused with 19", self.short);
        self.seen.report();
        self.exports.report("listing");
        self.printers.iter().for_each(|of| of.report("listing"));
        self.parsers.iter().for_each(|of| of.report("text"));
        self.export_memory.report("call");
        self.import_memory.report("call");
        assert!(self.listings.with(0) >= LEAST_EXPORTED, "too few exported");
        self.listings.assert_refused(&LEAST_LISTINGS_REFUSED);
        assert!(self.texts.with(0) >= LEAST_IMPORTED, "too few imported");
        self.texts.assert_refused(&LEAST_TEXTS_REFUSED);
        assert!(self.short >= LEAST_SHORT, "too few refused with 19");
        self.seen.assert();
    }
}

/// The faults that are to be found often, and those that are to be found once.
fn planted<T: Copy, const N: usize>(all: [(&'static str, T); N]) -> [Planted<T>; 2] {
    let some = |once: bool| {
        let such = move |(name, _): &(&str, T)| SHOWN_ONCE.contains(name) == once;
        all.into_iter().filter(such)
    };
    [
        Planted::new(LEAST_FOUND, some(false)),
        Planted::new(1, some(true)),
    ]
}

fn hash(bytes: &[u8]) -> u64 {
    let mut hasher = DefaultHasher::new();
    bytes.hash(&mut hasher);
    hasher.finish()
}

fn is_short(lengths: &[usize], least: &[usize]) -> bool {
    let mut both = lengths.iter().zip(least);
    both.any(|(length, least)| length < least)
}

/// Calls an operation with buffers of these lengths on bytes that have this
/// answer. What differs, if anything.
fn called<const N: usize>(
    lent: &mut Lent<N>,
    operation: impl FnOnce(&mut Lent<N>) -> u64,
    bytes: &[u8],
    lengths: [usize; N],
    of: &Operation<N>,
    answer: &Answer,
) -> Result<(), String> {
    let expected = match is_short(&lengths, &of.least) {
        true => Expected {
            packed: answer::pack(&Err(SHORT)),
            out: &[],
            cleared: false,
        },
        false => Expected {
            packed: answer::pack(answer),
            out: answer.as_deref().unwrap_or(&[]),
            cleared: true,
        },
    };
    lent.call(operation, bytes, &lengths, &expected)
}

impl CompareTexts for Comparison {
    fn texts_group(&mut self, name: &str) {
        self.texts.group(&format!("texts {name}"));
    }

    /// Compares the import of a text.
    fn text(&mut self, text: &[u8], known: &Known) {
        let answer = qasm::import(text);
        if !known.fits(answer.as_ref().err()) {
            let words = format!("known {known:?}, expected {answer:?}");
            self.texts.differs(text, &words);
        }
        if !self.compared[1].insert(hash(text)) {
            return;
        }
        let number = answer.as_ref().err().map_or(0, |refusal| refusal.number);
        self.texts.count(text, number);
        self.seen.text(text, answer.is_ok());
        if let Ok(listing) = &answer {
            if qasm::export(listing).as_deref() != Ok(text) {
                self.texts.differs(text, "the printer gives another text");
            }
        }
        let lengths = self.some_lengths(lengths::IMPORT);
        self.import(text, lengths, &answer);
        for parsers in &mut self.parsers {
            parsers.look(self.texts.all(), |parse| {
                let listing = parse(text).map(|listing| listing.bytes());
                listing.as_ref() != answer.as_ref().ok()
            });
        }
    }
}
