//! Listings: what is told of them, and drawings.

use crate::planted::{Change, BANDS, DRAWINGS};
use crate::{drawings, explained};
use comparing::{Counts, Known, Planted};
use listings::{CompareListings, Listing};
use pqm::listing::Examined;
use pqm_command::draw::draw;
use pqm_command::explain::{explain, explain_file, Sort};
use program_files::{Random, GATES};

/// All are held against the library's check; one in so many of those that are refused
/// is explained, and of those that are accepted drawn.
const EXPLAINED: usize = 16;
const DRAWN: usize = 4;

/// Widths of a terminal, and the one that no drawing has.
const WIDTHS: [usize; 5] = [20, 60, 80, 100, 200];
const UNLIMITED: usize = usize::MAX / 2;

/// A wider terminal is wide enough for names and one gate.
const ENOUGH: usize = 60;

/// So many listings of each sort at least.
const LEAST_EACH: usize = 500;

pub struct Listed {
    counts: Counts,
    random: Random,
    drawings: usize,
    wrapped: usize,
    /// How many drawings have each gate.
    gates: [usize; GATES.len()],
    planted: Planted<Change>,
    planted_bands: Planted<Change>,
}

pub fn compare() -> Listed {
    let mut listed = Listed {
        counts: Counts::default(),
        random: Random::new(3),
        drawings: 0,
        wrapped: 0,
        gates: [0; GATES.len()],
        planted: Planted::new(3, DRAWINGS),
        planted_bands: Planted::new(3, BANDS),
    };
    listing_compare::small::compare(&mut listed);
    listing_compare::families::compare(&mut listed);
    listing_compare::changed::compare(&mut listed);
    listed
}

impl Listed {
    pub fn all(&self) -> usize {
        self.counts.all()
    }

    pub fn drawings(&self) -> usize {
        self.drawings
    }

    pub fn report(&self) {
        self.counts.report("accepted", 24..27);
        println!(
            "{:>9} drawings, {} of them wrapped",
            self.drawings, self.wrapped
        );
        for (gate, drawings) in GATES.iter().zip(self.gates) {
            println!("{drawings:>9} drawings with {}", gate.name);
            assert!(drawings >= LEAST_EACH, "too few with {}", gate.name);
        }
        self.planted.report("listing");
        self.planted_bands.report("listing");
        self.counts
            .assert_refused(&[24, 25, 26].map(|number| (number, LEAST_EACH)));
        assert!(self.wrapped >= LEAST_EACH, "too few wrapped");
    }

    fn take(&mut self, bytes: &[u8], examined: &Examined) {
        let sort = Sort::Listing;
        match examined.refusal() {
            Some(refusal) => {
                let explanation = explain_file(sort, bytes);
                let marks = refusal.number > 24;
                let fault = explained::fault(&explanation, refusal, marks);
                let is_drawn = draw(examined, WIDTHS[0]).is_some();
                let drawn = is_drawn.then(|| String::from("a refused listing is drawn"));
                if let Some(words) = fault.or(drawn) {
                    self.counts
                        .differs(bytes, &format!("{words}\n{explanation}"));
                }
            }
            None => self.draw(bytes, examined),
        }
        if let Err(refusal) = gawipsol::export(bytes) {
            if refusal.number == 28 {
                let explanation = explain(bytes, refusal);
                if let Some(words) = explained::fault(&explanation, refusal, true) {
                    self.counts
                        .differs(bytes, &format!("{words}\n{explanation}"));
                }
            }
        }
        explained::any(&mut self.random, bytes);
    }

    fn draw(&mut self, bytes: &[u8], examined: &Examined) {
        let Some(listing) = &examined.listing else {
            self.counts
                .differs(bytes, "no parts of an accepted listing");
        };
        let drawn = |width: usize| draw(examined, width).unwrap_or_default();
        let whole = drawn(UNLIMITED);
        if let Some(words) = drawings::fault(&whole, listing) {
            self.counts.differs(bytes, &format!("{words}\n{whole}"));
        }
        let width = self.random.pick(&WIDTHS);
        let text = drawn(width);
        let is_wide = |line: &str| width >= ENOUGH && line.chars().count() > width;
        let wide = text.lines().any(is_wide);
        let wide = wide.then(|| format!("wider than {width}"));
        if let Some(words) = wide.or_else(|| drawings::wrapped_fault(&text, &whole)) {
            let words = format!("{words}\n{text}\n{whole}");
            self.counts.differs(bytes, &words);
        }
        self.wrapped += usize::from(text.contains("\n\n"));
        self.planted_bands.look(self.counts.all(), |change| {
            change(&text).is_some_and(|text| drawings::wrapped_fault(&text, &whole).is_some())
        });
        self.planted.look(self.counts.all(), |change| {
            change(&whole).is_some_and(|text| drawings::fault(&text, listing).is_some())
        });
        self.drawings += 1;
        self.count_gates(listing);
    }

    fn count_gates(&mut self, listing: &Listing) {
        for (number, drawings) in self.gates.iter_mut().enumerate() {
            let has = listing
                .gates
                .iter()
                .any(|gate| usize::from(gate.kind) == number);
            *drawings += usize::from(has);
        }
    }
}

impl CompareListings for Listed {
    fn group(&mut self, name: &str) {
        self.counts.group(&format!("listings {name}"));
    }

    fn listing(&mut self, bytes: &[u8], _: &Known) {
        let examined = Examined::new(bytes);
        let refusal = examined.refusal();
        if refusal != gawipsol::check_listing(bytes).err() {
            self.counts.differs(bytes, &format!("told is {refusal:?}"));
        }
        let of = match refusal {
            Some(_) => EXPLAINED,
            None => DRAWN,
        };
        if self.random.one_in(of) {
            self.take(bytes, &examined);
        }
        self.counts
            .count(bytes, refusal.map_or(0, |refusal| refusal.number));
    }
}
