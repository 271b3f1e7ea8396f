//! What the programs had.

use crate::three::Three;
use comparing::Pairs;
use program_files::entries::LONGEST;
use program_files::{kinds, Accepted, Term, Type};
use programs::rules::{copyable, MOST_ENTRIES};
use programs::survey::Survey;
use programs::types::pairs_deep;

/// The uses of variables of a pair type that may be copied, the last with the
/// binder outside the lift, and the least number of each at each depth.
const USES_OF_PAIRS: [&str; 3] = ["dropped", "copied", "used inside a lift"];
const LEAST_PAIRS: [usize; 3] = [250, 35, 20];

#[derive(Default)]
pub struct Seen {
    most_sizes: [usize; 3],
    longest: usize,
    deepest: usize,
    deepest_type: usize,
    boxes: usize,
    lifts: usize,
    /// Programs of a type of 512 entries, and with a node of such a type.
    largest: usize,
    with_largest: usize,
    /// Nodes by kind.
    kinds: [usize; 12],
    /// Variables by the kind of their type, and by uses: none, one, more.
    uses: [[usize; 3]; 7],
    /// Variables of unit that are used inside a lift and bound outside.
    units_in_lifts: usize,
    /// Boxes at a type with unit inside, and at one without a wire; boxes to such.
    boxes_at_units: [usize; 2],
    boxes_to_units: [usize; 2],
    /// Variables of a pair type that may be copied.
    pairs: Pairs<8>,
    pub three: Three,
}

impl Seen {
    /// Counts what one accepted program of this type has.
    pub fn look(&mut self, read: &Accepted, survey: &Survey, of: &Type) {
        let sizes = [read.sizes.labels, read.sizes.types, read.sizes.terms];
        for (most, size) in self.most_sizes.iter_mut().zip(sizes) {
            *most = (*most).max(size);
        }
        self.longest = self.longest.max(6 + 3 * read.sizes.all());
        self.deepest = self.deepest.max(read.term.depth());
        self.deepest_type = self.deepest_type.max(of.depth());
        let mut largest = false;
        let mut uses = vec![0; survey.binders.len()];
        for (at, node) in survey.nodes.iter().enumerate() {
            self.boxes = self.boxes.max(node.boxes);
            self.lifts = self.lifts.max(node.lifts);
            self.kinds[usize::from(node.term.kind() - kinds::VARIABLE)] += 1;
            largest |= node.of.as_ref().is_some_and(|of| of.size() == MOST_ENTRIES);
            if let Some(binder) = survey.binder(at) {
                uses[binder] += 1;
                let in_lift = node.lifts > survey.binders[binder].lifts;
                let is_unit = node.of.as_deref() == Some(&Type::Unit);
                self.units_in_lifts += usize::from(in_lift && is_unit);
            }
            if let (Term::Box(..), Some(Type::Circuit(from, to))) =
                (&*node.term, node.of.as_deref())
            {
                count_units(&mut self.boxes_at_units, from);
                count_units(&mut self.boxes_to_units, to);
            }
        }
        for (binder, uses) in survey.binders.iter().zip(uses) {
            let kind = binder.of.as_ref().expect("a type").kind();
            self.uses[usize::from(kind)][uses.min(2)] += 1;
        }
        self.largest += usize::from(of.size() == MOST_ENTRIES);
        self.with_largest += usize::from(largest);
        self.three.accepted(survey);
    }

    /// Counts the variables of pair types that may be copied.
    pub fn look_at_pairs(&mut self, survey: &Survey) {
        let mut uses = vec![[0, 0]; survey.binders.len()];
        for (at, node) in survey.nodes.iter().enumerate() {
            if let Some(binder) = survey.binder(at) {
                let [all, in_lift] = &mut uses[binder];
                *all += 1;
                *in_lift += usize::from(node.lifts > survey.binders[binder].lifts);
            }
        }
        for (binder, [all, in_lift]) in survey.binders.iter().zip(uses) {
            let of = binder.of.as_ref().expect("a type");
            let depth = pairs_deep(of);
            if depth > 0 && copyable(of) {
                for (to, is_so) in [all == 0, all > 1, in_lift > 0].into_iter().enumerate() {
                    if is_so {
                        self.pairs.count(depth, to);
                    }
                }
            }
        }
    }

    pub fn report(&self) {
        let [labels, types, terms] = self.most_sizes;
        println!("most of accepted programs: L {labels}, P {types}, N {terms}");
        println!("longest file accepted: {} bytes", self.longest);
        println!("deepest term accepted: {}", self.deepest);
        println!("deepest type of a program: {}", self.deepest_type);
        println!(
            "most boxes inside each other: {}, lifts: {}",
            self.boxes, self.lifts
        );
        println!(
            "of a type of 512 entries: {}, with such a node: {}",
            self.largest, self.with_largest
        );
        println!("nodes by kind: {:?}", self.kinds);
        for (name, kind) in [
            ("Bit", kinds::BIT),
            ("Qubit", kinds::QUBIT),
            ("pair", kinds::PAIR_TYPE),
            ("function", kinds::FUNCTION),
            ("reusable", kinds::REUSABLE),
            ("circuit", kinds::CIRCUIT),
            ("unit", kinds::UNIT),
        ] {
            let [none, one, more] = self.uses[usize::from(kind)];
            println!("variables of kind {name}: {none} not used, {one} once, {more} more often");
        }
        println!("units used inside a lift: {}", self.units_in_lifts);
        for (name, [with, only]) in [("at", self.boxes_at_units), ("to", self.boxes_to_units)] {
            println!("boxes {name} a type with unit inside: {with}, without a wire: {only}");
        }
        self.pairs.report(USES_OF_PAIRS);
        self.three.report();
    }

    /// Fails if too little has been seen.
    pub fn assert(&self) {
        assert_eq!(self.most_sizes, [64, 512, 2_048], "sizes not reached");
        assert_eq!(self.longest, LONGEST, "longest file not reached");
        assert_eq!(self.deepest, 2_048, "deepest term not reached");
        assert!(self.deepest_type >= 511, "deepest type not reached");
        assert!(self.boxes >= 8 && self.lifts >= 400, "too little nested");
        assert!(self.largest >= 100, "too few of 512 entries");
        assert!(self.with_largest >= 200, "too few with 512 entries");
        assert!(
            self.kinds.iter().all(|&nodes| nodes >= 10_000),
            "too few nodes of some kind"
        );
        let linear = [kinds::BIT, kinds::QUBIT, kinds::PAIR_TYPE, kinds::FUNCTION];
        for kind in linear {
            assert!(
                self.uses[usize::from(kind)][1] >= 1_000,
                "too few linear variables"
            );
        }
        for kind in [kinds::REUSABLE, kinds::CIRCUIT, kinds::UNIT] {
            let uses = self.uses[usize::from(kind)];
            assert!(uses.iter().all(|&uses| uses >= 1_000), "too few copies");
        }
        assert!(self.units_in_lifts >= 1_000, "too few units in lifts");
        let boxes = [self.boxes_at_units, self.boxes_to_units];
        let enough = boxes.iter().flatten().all(|&boxes| boxes >= 500);
        assert!(enough, "too few boxes with units");
        self.pairs.assert(LEAST_PAIRS);
        self.three.assert();
    }
}

/// Counts a wire type if it has unit inside, and if it has no wire.
fn count_units([with, only]: &mut [usize; 2], of: &Type) {
    let kinds = of.preorder();
    *with += usize::from(kinds.contains(&kinds::UNIT));
    *only += usize::from(!kinds.contains(&kinds::BIT) && !kinds.contains(&kinds::QUBIT));
}

/// The name of a kind of the term section.
pub fn name_of(kind: u8) -> &'static str {
    const NAMES: [&str; 12] = [
        "variable",
        "label",
        "abstraction",
        "application",
        "pair",
        "let",
        "lift",
        "force",
        "box",
        "apply",
        "gate",
        "unit's value",
    ];
    NAMES[usize::from(kind - kinds::VARIABLE)]
}
