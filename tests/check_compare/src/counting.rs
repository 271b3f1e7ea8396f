//! A check that counts uses in one pass, and the same check with one fault.
//! The comparison must tell every fault from the exported check.

use program_files::{kinds, Accepted, Refusal, Term, Type, Wire, GATES};
use programs::nested::in_a_row;
use programs::types::{circuit, pair, qubit, qubits};
use std::rc::Rc;

/// The fault.
#[derive(Clone, Copy, PartialEq, Eq, Debug)]
pub enum Wrong {
    Nothing,
    CountEndsAtLift,
    FunctionCopyable,
    /// Pairs inside so many others are never copied, or always.
    PairsLinear(usize),
    PairsCopyable(usize),
    OneHalfEnough,
    FirstHalfOnly,
    SecondHalfOnly,
    ReusableLinear,
    CircuitLinear,
    Bound511,
    Bound513,
    NoBoundAtLift,
    NoBoundAtPair,
    NoBoundAtAbstraction,
    Last16,
    Last17,
    Last18,
    /// Where both parts of a node of this kind have a place of this number.
    SecondPartFirst(u8, u8),
    InnerBinderFirst,
    UsesFirst,
    LiftsFirst,
    LetSwapped,
    UnusedTaken,
    TwiceTaken,
    BindersFirst,
    LabelsInLifts,
    NothingInLifts,
    OutermostLiftOnly,
    BoundInLift,
    BoxAtAny,
    BoxToAny,
    ApplyToAny,
    SizesCompared,
    LeavesAlike,
    LetOfFunction,
    NoPairAtFirstPart,
    MeasToQubit,
    UnitLinear,
    UnitNotCopied,
    UnitNotDropped,
    UnitNotInLifts,
    UnitNoResult,
    UnitIsBit,
    InitFromQubit,
    DiscardToBit,
    ValueIsBit,
    NestingIgnored,
    /// CCX has another type.
    CcxFromLeft,
    CcxToLeft,
    CcxFromTwo,
    CcxToTwo,
    CcxToBit,
    /// What CCX takes besides its own.
    CcxOfLeftTaken,
    CcxOfBitTaken(usize),
}

pub const PLANTED: [(&str, Wrong); 71] = [
    ("counting stops at a lift", Wrong::CountEndsAtLift),
    ("a function may be copied", Wrong::FunctionCopyable),
    ("pairs never copied", Wrong::PairsLinear(0)),
    ("outer pair only, inner ones never", Wrong::PairsLinear(1)),
    ("pairs in 8 others never copied", Wrong::PairsLinear(8)),
    ("any pair copied", Wrong::PairsCopyable(0)),
    (
        "outer pair only, inner ones always",
        Wrong::PairsCopyable(1),
    ),
    ("any pair in 8 others copied", Wrong::PairsCopyable(8)),
    ("one half of a pair is enough", Wrong::OneHalfEnough),
    ("the first half of a pair decides", Wrong::FirstHalfOnly),
    ("the second half of a pair decides", Wrong::SecondHalfOnly),
    ("a reusable is linear", Wrong::ReusableLinear),
    ("a circuit is linear", Wrong::CircuitLinear),
    ("bound 511", Wrong::Bound511),
    ("bound 513", Wrong::Bound513),
    ("no bound at a lift", Wrong::NoBoundAtLift),
    ("no bound at a pair", Wrong::NoBoundAtPair),
    ("no bound at an abstraction", Wrong::NoBoundAtAbstraction),
    ("the last 16", Wrong::Last16),
    ("the last 17", Wrong::Last17),
    ("the last 18", Wrong::Last18),
    (
        "the second part's 16 at a pair",
        Wrong::SecondPartFirst(16, kinds::PAIR),
    ),
    (
        "the second part's 17 at a pair",
        Wrong::SecondPartFirst(17, kinds::PAIR),
    ),
    (
        "the second part's 18 at a pair",
        Wrong::SecondPartFirst(18, kinds::PAIR),
    ),
    (
        "the second part's 16 at a let",
        Wrong::SecondPartFirst(16, kinds::LET),
    ),
    (
        "the second part's 17 at a let",
        Wrong::SecondPartFirst(17, kinds::LET),
    ),
    (
        "the second part's 18 at a let",
        Wrong::SecondPartFirst(18, kinds::LET),
    ),
    (
        "the second part's 16 at an application",
        Wrong::SecondPartFirst(16, kinds::APPLICATION),
    ),
    (
        "the second part's 17 at an application",
        Wrong::SecondPartFirst(17, kinds::APPLICATION),
    ),
    (
        "the second part's 18 at an application",
        Wrong::SecondPartFirst(18, kinds::APPLICATION),
    ),
    (
        "the second part's 16 at an apply",
        Wrong::SecondPartFirst(16, kinds::APPLY),
    ),
    (
        "the second part's 17 at an apply",
        Wrong::SecondPartFirst(17, kinds::APPLY),
    ),
    (
        "the second part's 18 at an apply",
        Wrong::SecondPartFirst(18, kinds::APPLY),
    ),
    ("the 17 inside an abstraction", Wrong::InnerBinderFirst),
    ("17 before 16", Wrong::UsesFirst),
    ("18 before 17", Wrong::LiftsFirst),
    ("let's variables swapped", Wrong::LetSwapped),
    ("no use taken for one", Wrong::UnusedTaken),
    ("two uses taken for one", Wrong::TwiceTaken),
    ("binders before labels", Wrong::BindersFirst),
    ("labels used inside a lift", Wrong::LabelsInLifts),
    ("no variable used inside a lift", Wrong::NothingInLifts),
    ("only the outermost lift counts", Wrong::OutermostLiftOnly),
    ("bound inside the lift refused", Wrong::BoundInLift),
    ("a box at any T", Wrong::BoxAtAny),
    ("a box to any type", Wrong::BoxToAny),
    ("an apply to any type", Wrong::ApplyToAny),
    ("types of one size are equal", Wrong::SizesCompared),
    ("Bit and Qubit are equal", Wrong::LeavesAlike),
    ("let takes a function apart", Wrong::LetOfFunction),
    ("the place of let's first part", Wrong::NoPairAtFirstPart),
    ("Meas gives a Qubit", Wrong::MeasToQubit),
    ("unit is linear", Wrong::UnitLinear),
    ("unit may not be copied", Wrong::UnitNotCopied),
    ("unit may not be dropped", Wrong::UnitNotDropped),
    ("unit not used inside a lift", Wrong::UnitNotInLifts),
    ("no box to a type with unit", Wrong::UnitNoResult),
    ("unit and Bit are equal", Wrong::UnitIsBit),
    ("Init takes a Qubit", Wrong::InitFromQubit),
    ("Discard gives a Bit", Wrong::DiscardToBit),
    ("unit's value is a Bit", Wrong::ValueIsBit),
    (
        "pairs of wires are equal however nested",
        Wrong::NestingIgnored,
    ),
    ("CCX takes wires nested to the left", Wrong::CcxFromLeft),
    ("CCX gives wires nested to the left", Wrong::CcxToLeft),
    ("CCX takes two wires", Wrong::CcxFromTwo),
    ("CCX gives two wires", Wrong::CcxToTwo),
    ("CCX gives a Bit", Wrong::CcxToBit),
    (
        "CCX takes wires nested to the left, too",
        Wrong::CcxOfLeftTaken,
    ),
    ("CCX takes a Bit first, too", Wrong::CcxOfBitTaken(0)),
    ("CCX takes a Bit second, too", Wrong::CcxOfBitTaken(1)),
    ("CCX takes a Bit third, too", Wrong::CcxOfBitTaken(2)),
];

const MEAS: u16 = 6;
const INIT: u16 = 9;
const DISCARD: u16 = 10;
const CCX: u16 = 11;

/// Three wires, nested to the left.
fn to_the_left() -> Rc<Type> {
    pair(qubits(2), qubit())
}

/// Three wires as CCX takes them, one of them a Bit.
fn with_bit(at: usize) -> Rc<Type> {
    let mut wires = [qubit(), qubit(), qubit()];
    wires[at] = Wire::Bit.as_type();
    in_a_row(&wires, pair)
}

struct Variable {
    of: Option<Rc<Type>>,
    place: usize,
    lifts: usize,
    uses: usize,
}

struct Counting<'a> {
    wrong: Wrong,
    labels: &'a [Wire],
    label_uses: Vec<usize>,
    scope: Vec<Variable>,
    lifts: usize,
    /// The entry number of the next node.
    next: usize,
    rules: Vec<usize>,
    uses: Vec<usize>,
    linear_in_lifts: Vec<usize>,
}

/// The check with a fault.
pub fn check(wrong: Wrong, read: &Accepted) -> Result<Rc<Type>, Refusal> {
    let mut counting = Counting {
        wrong,
        labels: &read.labels,
        label_uses: vec![0; read.labels.len()],
        scope: Vec::new(),
        lifts: 0,
        next: read.sizes.first_term(),
        rules: Vec::new(),
        uses: Vec::new(),
        linear_in_lifts: Vec::new(),
    };
    let of = counting.term(&read.term);
    counting.answer(of)
}

impl Counting<'_> {
    fn answer(mut self, of: Option<Rc<Type>>) -> Result<Rc<Type>, Refusal> {
        if self.wrong != Wrong::BindersFirst || self.uses.is_empty() {
            let labels = 0..self.labels.len();
            let wrong = labels.filter(|&label| !self.is_once(self.label_uses[label]));
            let wrong: Vec<usize> = wrong.collect();
            self.uses.extend(wrong);
        }
        let chosen = |places: &[usize], last: Wrong| {
            if self.wrong == last {
                places.iter().max().copied()
            } else {
                places.iter().min().copied()
            }
        };
        let mut found = vec![
            (16, chosen(&self.rules, Wrong::Last16)),
            (17, chosen(&self.uses, Wrong::Last17)),
            (18, chosen(&self.linear_in_lifts, Wrong::Last18)),
        ];
        match self.wrong {
            Wrong::UsesFirst => found.swap(0, 1),
            Wrong::LiftsFirst => found.swap(1, 2),
            _ => {}
        }
        for (number, place) in found {
            if let Some(place) = place {
                return Err(Refusal { number, place });
            }
        }
        Ok(of.expect("no node is at fault"))
    }

    fn is_once(&self, uses: usize) -> bool {
        match self.wrong {
            Wrong::UnusedTaken => uses <= 1,
            Wrong::TwiceTaken => uses == 1 || uses == 2,
            _ => uses == 1,
        }
    }

    fn is_linear(&self, of: &Type) -> bool {
        !self.is_copyable(of)
    }

    fn is_copyable(&self, of: &Type) -> bool {
        self.is_copyable_inside(of, 0)
    }

    /// Whether a type inside so many pairs may be copied.
    fn is_copyable_inside(&self, of: &Type, pairs: usize) -> bool {
        let half = |half: &Type| self.is_copyable_inside(half, pairs + 1);
        match of {
            Type::Bit | Type::Qubit => false,
            Type::Pair(first, second) => match self.wrong {
                Wrong::PairsLinear(from) if pairs >= from => false,
                Wrong::PairsCopyable(from) if pairs >= from => true,
                Wrong::OneHalfEnough => half(first) || half(second),
                Wrong::FirstHalfOnly => half(first),
                Wrong::SecondHalfOnly => half(second),
                _ => half(first) && half(second),
            },
            Type::Function(..) => self.wrong == Wrong::FunctionCopyable,
            Type::Reusable(_) => self.wrong != Wrong::ReusableLinear,
            Type::Circuit(..) => self.wrong != Wrong::CircuitLinear,
            Type::Unit => self.wrong != Wrong::UnitLinear,
        }
    }

    /// Whether a variable of this type may be used so often.
    fn is_allowed(&self, of: &Type, uses: usize) -> bool {
        match (self.wrong, of) {
            (Wrong::UnitNotCopied, Type::Unit) => uses <= 1,
            (Wrong::UnitNotDropped, Type::Unit) => uses > 0,
            _ => self.is_copyable(of) || self.is_once(uses),
        }
    }

    /// The type of a node with this entry number, if it is within the bound.
    fn bounded(&mut self, of: Type, place: usize) -> Option<Rc<Type>> {
        // Past any bound, so that types do not grow without end.
        const NO_BOUND: usize = 4_096;
        let most = match (self.wrong, &of) {
            (Wrong::Bound511, _) => 511,
            (Wrong::Bound513, _) => 513,
            (Wrong::NoBoundAtLift, Type::Reusable(_))
            | (Wrong::NoBoundAtPair, Type::Pair(..))
            | (Wrong::NoBoundAtAbstraction, Type::Function(..)) => NO_BOUND,
            _ => 512,
        };
        self.ruled((of.size() <= most).then(|| Rc::new(of)), place)
    }

    fn ruled(&mut self, of: Option<Rc<Type>>, place: usize) -> Option<Rc<Type>> {
        if of.is_none() {
            self.rules.push(place);
        }
        of
    }

    fn are_equal(&self, one: &Type, other: &Type) -> bool {
        match self.wrong {
            Wrong::SizesCompared => one.size() == other.size(),
            Wrong::LeavesAlike => {
                let alike = |of: &Type| -> Vec<u8> {
                    let bytes = of.preorder();
                    bytes.into_iter().map(|kind| kind.max(1)).collect()
                };
                alike(one) == alike(other)
            }
            Wrong::NestingIgnored => {
                let is_leaf = |kind: &u8| *kind != kinds::PAIR_TYPE;
                let alike = |of: &Type| -> Vec<u8> {
                    let bytes = of.preorder().into_iter();
                    match of.is_wire_type() {
                        true => bytes.filter(is_leaf).collect(),
                        false => bytes.collect(),
                    }
                };
                alike(one) == alike(other)
            }
            Wrong::UnitIsBit => {
                let alike = |of: &Type| -> Vec<u8> {
                    let bytes = of.preorder().into_iter();
                    bytes
                        .map(|kind| {
                            if kind == kinds::UNIT {
                                kinds::BIT
                            } else {
                                kind
                            }
                        })
                        .collect()
                };
                alike(one) == alike(other)
            }
            _ => one == other,
        }
    }

    /// Counts a use of a linear variable, and tests its lifts.
    fn used(&mut self, at: usize, place: usize) {
        let wrong = self.wrong;
        let lifts = self.lifts;
        let variable = &self.scope[at];
        let bound = variable.lifts;
        let linear = variable.of.as_ref().map(|of| {
            let unit = **of == Type::Unit && wrong == Wrong::UnitNotInLifts;
            unit || self.is_linear(of)
        });
        let inside = match wrong {
            Wrong::OutermostLiftOnly => lifts > 0 && bound == 0,
            Wrong::BoundInLift => lifts > 0,
            _ => lifts > bound,
        };
        if wrong != Wrong::CountEndsAtLift || !inside {
            self.scope[at].uses += 1;
        }
        let refused = match linear {
            Some(linear) => linear || wrong == Wrong::NothingInLifts,
            None => false,
        };
        if inside && refused {
            self.linear_in_lifts.push(place);
        }
    }

    fn term(&mut self, term: &Term) -> Option<Rc<Type>> {
        let place = self.next;
        self.next += 1;
        match term {
            Term::Variable(argument) => {
                let at = self.scope.len() - 1 - usize::from(*argument);
                self.used(at, place);
                self.scope[at].of.clone()
            }
            Term::Label(number) => {
                let number = usize::from(*number);
                if self.wrong != Wrong::CountEndsAtLift || self.lifts == 0 {
                    self.label_uses[number] += 1;
                }
                if self.lifts > 0 && self.wrong != Wrong::LabelsInLifts {
                    self.linear_in_lifts.push(place);
                }
                Some(self.labels[number].as_type())
            }
            Term::Gate(MEAS) if self.wrong == Wrong::MeasToQubit => Some(GATES[0].circuit_type()),
            Term::Gate(INIT) if self.wrong == Wrong::InitFromQubit => Some(GATES[0].circuit_type()),
            Term::Gate(DISCARD) if self.wrong == Wrong::DiscardToBit => {
                let bit = || Rc::new(Type::Bit);
                Some(Rc::new(Type::Circuit(bit(), bit())))
            }
            Term::Gate(CCX) => Some(self.ccx()),
            Term::Gate(number) => Some(GATES[usize::from(*number)].circuit_type()),
            Term::UnitValue if self.wrong == Wrong::ValueIsBit => Some(Rc::new(Type::Bit)),
            Term::UnitValue => Some(Rc::new(Type::Unit)),
            Term::Abstraction(over, body) => {
                let to = self.under(&[Some(over.clone())], place, body)?;
                self.bounded(Type::Function(over.clone(), to), place)
            }
            Term::Lift(part) => {
                self.lifts += 1;
                let of = self.term(part);
                self.lifts -= 1;
                self.bounded(Type::Reusable(of?), place)
            }
            Term::Force(part) => match &*self.term(part)? {
                Type::Reusable(of) => Some(of.clone()),
                _ => self.ruled(None, place),
            },
            Term::Box(at, part) => {
                let of = self.term(part)?;
                let boxed = self.boxed(at, &of);
                self.ruled(boxed, place)
            }
            Term::Let(first, second) => self.let_in(first, second, place),
            Term::Pair(first, second) => {
                let [first, second] = self.both(kinds::PAIR, first, second);
                self.bounded(Type::Pair(first?, second?), place)
            }
            Term::Application(first, second) | Term::Apply(first, second) => {
                let [left, right] = self.both(term.kind(), first, second);
                let (left, right) = (left?, right?);
                let is_apply = matches!(term, Term::Apply(..));
                let result = match &*left {
                    Type::Function(from, to) if !is_apply => {
                        self.are_equal(from, &right).then(|| to.clone())
                    }
                    Type::Circuit(from, to) if is_apply => {
                        let fits = self.wrong == Wrong::ApplyToAny
                            || self.are_equal(from, &right)
                            || self.is_taken_too(from, &right);
                        fits.then(|| to.clone())
                    }
                    _ => None,
                };
                self.ruled(result, place)
            }
        }
    }

    /// The type of CCX.
    fn ccx(&self) -> Rc<Type> {
        let (from, to) = match self.wrong {
            Wrong::CcxFromLeft => (to_the_left(), qubits(3)),
            Wrong::CcxToLeft => (qubits(3), to_the_left()),
            Wrong::CcxFromTwo => (qubits(2), qubits(3)),
            Wrong::CcxToTwo => (qubits(3), qubits(2)),
            Wrong::CcxToBit => (qubits(3), with_bit(2)),
            _ => return GATES[usize::from(CCX)].circuit_type(),
        };
        circuit(from, to)
    }

    /// Whether a circuit on what CCX takes is applied to something else that is taken.
    fn is_taken_too(&self, from: &Rc<Type>, argument: &Rc<Type>) -> bool {
        *from == qubits(3)
            && match self.wrong {
                Wrong::CcxOfLeftTaken => *argument == to_the_left(),
                Wrong::CcxOfBitTaken(at) => *argument == with_bit(at),
                _ => false,
            }
    }

    fn boxed(&self, at: &Rc<Type>, of: &Type) -> Option<Rc<Type>> {
        let Type::Reusable(function) = of else {
            return None;
        };
        let Type::Function(from, to) = &**function else {
            return None;
        };
        let from_fits = self.wrong == Wrong::BoxAtAny || self.are_equal(from, at);
        let to_fits = match self.wrong {
            Wrong::BoxToAny => true,
            Wrong::UnitNoResult => to.is_wire_type() && !to.preorder().contains(&kinds::UNIT),
            _ => to.is_wire_type(),
        };
        (from_fits && to_fits).then(|| Rc::new(Type::Circuit(at.clone(), to.clone())))
    }

    /// The types of both parts of a node of this kind.
    fn both(&mut self, kind: u8, first: &Term, second: &Term) -> [Option<Rc<Type>>; 2] {
        let before = self.found();
        let left = self.term(first);
        let between = self.found();
        let right = self.term(second);
        self.forget_first(kind, before, between);
        [left, right]
    }

    /// How many places there are of 16, 17 and 18.
    fn found(&self) -> [usize; 3] {
        [&self.rules, &self.uses, &self.linear_in_lifts].map(Vec::len)
    }

    /// Forgets the places of a node's first part, where the fault is so and
    /// there are others behind them.
    fn forget_first(&mut self, kind: u8, before: [usize; 3], between: [usize; 3]) {
        let Wrong::SecondPartFirst(number, of) = self.wrong else {
            return;
        };
        let at = usize::from(number - 16);
        let places = match number {
            16 => &mut self.rules,
            17 => &mut self.uses,
            _ => &mut self.linear_in_lifts,
        };
        if of == kind && places.len() > between[at] {
            places.drain(before[at]..between[at]);
        }
    }

    fn let_in(&mut self, first: &Term, second: &Term, place: usize) -> Option<Rc<Type>> {
        let before = self.found();
        let left = self.term(first);
        let between = self.found();
        let mut halves = match left.as_deref() {
            Some(Type::Pair(half, other)) => [Some(half.clone()), Some(other.clone())],
            Some(Type::Function(half, other)) if self.wrong == Wrong::LetOfFunction => {
                [Some(half.clone()), Some(other.clone())]
            }
            _ => [None, None],
        };
        let has_halves = halves[0].is_some();
        if left.is_some() && !has_halves {
            self.rules.push(match self.wrong {
                Wrong::NoPairAtFirstPart => place + 1,
                _ => place,
            });
        }
        if self.wrong == Wrong::LetSwapped {
            halves.swap(0, 1);
        }
        let right = self.under(&halves, place, second);
        self.forget_first(kinds::LET, before, between);
        if has_halves {
            right
        } else {
            None
        }
    }

    /// A part with these variables in scope, whose uses are then compared.
    fn under(&mut self, types: &[Option<Rc<Type>>], place: usize, part: &Term) -> Option<Rc<Type>> {
        let outside = self.scope.len();
        for of in types {
            self.scope.push(Variable {
                of: of.clone(),
                place,
                lifts: self.lifts,
                uses: 0,
            });
        }
        let before = self.uses.len();
        let of = self.term(part);
        let inner =
            self.wrong == Wrong::InnerBinderFirst && types.len() == 1 && self.uses.len() > before;
        for variable in self.scope.split_off(outside) {
            let of = variable.of.as_ref();
            let allowed = of.is_none_or(|of| self.is_allowed(of, variable.uses));
            if !allowed && !inner {
                self.uses.push(variable.place);
            }
        }
        of
    }
}
