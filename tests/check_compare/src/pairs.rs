//! Pairs that may be copied at every depth, and the same pairs with one leaf
//! that may not: the answers are known from how the programs were made.

use crate::compare::Comparison;
use comparing::files::{entries, ComparePrograms};
use comparing::Known;
use program_files::{Program, Random, Term, Type, Wire, GATES};
use programs::nested::{taken_out, Nesting, Side, Tree, Way};
use programs::rules::MOST_ENTRIES;
use programs::terms::{
    abstraction, application, force, gate, label, let_in, lift, pair, unit_value, variable,
};
use programs::types::{self, any_type, any_wire, function, pairs_deep, reusable, unit};
use std::collections::BTreeMap;
use std::rc::Rc;

/// The depths at which all ways to nest, to bind and to use are compared, so
/// many times.
const DEEPEST: usize = 12;
const ROUNDS: usize = 8;

/// Some more of these depths, as far as they fit.
const VERY_DEEP: [usize; 2] = [60, 120];

/// So many programs of each sort at each depth, and at each very deep one.
const LEAST: usize = 40;
const LEAST_VERY_DEEP: usize = 12;

/// Deeper than this, pairs whose halves are of one depth have too many leaves.
const DEEPEST_EVEN: usize = 5;

/// What binds the variable.
#[derive(Clone, Copy, PartialEq, Eq)]
enum Binder {
    Abstraction,
    /// An abstraction that is applied to a pair.
    Applied,
    /// A let, of whose pair it is one half.
    FirstHalf,
    SecondHalf,
}

const BINDERS: [Binder; 4] = [
    Binder::Abstraction,
    Binder::Applied,
    Binder::FirstHalf,
    Binder::SecondHalf,
];

/// How the variable is used.
#[derive(Clone, Copy, PartialEq, Eq)]
enum Use {
    Once,
    Dropped,
    DroppedBesideLift,
    Twice,
    ThreeTimes,
    TakenApartTwice,
    TwiceInLift,
    InLiftAndOutside,
    InLift,
    InTwoLifts,
    InForcedLift,
}

const USES: [Use; 11] = [
    Use::Once,
    Use::Dropped,
    Use::DroppedBesideLift,
    Use::Twice,
    Use::ThreeTimes,
    Use::TakenApartTwice,
    Use::TwiceInLift,
    Use::InLiftAndOutside,
    Use::InLift,
    Use::InTwoLifts,
    Use::InForcedLift,
];

/// What a linear variable may not be. Used twice, also inside a lift, it is
/// copied.
#[derive(Clone, Copy, PartialEq, Eq, PartialOrd, Ord, Debug)]
enum Sort {
    Dropped,
    Copied,
    InLift,
}

const SORTS: [Sort; 3] = [Sort::Dropped, Sort::Copied, Sort::InLift];

impl Use {
    fn sort(self) -> Option<Sort> {
        Some(match self {
            Use::Once => return None,
            Use::Dropped | Use::DroppedBesideLift => Sort::Dropped,
            Use::Twice
            | Use::ThreeTimes
            | Use::TakenApartTwice
            | Use::TwiceInLift
            | Use::InLiftAndOutside => Sort::Copied,
            Use::InLift | Use::InTwoLifts | Use::InForcedLift => Sort::InLift,
        })
    }

    /// A term that uses the variable with this argument so.
    fn term(self, argument: usize) -> Rc<Term> {
        let used = || variable(argument);
        match self {
            Use::Once => used(),
            Use::Dropped => gate(0),
            Use::DroppedBesideLift => lift(gate(0)),
            Use::Twice => pair(used(), used()),
            Use::ThreeTimes => pair(pair(used(), used()), used()),
            Use::TakenApartTwice => let_in(used(), let_in(variable(argument + 2), gate(0))),
            Use::TwiceInLift => lift(pair(used(), used())),
            Use::InLiftAndOutside => pair(lift(used()), used()),
            Use::InLift => lift(used()),
            Use::InTwoLifts => lift(lift(used())),
            Use::InForcedLift => force(lift(used())),
        }
    }

    /// The type of that term, of a variable of this type.
    fn of(self, of: &Rc<Type>) -> Rc<Type> {
        let of = || of.clone();
        let twice = || types::pair(of(), of());
        match self {
            Use::Once | Use::InForcedLift => of(),
            Use::Dropped | Use::TakenApartTwice => GATES[0].circuit_type(),
            Use::DroppedBesideLift => reusable(GATES[0].circuit_type()),
            Use::Twice => twice(),
            Use::ThreeTimes => types::pair(twice(), of()),
            Use::TwiceInLift => reusable(twice()),
            Use::InLiftAndOutside => types::pair(reusable(of()), of()),
            Use::InLift => reusable(of()),
            Use::InTwoLifts => reusable(reusable(of())),
        }
    }

    /// The fault if the variable is linear: 17 at its binder, or 18 at its use
    /// in a term that starts at this node.
    fn fault(self, binder: usize, start: usize) -> Option<(u8, usize)> {
        Some(match self.sort()? {
            Sort::Dropped | Sort::Copied => (17, binder),
            Sort::InLift if self == Use::InLift => (18, start + 1),
            Sort::InLift => (18, start + 2),
        })
    }
}

/// A type, and a term of it.
struct Part {
    of: Rc<Type>,
    value: Option<Rc<Term>>,
}

fn pair_of(first: Part, second: Part) -> Part {
    let values = first.value.zip(second.value);
    Part {
        of: types::pair(first.of, second.of),
        value: values.map(|(first, second)| pair(first, second)),
    }
}

/// A gate, a lifted gate, a lifted function or unit; where no term is wanted, any
/// small reusable.
fn copyable_leaf(random: &mut Random, small: bool, with_term: bool) -> Part {
    let number = match small {
        true => random.below(5),
        false => random.below(GATES.len()),
    };
    let of = GATES[number].circuit_type();
    let (of, value) = match random.below(5) {
        4 => (unit(), Some(unit_value())),
        _ if small => (of, Some(gate(number))),
        0 if !with_term => {
            let size = random.between(1, 4);
            (reusable(any_type(random, size)), None)
        }
        0 | 1 => {
            let over = any_wire(random).as_type();
            let value = lift(abstraction(over.clone(), variable(0)));
            (reusable(function(over.clone(), over)), Some(value))
        }
        2 => (reusable(of), Some(lift(gate(number)))),
        _ => (of, Some(gate(number))),
    };
    Part { of, value }
}

/// A wire, whose term is label 0, or a function.
fn linear_leaf(random: &mut Random) -> (Part, Option<Wire>) {
    let wire = any_wire(random);
    let (of, value, wire) = match random.below(3) {
        0 => {
            let value = abstraction(wire.as_type(), variable(0));
            (function(wire.as_type(), wire.as_type()), value, None)
        }
        _ => (wire.as_type(), label(0), Some(wire)),
    };
    let value = Some(value);
    (Part { of, value }, wire)
}

/// What a program is made of.
#[derive(Clone, Copy)]
struct Plan {
    nesting: Nesting,
    depth: usize,
    binder: Binder,
    uses: Use,
    /// Whether one leaf is linear.
    linear: bool,
    /// Whether all others are units.
    units: bool,
}

/// A program, its type if it has no fault, and its faults, each a number and a
/// node.
struct Made {
    program: Program,
    of: Rc<Type>,
    faults: Vec<(u8, usize)>,
    /// Where it is counted.
    counted: Option<Counted>,
}

/// By the depth of the variable's type, by its use, and by whether it is
/// linear.
type Counted = (usize, Sort, bool);

pub fn compare(comparison: &mut Comparison) {
    comparison.counts_pairs = false;
    comparison.group("pairs at every depth");
    let mut random = Random::new(13);
    let mut seen = BTreeMap::new();
    let all = [
        Nesting::Left,
        Nesting::Right,
        Nesting::Either,
        Nesting::Any,
        Nesting::Even,
    ];
    for depth in 1..=DEEPEST {
        let nestings = if depth <= DEEPEST_EVEN { 5 } else { 4 };
        for _ in 0..ROUNDS {
            several(
                comparison,
                &mut random,
                &all[..nestings],
                depth,
                false,
                &mut seen,
            );
        }
    }
    comparison.group("units, and pairs of units at every depth");
    let mut with_units = BTreeMap::new();
    for depth in 0..=DEEPEST_EVEN {
        for _ in 0..ROUNDS {
            several(comparison, &mut random, &all, depth, true, &mut with_units);
        }
    }
    comparison.group("pairs, very deep");
    for depth in VERY_DEEP {
        for _ in 0..6 {
            several(comparison, &mut random, &all[..3], depth, false, &mut seen);
        }
    }
    comparison.counts_pairs = true;
    let deep = (1..=DEEPEST).map(|depth| (depth, LEAST));
    let very_deep = VERY_DEEP.map(|depth| (depth, LEAST_VERY_DEEP));
    demand(&seen, deep.chain(very_deep));
    demand(&with_units, (0..=DEEPEST_EVEN).map(|depth| (depth, LEAST)));
}

/// Fails if there are fewer of a depth, whatever their use.
fn demand(seen: &BTreeMap<Counted, usize>, depths: impl Iterator<Item = (usize, usize)>) {
    for (depth, least) in depths {
        for sort in SORTS {
            for linear in [false, true] {
                let counted = (depth, sort, linear);
                let seen = seen.get(&counted).copied().unwrap_or(0);
                assert!(seen >= least, "too few of {counted:?}: {seen}");
            }
        }
    }
}

/// Compares one program for each use and each binder, with a linear leaf and
/// without, as far as they fit; the other leaves are units or of any type.
fn several(
    comparison: &mut Comparison,
    random: &mut Random,
    nestings: &[Nesting],
    depth: usize,
    units: bool,
    seen: &mut BTreeMap<Counted, usize>,
) {
    for uses in USES {
        for binder in BINDERS {
            for linear in [false, true] {
                let plan = Plan {
                    nesting: random.pick(nestings),
                    depth,
                    binder,
                    uses,
                    linear,
                    units,
                };
                let Some(made) = made(random, &plan) else {
                    continue;
                };
                let counted = made.counted;
                if compared(comparison, random, made) {
                    if let Some(counted) = counted {
                        *seen.entry(counted).or_default() += 1;
                    }
                }
            }
        }
    }
}

/// Compares the program, if it has a file.
fn compared(comparison: &mut Comparison, random: &mut Random, made: Made) -> bool {
    let Some(entries) = entries(random, &made.program) else {
        return false;
    };
    let known = match made.faults.into_iter().min() {
        Some((number, node)) => Known::Refused(number, entries.sizes().first_term() + node),
        None => Known::Type(made.of),
    };
    comparison.program(&entries.bytes(), &known);
    true
}

/// A program of the plan; none if a type would be too large.
fn made(random: &mut Random, plan: &Plan) -> Option<Made> {
    let tree = Tree::any(random, plan.nesting, plan.depth);
    let ways = tree.leaves();
    let linear = plan.linear.then(|| random.below(ways.len()));
    let with_term = plan.binder != Binder::Abstraction;
    let mut labels = Vec::new();
    let mut leaves = Vec::new();
    for at in 0..ways.len() {
        leaves.push(if linear == Some(at) {
            let (leaf, wire) = linear_leaf(random);
            labels.extend(wire.filter(|_| with_term));
            leaf
        } else if plan.units {
            Part {
                of: unit(),
                value: Some(unit_value()),
            }
        } else {
            copyable_leaf(random, plan.depth > DEEPEST, with_term)
        });
    }
    let whole = tree.filled(&mut leaves.into_iter(), pair_of);
    let to_linear = linear.map(|at| &ways[at]);
    let bound = bound(plan.binder, whole);
    let way = some_way(random, &ways, to_linear);
    let taken = Taken {
        in_lift: !way.is_empty() && random.one_in(4),
        way,
        uses: plan.uses,
    };
    finished(labels, bound, &taken, to_linear)
}

/// The way to the part that is taken out by lets: none at most times, else the
/// start of one to the linear leaf or to any leaf.
fn some_way(random: &mut Random, ways: &[Way], to_linear: Option<&Way>) -> Way {
    if ways.len() == 1 || !random.one_in(4) {
        return Way::new();
    }
    let way = match to_linear {
        Some(way) if !random.one_in(3) => way,
        _ => &ways[random.below(ways.len())],
    };
    way[..random.between(1, way.len())].to_vec()
}

/// A binder of a variable of type `over`.
struct Bound {
    binder: Binder,
    over: Rc<Type>,
    value: Option<Rc<Term>>,
    /// The number of its node, and of the first one of its body.
    node: usize,
    body: usize,
    /// The variable's argument at the start of the body.
    argument: usize,
}

fn bound(binder: Binder, Part { of, value }: Part) -> Bound {
    let size = value.as_ref().map_or(0, |value| value.size());
    let (node, body, argument) = match binder {
        Binder::Abstraction => (0, 1, 0),
        Binder::Applied => (1, 2, 0),
        Binder::FirstHalf => (0, 3 + size, 1),
        Binder::SecondHalf => (0, 3 + size, 0),
    };
    Bound {
        binder,
        over: of,
        value,
        node,
        body,
        argument,
    }
}

impl Bound {
    /// The program's term, and its type, which may be too large.
    fn around(&self, body: Rc<Term>, of: Rc<Type>) -> Option<(Rc<Term>, Rc<Type>)> {
        let value = || self.value.clone().expect("a term of the type");
        let over = self.over.clone();
        let function = function(over.clone(), of.clone());
        let largest = match self.binder {
            Binder::Abstraction | Binder::Applied => function.size(),
            Binder::FirstHalf | Binder::SecondHalf => 4 + over.size(),
        };
        let (term, of) = match self.binder {
            Binder::Abstraction => (abstraction(over, body), function),
            Binder::Applied => (application(abstraction(over, body), value()), of),
            Binder::FirstHalf => (let_in(pair(value(), gate(0)), body), of),
            Binder::SecondHalf => (let_in(pair(gate(0), value()), body), of),
        };
        (largest <= MOST_ENTRIES).then_some((term, of))
    }
}

/// A part is taken out by lets, all inside a lift or not, and used.
struct Taken {
    way: Way,
    in_lift: bool,
    uses: Use,
}

fn finished(
    labels: Vec<Wire>,
    bound: Bound,
    taken: &Taken,
    to_linear: Option<&Way>,
) -> Option<Made> {
    let Taken { way, in_lift, uses } = taken;
    let part = part_of(&bound.over, way);
    if *uses == Use::TakenApartTwice && pairs_deep(&part) == 0 {
        return None;
    }
    let mut of = uses.of(&part);
    if of.size().max(2 + part.size()) + usize::from(*in_lift) > MOST_ENTRIES {
        return None;
    }
    let mut body = taken_out(bound.argument, way, |argument| uses.term(argument));
    if *in_lift {
        body = lift(body);
        of = reusable(of);
    }
    let (faults, is_linear) = match to_linear {
        Some(to_linear) => (faults(&bound, taken, to_linear), to_linear.starts_with(way)),
        None => (Vec::new(), false),
    };
    // Where the linear leaf is in another part, the lets drop it.
    let counted = uses
        .sort()
        .filter(|_| !in_lift && is_linear == to_linear.is_some())
        .map(|sort| (pairs_deep(&part), sort, is_linear));
    let (term, of) = bound.around(body, of)?;
    Some(Made {
        program: Program::new(labels, term),
        of,
        faults,
        counted,
    })
}

/// The faults of a program with a linear leaf, to which this way leads.
fn faults(bound: &Bound, taken: &Taken, to_linear: &Way) -> Vec<(u8, usize)> {
    let Taken { way, in_lift, uses } = taken;
    let start = bound.body + usize::from(*in_lift);
    let node_of = |number: usize| start + 2 * number;
    let both = way.iter().zip(to_linear);
    let together = both.take_while(|(one, other)| one == other).count();
    let mut faults = Vec::new();
    if together < way.len() {
        faults.push((17, node_of(together)));
    } else {
        let binder = match together {
            0 => bound.node,
            lets => node_of(lets - 1),
        };
        faults.extend(uses.fault(binder, node_of(together)));
    }
    if *in_lift {
        faults.push((18, start + 1));
    }
    faults
}

fn part_of(of: &Rc<Type>, way: &[Side]) -> Rc<Type> {
    let Some((side, further)) = way.split_first() else {
        return of.clone();
    };
    let Type::Pair(first, second) = &**of else {
        unreachable!("the way leads to a part");
    };
    match side {
        Side::First => part_of(first, further),
        Side::Second => part_of(second, further),
    }
}
