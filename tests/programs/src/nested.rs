//! Pairs in pairs: how they stand in each other, and the ways to their parts.

use crate::terms::{let_in, variable};
use program_files::{Random, Term};
use std::rc::Rc;

/// How pairs stand in each other.
#[derive(Clone, Copy, PartialEq, Eq, Debug)]
pub enum Nesting {
    Left,
    Right,
    /// To the left or to the right, at each pair anew.
    Either,
    /// One half has the depth, the other any small one.
    Any,
    /// Both halves are of one depth.
    Even,
}

#[derive(Clone, Copy, PartialEq, Eq, Debug)]
pub enum Side {
    First,
    Second,
}

impl Side {
    /// The argument of this half's variable in a let's second part.
    fn argument(self) -> usize {
        match self {
            Side::First => 1,
            Side::Second => 0,
        }
    }
}

/// These in pairs nested to the right.
pub fn in_a_row<T: Clone>(parts: &[T], pair: fn(T, T) -> T) -> T {
    let (last, others) = parts.split_last().expect("at least one");
    let others = others.iter().rev();
    others.fold(last.clone(), |rest, part| pair(part.clone(), rest))
}

/// From a pair to a part of it.
pub type Way = Vec<Side>;

pub enum Tree {
    Leaf,
    Pair(Box<Tree>, Box<Tree>),
}

impl Tree {
    /// A tree of exactly this depth.
    pub fn any(random: &mut Random, nesting: Nesting, depth: usize) -> Tree {
        let Some(less) = depth.checked_sub(1) else {
            return Tree::Leaf;
        };
        let deep = Box::new(Tree::any(random, nesting, less));
        let other = Box::new(match nesting {
            Nesting::Left | Nesting::Right | Nesting::Either => Tree::Leaf,
            Nesting::Even => Tree::any(random, nesting, less),
            Nesting::Any => {
                let other = random.below(depth.min(3));
                Tree::any(random, nesting, other)
            }
        });
        let left = match nesting {
            Nesting::Left => true,
            Nesting::Right => false,
            _ => random.one_in(2),
        };
        match left {
            true => Tree::Pair(deep, other),
            false => Tree::Pair(other, deep),
        }
    }

    /// A tree of so many leaves, at least one.
    pub fn of_leaves(random: &mut Random, leaves: usize) -> Tree {
        match leaves {
            1 => Tree::Leaf,
            _ => {
                let first = random.between(1, leaves - 1);
                let second = Tree::of_leaves(random, leaves - first);
                let first = Tree::of_leaves(random, first);
                Tree::Pair(Box::new(first), Box::new(second))
            }
        }
    }

    /// The ways to the leaves, left to right.
    pub fn leaves(&self) -> Vec<Way> {
        let Tree::Pair(first, second) = self else {
            return vec![Way::new()];
        };
        let mut ways = Vec::new();
        for (side, half) in [(Side::First, first), (Side::Second, second)] {
            for way in half.leaves() {
                ways.push([vec![side], way].concat());
            }
        }
        ways
    }

    /// The pair with these leaves, left to right.
    pub fn filled<T>(&self, leaves: &mut impl Iterator<Item = T>, pair: fn(T, T) -> T) -> T {
        match self {
            Tree::Leaf => leaves.next().expect("one for each leaf"),
            Tree::Pair(first, second) => {
                let first = first.filled(leaves, pair);
                pair(first, second.filled(leaves, pair))
            }
        }
    }
}

/// The term in which lets take the part at this way out of the variable with
/// this argument. What is done with the part gets the argument of its variable,
/// and stands under two more binders for each let.
pub fn taken_out(argument: usize, way: &[Side], done: impl Fn(usize) -> Rc<Term>) -> Rc<Term> {
    let mut arguments = vec![argument];
    arguments.extend(way.iter().map(|side| side.argument()));
    let inside = done(arguments[way.len()]);
    let taken_apart = arguments[..way.len()].iter().rev();
    taken_apart.fold(inside, |inside, &argument| {
        let_in(variable(argument), inside)
    })
}

/// The term in which lets take variable 0, pairs as the tree has them, apart.
/// What is done with the leaves gets their variables' arguments, left to right,
/// and stands under two more binders for each pair.
pub fn taken_apart(tree: &Tree, done: impl FnOnce(&[usize]) -> Rc<Term>) -> Rc<Term> {
    // What is still to be taken apart, and the leaves, by the binders outside.
    let mut left = vec![(0, tree)];
    let mut leaves = Vec::new();
    let mut pairs = Vec::new();
    let mut binders = 1;
    while let Some((number, tree)) = left.pop() {
        match tree {
            Tree::Leaf => leaves.push(number),
            Tree::Pair(first, second) => {
                pairs.push(variable(binders - 1 - number));
                left.push((binders + 1, second));
                left.push((binders, first));
                binders += 2;
            }
        }
    }
    let arguments: Vec<usize> = leaves.iter().map(|leaf| binders - 1 - leaf).collect();
    let taken_apart = pairs.into_iter().rev();
    taken_apart.fold(done(&arguments), |inside, pair| let_in(pair, inside))
}
