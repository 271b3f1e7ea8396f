//! Types from their parts, which of them may be copied, and how they are written.

use crate::kinds;
use crate::trees::{Type, Wire};
use std::fmt;
use std::rc::Rc;

/// No type of a node may exceed so many entries.
pub const MOST_ENTRIES: usize = 512;

pub fn bit() -> Rc<Type> {
    Wire::Bit.as_type()
}

pub fn qubit() -> Rc<Type> {
    Wire::Qubit.as_type()
}

/// So many Qubits in pairs nested to the right; unit if there is none.
pub fn qubits(count: usize) -> Rc<Type> {
    match count {
        0 => unit(),
        _ => (1..count).fold(qubit(), |rest, _| pair(qubit(), rest)),
    }
}

pub fn unit() -> Rc<Type> {
    Rc::new(Type::Unit)
}

pub fn pair(first: Rc<Type>, second: Rc<Type>) -> Rc<Type> {
    Rc::new(Type::Pair(first, second))
}

pub fn function(from: Rc<Type>, to: Rc<Type>) -> Rc<Type> {
    Rc::new(Type::Function(from, to))
}

pub fn reusable(of: Rc<Type>) -> Rc<Type> {
    Rc::new(Type::Reusable(of))
}

pub fn circuit(from: Rc<Type>, to: Rc<Type>) -> Rc<Type> {
    Rc::new(Type::Circuit(from, to))
}

/// The types that may be copied and dropped.
pub fn copyable(of: &Type) -> bool {
    match of {
        Type::Bit | Type::Qubit | Type::Function(..) => false,
        Type::Pair(first, second) => copyable(first) && copyable(second),
        Type::Reusable(_) | Type::Circuit(..) | Type::Unit => true,
    }
}

/// As 000 writes it: A ⊗ B for a pair, A ⊸ B for a function, !A for reusable,
/// Circ(T, U) for a circuit; a pair inside a pair is in parentheses.
impl fmt::Display for Type {
    fn fmt(&self, to: &mut fmt::Formatter) -> fmt::Result {
        to.write_str(&written(&self.preorder(), usize::MAX))
    }
}

/// What stands for a part that is not there, or is of no kind that types have.
const MISSING: &str = "?";

/// The type that these kinds start with in preorder, well formed or not, as people
/// write it. Past so many entries an ellipsis stands for the rest.
pub fn written(preorder: &[u8], most: usize) -> String {
    let mut writer = Writer {
        kinds: preorder,
        left: most,
        text: String::new(),
    };
    writer.part(Around::Nothing);
    writer.text
}

/// What a part stands in, as far as it decides about parentheses.
#[derive(Clone, Copy, PartialEq)]
enum Around {
    Nothing,
    From,
    Half,
    Reusable,
}

struct Writer<'a> {
    kinds: &'a [u8],
    left: usize,
    text: String,
}

impl Writer<'_> {
    fn part(&mut self, around: Around) {
        if self.left == 0 {
            self.text.push('…');
            return;
        }
        self.left -= 1;
        let Some((&kind, rest)) = self.kinds.split_first() else {
            self.text.push_str(MISSING);
            return;
        };
        self.kinds = rest;
        match kind {
            kinds::BIT => self.text.push_str("Bit"),
            kinds::QUBIT => self.text.push_str("Qubit"),
            kinds::UNIT => self.text.push_str("unit"),
            kinds::PAIR_TYPE => {
                let closed = matches!(around, Around::Half | Around::Reusable);
                self.two(Around::Half, " ⊗ ", Around::Half, closed);
            }
            kinds::FUNCTION => {
                let closed = around != Around::Nothing;
                self.two(Around::From, " ⊸ ", Around::Nothing, closed);
            }
            kinds::REUSABLE => {
                self.text.push('!');
                self.part(Around::Reusable);
            }
            kinds::CIRCUIT => {
                self.text.push_str("Circ");
                self.two(Around::Nothing, ", ", Around::Nothing, true);
            }
            _ => self.text.push_str(MISSING),
        }
    }

    /// Two parts, in parentheses or not.
    fn two(&mut self, first: Around, between: &str, second: Around, closed: bool) {
        if closed {
            self.text.push('(');
        }
        self.part(first);
        self.text.push_str(between);
        self.part(second);
        if closed {
            self.text.push(')');
        }
    }
}
