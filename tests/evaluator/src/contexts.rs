//! Evaluation contexts: left part first, then right; never under abstraction
//! or lift, nor in let's second part.

use super::terms::{Form, Term};
use std::rc::Rc;

/// The nodes from the root to the hole, each with the number of the part in
/// which the hole is.
pub struct Context {
    around: Vec<(Rc<Term>, usize)>,
}

impl Context {
    /// The whole term with this one in the hole.
    pub fn plug(&self, inside: Rc<Term>) -> Rc<Term> {
        let nodes = self.around.iter().rev();
        nodes.fold(inside, |inside, (node, part)| node.with_part(*part, inside))
    }
}

/// The redex of a closed term and the context around it; none for a value.
pub fn redex(term: &Rc<Term>) -> Option<(Context, Rc<Term>)> {
    if term.is_value {
        return None;
    }
    let mut around = Vec::new();
    let mut here = term;
    while let Some((part, inside)) = next_part(here) {
        around.push((here.clone(), part));
        here = inside;
    }
    Some((Context { around }, here.clone()))
}

/// The part that is to be evaluated next, with its number; none if the node is
/// itself the redex.
fn next_part(term: &Term) -> Option<(usize, &Rc<Term>)> {
    match &term.form {
        Form::Application(first, second)
        | Form::Pair(first, second)
        | Form::Apply(first, second) => {
            if !first.is_value {
                Some((0, first))
            } else if !second.is_value {
                Some((1, second))
            } else {
                None
            }
        }
        Form::Let(part, _) | Form::Force(part) | Form::Box(_, part) => {
            (!part.is_value).then_some((0, part))
        }
        other => unreachable!("{other:?} is a value, or not closed"),
    }
}
