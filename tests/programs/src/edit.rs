//! Terms with something changed.

use crate::survey::Survey;
use program_files::Term;
use std::rc::Rc;

/// The same node with other parts.
pub fn with_parts(term: &Term, parts: &[Rc<Term>]) -> Term {
    let part = |at: usize| parts[at].clone();
    match term {
        Term::Variable(_) | Term::Label(_) | Term::Gate(_) | Term::UnitValue => term.clone(),
        Term::Abstraction(over, _) => Term::Abstraction(over.clone(), part(0)),
        Term::Application(..) => Term::Application(part(0), part(1)),
        Term::Pair(..) => Term::Pair(part(0), part(1)),
        Term::Let(..) => Term::Let(part(0), part(1)),
        Term::Lift(_) => Term::Lift(part(0)),
        Term::Force(_) => Term::Force(part(0)),
        Term::Box(at, _) => Term::Box(at.clone(), part(0)),
        Term::Apply(..) => Term::Apply(part(0), part(1)),
    }
}

/// How many variables a node binds in its part of this number.
pub fn binds(term: &Term, part: usize) -> usize {
    match (term, part) {
        (Term::Abstraction(..), 0) => 1,
        (Term::Let(..), 1) => 2,
        _ => 0,
    }
}

/// Each leaf changed, which gets the number of binders around it.
pub fn map_leaves(
    term: &Rc<Term>,
    binders: usize,
    change: &mut dyn FnMut(&Rc<Term>, usize) -> Rc<Term>,
) -> Rc<Term> {
    let parts = term.parts();
    if parts.is_empty() {
        return change(term, binders);
    }
    let parts: Vec<Rc<Term>> = parts
        .into_iter()
        .enumerate()
        .map(|(at, part)| map_leaves(part, binders + binds(term, at), change))
        .collect();
    Rc::new(with_parts(term, &parts))
}

/// The term under so many more binders, which stand around it.
pub fn shifted(term: &Rc<Term>, by: usize) -> Rc<Term> {
    map_leaves(term, 0, &mut |leaf, binders| match **leaf {
        Term::Variable(argument) if usize::from(argument) >= binders => {
            Rc::new(Term::Variable(argument + by as u16))
        }
        _ => leaf.clone(),
    })
}

/// The surveyed term with another in the place of one node.
pub fn replaced(survey: &Survey, at: usize, new: Rc<Term>) -> Rc<Term> {
    replaced_from(survey, 0, at, new)
}

fn replaced_from(survey: &Survey, from: usize, at: usize, new: Rc<Term>) -> Rc<Term> {
    if from == at {
        return new;
    }
    let mut part = from + 1;
    let mut parts: Vec<Rc<Term>> = Vec::new();
    while part < survey.nodes[from].end {
        let end = survey.nodes[part].end;
        parts.push(if (part..end).contains(&at) {
            replaced_from(survey, part, at, new.clone())
        } else {
            survey.nodes[part].term.clone()
        });
        part = end;
    }
    Rc::new(with_parts(&survey.nodes[from].term, &parts))
}
