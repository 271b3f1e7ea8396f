//! The places of 16, 17 and 18, found by a search over all nodes. Each list
//! is in file order; the numbers are those of entries.

use crate::rules::copyable;
use crate::survey::Survey;
use program_files::{Refusal, Term, Type};
use std::rc::Rc;

/// The type, or the first refusal: the number first, then the place.
pub fn search(survey: &Survey, labels: usize, first_term: usize) -> Result<Rc<Type>, Refusal> {
    let first = |number: u8, places: Vec<usize>| match places.first() {
        Some(&place) => Err(Refusal { number, place }),
        None => Ok(()),
    };
    first(16, rule_faults(survey, first_term))?;
    first(17, use_faults(survey, labels, first_term))?;
    first(18, lift_faults(survey, first_term))?;
    Ok(survey.nodes[0].of.clone().expect("no node is at fault"))
}

/// 16: a node whose parts all have types and whose rule fails or whose type
/// would exceed 512 entries, or a let whose first part has a type that is no
/// pair.
pub fn rule_faults(survey: &Survey, first_term: usize) -> Vec<usize> {
    (0..survey.nodes.len())
        .filter(|&node| survey.nodes[node].fault)
        .map(|node| first_term + node)
        .collect()
}

/// 17: a linear variable or label not used exactly once. A variable without a
/// type is not known to be linear.
pub fn use_faults(survey: &Survey, labels: usize, first_term: usize) -> Vec<usize> {
    let mut label_uses = vec![0; labels];
    let mut uses = vec![0; survey.binders.len()];
    for node in 0..survey.nodes.len() {
        match (&*survey.nodes[node].term, survey.binder(node)) {
            (Term::Label(number), _) => label_uses[usize::from(*number)] += 1,
            (_, Some(binder)) => uses[binder] += 1,
            _ => {}
        }
    }
    let mut places: Vec<usize> = (0..labels)
        .filter(|&label| label_uses[label] != 1)
        .collect();
    let binders = survey.binders.iter().zip(uses);
    let mut wrong: Vec<usize> = binders
        .filter(|(binder, uses)| is_linear(&binder.of) && *uses != 1)
        .map(|(binder, _)| first_term + binder.node)
        .collect();
    wrong.sort_unstable();
    wrong.dedup();
    places.extend(wrong);
    places
}

/// 18: a linear use inside a lift from outside it. Every label is from
/// outside.
pub fn lift_faults(survey: &Survey, first_term: usize) -> Vec<usize> {
    (0..survey.nodes.len())
        .filter(|&node| {
            let lifts = survey.nodes[node].lifts;
            match (&*survey.nodes[node].term, survey.binder(node)) {
                (Term::Label(_), _) => lifts > 0,
                (_, Some(binder)) => {
                    let binder = &survey.binders[binder];
                    is_linear(&binder.of) && lifts > binder.lifts
                }
                _ => false,
            }
        })
        .map(|node| first_term + node)
        .collect()
}

fn is_linear(of: &Option<Rc<Type>>) -> bool {
    of.as_ref().is_some_and(|of| !copyable(of))
}
