//! Refusals 16 to 18: typing.

use super::Explanation;
use crate::dump::Dump;
use crate::words::{self, entries, used, NAMED};
use pqm::read::{read, Accepted};
use pqm::survey::{Node, Survey};
use pqm::trees::{Term, Type};
use pqm::types::{copyable, MOST_ENTRIES};
use pqm::{kinds, Refusal};
use std::rc::Rc;

/// The file is refused so.
pub fn explain(bytes: &[u8], Refusal { number, place }: Refusal) -> Explanation {
    let found = read(bytes).ok().and_then(|read| {
        let program = Program::new(&read);
        match number {
            16 => program.rule(place),
            17 => program.uses(place),
            _ => program.lifted(place),
        }
    });
    let (sentences, mut shown) = found.unwrap_or_default();
    shown.push(place);
    Explanation {
        sentences,
        surroundings: Dump::new(bytes).around(&shown, place),
    }
}

fn type_words(of: &Type) -> String {
    words::type_words(&of.preorder())
}

/// Why what may not be copied must be used once.
const LINEAR: &str = "What is reusable, a circuit, unit or a pair of such may be copied and \
                      dropped; everything else must be used exactly once";

struct Program<'a> {
    read: &'a Accepted,
    survey: Survey,
    first_term: usize,
}

impl<'a> Program<'a> {
    fn new(read: &'a Accepted) -> Program<'a> {
        Program {
            read,
            survey: Survey::new(&read.labels, &read.term),
            first_term: read.sizes.first_term(),
        }
    }

    fn node(&self, place: usize) -> Option<&Node> {
        let number = place.checked_sub(self.first_term)?;
        self.survey.nodes.get(number)
    }

    /// The entries of a node's parts, each with its type.
    fn parts(&self, place: usize) -> Option<Vec<(usize, Rc<Type>)>> {
        let mut next = place + 1;
        let mut parts = Vec::new();
        for _ in self.node(place)?.term.parts() {
            let part = self.node(next)?;
            // A let whose first part is no pair has no type for its second.
            parts.extend(part.of.clone().map(|of| (next, of)));
            next = self.first_term + part.end;
        }
        Some(parts)
    }

    /// 16.
    fn rule(&self, place: usize) -> Option<(String, Vec<usize>)> {
        let parts = self.parts(place)?;
        let shown = parts.iter().map(|(entry, _)| *entry).collect();
        let term = &self.node(place)?.term;
        let (first, of) = parts.first()?;
        let is = |what: &str| format!("Entry {place} is {what}");
        let has = format!("entry {first}, whose type is {}", type_words(of));
        let sentences = match &**term {
            Term::Application(..) => {
                let takes = match &**of {
                    Type::Function(from, _) => Ok((from, "function")),
                    Type::Circuit(..) => Err("A circuit is used by apply, kind 25"),
                    Type::Reusable(_) => Err("What is reusable is forced first, kind 23"),
                    _ => Err("Only a function can be applied"),
                };
                applied(&is("an application"), &has, takes, &parts)?
            }
            Term::Apply(..) => {
                let takes = match &**of {
                    Type::Circuit(from, _) => Ok((from, "circuit")),
                    Type::Function(..) => Err("A function is used by application, kind 19"),
                    Type::Reusable(part) if matches!(**part, Type::Function(..)) => {
                        Err("A box, kind 24, makes a circuit of it")
                    }
                    Type::Reusable(_) => Err("What is reusable is forced first, kind 23"),
                    _ => Err("Only a circuit or a gate can be applied so"),
                };
                applied(&is("an apply"), &has, takes, &parts)?
            }
            Term::Let(..) => format!(
                "{} that takes {has}, apart. That is no pair, so there are no halves to bind.",
                is("a let")
            ),
            Term::Force(_) => format!(
                "{} of {has}. That is not reusable: force undoes a lift, and there is none.",
                is("a force")
            ),
            Term::Box(at, _) => boxed(&is("a box"), &has, at, of),
            _ => too_large(place, term, &parts),
        };
        Some((sentences, shown))
    }

    /// The entries that use a label, or a variable of a binder.
    fn users(&self, is_use: impl Fn(usize, &Node) -> bool) -> Vec<usize> {
        let nodes = self.survey.nodes.iter().enumerate();
        let users = nodes.filter(|(number, node)| is_use(*number, node));
        users.map(|(number, _)| self.first_term + number).collect()
    }

    /// 17.
    fn uses(&self, place: usize) -> Option<(String, Vec<usize>)> {
        if let Some(wire) = self.read.labels.get(place) {
            let users = self.users(|_, node| *node.term == Term::Label(place as u16));
            let sentences = format!("Label {place}, a {wire:?}, {}. {LINEAR}.", used(&users));
            let shown = users.into_iter().take(NAMED);
            return Some((sentences, shown.collect()));
        }
        let binders = self.survey.binders.iter().enumerate();
        let binders = binders.filter(|(_, binder)| self.first_term + binder.node == place);
        let halves = ["first half", "second half"];
        let is_let = matches!(*self.node(place)?.term, Term::Let(..));
        let mut sentences = Vec::new();
        let mut shown = Vec::new();
        for ((number, binder), half) in binders.zip(halves) {
            let users = self.users(|node, _| self.survey.binder(node) == Some(number));
            let of = binder.of.as_ref()?;
            if users.len() != 1 && !copyable(of) {
                let variable = match is_let {
                    true => format!("The {half} that the let at entry {place} binds"),
                    false => format!("The variable of the abstraction at entry {place}"),
                };
                sentences.push(format!(
                    "{variable} has the linear type {} and {}.",
                    type_words(of),
                    used(&users)
                ));
            }
            shown.extend(users.into_iter().take(NAMED));
        }
        sentences.push(format!("{LINEAR}."));
        Some((sentences.join(" "), shown))
    }

    /// 18.
    fn lifted(&self, place: usize) -> Option<(String, Vec<usize>)> {
        let number = place.checked_sub(self.first_term)?;
        let node = self.node(place)?;
        let (name, outside) = match (&*node.term, self.survey.binder(number)) {
            (Term::Label(label), _) => {
                let of = self.read.labels.get(usize::from(*label))?;
                (format!("label {label}, a {of:?}"), None)
            }
            (_, Some(binder)) => {
                let binder = &self.survey.binders[binder];
                let entry = self.first_term + binder.node;
                let of = type_words(binder.of.as_ref()?);
                let name = format!("a variable of type {of}, bound at entry {entry}");
                (name, Some(binder.node))
            }
            _ => return None,
        };
        let nodes = self.survey.nodes.iter().enumerate();
        let lifts = nodes.filter(|(at, lift)| {
            let is_inside = *at < number && number < lift.end;
            let is_between = outside.is_none_or(|outside| *at > outside);
            matches!(*lift.term, Term::Lift(_)) && is_inside && is_between
        });
        let lifts: Vec<usize> = lifts.map(|(at, _)| self.first_term + at).collect();
        let mut shown = lifts.clone();
        shown.extend(outside.map(|node| self.first_term + node));
        let sentences = format!(
            "Entry {place} uses {name}, inside the lift at {}. What is lifted may be run any \
             number of times or never, so it must not use from outside what is to be used \
             once. Let it be an argument of the function that is lifted.",
            entries(&lifts)
        );
        Some((sentences, shown))
    }
}

/// The type of an abstraction, a pair or a lift; that of any other node is no larger than
/// a part's.
fn too_large(place: usize, term: &Term, parts: &[(usize, Rc<Type>)]) -> String {
    let (node, over) = match term {
        Term::Abstraction(over, _) => ("an abstraction", over.size()),
        Term::Pair(..) => ("a pair", 0),
        _ => ("a lift", 0),
    };
    let entries = 1 + over + parts.iter().map(|(_, of)| of.size()).sum::<usize>();
    format!(
        "Entry {place} is {node} whose type would have {entries} entries. No type of a node \
         may have more than {MOST_ENTRIES}, and the check does not go on with a larger one."
    )
}

/// A function or circuit and its argument: what it takes and what it is called, or
/// why it is none.
fn applied(
    is: &str,
    has: &str,
    takes: Result<(&Rc<Type>, &str), &str>,
    parts: &[(usize, Rc<Type>)],
) -> Option<String> {
    let (second, of) = parts.get(1)?;
    let (from, word) = match takes {
        Ok(takes) => takes,
        Err(why) => return Some(format!("{is} of {has}. {why}.")),
    };
    Some(format!(
        "{is} of {has}. The {word} takes {}, and its argument, entry {second}, has type \
         {}.{}",
        type_words(from),
        type_words(of),
        difference(from, of)
    ))
}

fn boxed(is: &str, has: &str, at: &Type, of: &Type) -> String {
    let function = match of {
        Type::Reusable(of) => Some(&**of),
        _ => None,
    };
    let why = match function {
        Some(Type::Function(from, _)) if **from != *at => format!(
            "The function takes {}, and the box is at {}",
            type_words(from),
            type_words(at)
        ),
        Some(Type::Function(_, to)) => format!(
            "The function gives {}, which is no wire type",
            type_words(to)
        ),
        Some(_) => String::from("What is lifted is no function"),
        None => String::from("That is not reusable: what is boxed is lifted first, kind 22"),
    };
    format!(
        "{is} at {} of {has}. {why}. A box at T takes a reusable function from T to wires.",
        type_words(at)
    )
}

/// What else is to be said of two types that differ, where it cannot be seen at once.
fn difference(from: &Type, of: &Type) -> String {
    if wires(from).is_some() && wires(from) == wires(of) {
        return String::from(" The wires are the same: the pairs are nested otherwise.");
    }
    let kinds = from.preorder().into_iter().zip(of.preorder());
    let first = kinds.enumerate().find(|(_, (one, other))| one != other);
    match first.filter(|_| type_words(from) == type_words(of)) {
        Some((at, (one, other))) => {
            let [one, other] = [one, other].map(|kind| kinds::type_word(kind).unwrap_or_default());
            format!(" They differ first in part {at} in preorder: {one} and {other}.")
        }
        None => String::new(),
    }
}

/// The leaves of a wire type, left to right.
fn wires(of: &Type) -> Option<Vec<u8>> {
    let leaves = || {
        let kinds = of.preorder().into_iter();
        kinds.filter(|&kind| kind != kinds::PAIR_TYPE).collect()
    };
    of.is_wire_type().then(leaves)
}
