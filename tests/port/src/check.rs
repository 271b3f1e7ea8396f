//! The check: types from the leaves up, with a count of uses for each
//! variable and label.

use program_files::{Accepted, Refusal, Term, Type, GATES};
use std::rc::Rc;

/// No type of a node may exceed so many entries.
const MOST_ENTRIES: usize = 512;

struct Variable {
    of: Rc<Type>,
    /// The entry that binds it.
    place: usize,
    lifts: usize,
    uses: usize,
}

/// The first place of 16 ends the check.
struct Fault(usize);

struct Check<'a> {
    read: &'a Accepted,
    label_uses: Vec<usize>,
    scope: Vec<Variable>,
    lifts: usize,
    /// The number of the next entry.
    next: usize,
    /// The first places of 17 and 18.
    not_once: Option<usize>,
    in_lift: Option<usize>,
}

/// The type, or the refusal 16, 17 or 18 with its first place.
pub fn check(read: &Accepted) -> Result<Rc<Type>, Refusal> {
    let mut check = Check {
        read,
        label_uses: vec![0; read.labels.len()],
        scope: Vec::new(),
        lifts: 0,
        next: read.sizes.first_term(),
        not_once: None,
        in_lift: None,
    };
    let of = check
        .term(&read.term)
        .map_err(|Fault(place)| Refusal { number: 16, place })?;
    let label = check.label_uses.iter().position(|&uses| uses != 1);
    if let Some(place) = label.or(check.not_once) {
        return Err(Refusal { number: 17, place });
    }
    match check.in_lift {
        Some(place) => Err(Refusal { number: 18, place }),
        None => Ok(of),
    }
}

/// Whether a part that is no pair has a wire or is a function.
fn is_linear(of: &Type) -> bool {
    let mut left = vec![of];
    while let Some(of) = left.pop() {
        match of {
            Type::Pair(first, second) => left.extend([&**first, &**second]),
            Type::Bit | Type::Qubit | Type::Function(..) => return true,
            Type::Reusable(_) | Type::Circuit(..) | Type::Unit => {}
        }
    }
    false
}

/// The earlier of two places.
fn first(one: Option<usize>, other: usize) -> Option<usize> {
    Some(one.map_or(other, |one| one.min(other)))
}

impl Check<'_> {
    fn term(&mut self, term: &Term) -> Result<Rc<Type>, Fault> {
        let here = self.next;
        self.next += 1;
        match term {
            Term::Variable(argument) => {
                let at = self.scope.len() - 1 - usize::from(*argument);
                let variable = &mut self.scope[at];
                variable.uses += 1;
                if is_linear(&variable.of) && self.lifts > variable.lifts {
                    self.in_lift = first(self.in_lift, here);
                }
                Ok(variable.of.clone())
            }
            Term::Label(number) => {
                let number = usize::from(*number);
                self.label_uses[number] += 1;
                if self.lifts > 0 {
                    self.in_lift = first(self.in_lift, here);
                }
                Ok(self.read.labels[number].as_type())
            }
            Term::Gate(number) => Ok(GATES[usize::from(*number)].circuit_type()),
            Term::UnitValue => Ok(Rc::new(Type::Unit)),
            Term::Abstraction(over, body) => {
                let to = self.under(here, &[over], body)?;
                within(here, Type::Function(over.clone(), to))
            }
            Term::Lift(part) => {
                self.lifts += 1;
                let of = self.term(part)?;
                self.lifts -= 1;
                within(here, Type::Reusable(of))
            }
            Term::Force(part) => match &*self.term(part)? {
                Type::Reusable(of) => Ok(of.clone()),
                _ => Err(Fault(here)),
            },
            Term::Box(at, part) => {
                let of = self.term(part)?;
                let Type::Reusable(function) = &*of else {
                    return Err(Fault(here));
                };
                match &**function {
                    Type::Function(from, to) if from == at && to.is_wire_type() => {
                        within(here, Type::Circuit(from.clone(), to.clone()))
                    }
                    _ => Err(Fault(here)),
                }
            }
            Term::Let(pair, body) => {
                let of = self.term(pair)?;
                match &*of {
                    Type::Pair(half, other) => self.under(here, &[half, other], body),
                    _ => Err(Fault(here)),
                }
            }
            Term::Pair(half, other) => {
                let half = self.term(half)?;
                let other = self.term(other)?;
                within(here, Type::Pair(half, other))
            }
            Term::Application(function, argument) => {
                let function = self.term(function)?;
                let argument = self.term(argument)?;
                match &*function {
                    Type::Function(from, to) if *from == argument => Ok(to.clone()),
                    _ => Err(Fault(here)),
                }
            }
            Term::Apply(circuit, argument) => {
                let circuit = self.term(circuit)?;
                let argument = self.term(argument)?;
                match &*circuit {
                    Type::Circuit(from, to) if *from == argument => Ok(to.clone()),
                    _ => Err(Fault(here)),
                }
            }
        }
    }

    /// A body under binders of these types.
    fn under(&mut self, place: usize, over: &[&Rc<Type>], body: &Term) -> Result<Rc<Type>, Fault> {
        for &of in over {
            self.scope.push(Variable {
                of: of.clone(),
                place,
                lifts: self.lifts,
                uses: 0,
            });
        }
        let of = self.term(body)?;
        for _ in over {
            let variable = self.scope.pop().expect("a binder");
            if is_linear(&variable.of) && variable.uses != 1 {
                self.not_once = first(self.not_once, variable.place);
            }
        }
        Ok(of)
    }
}

fn within(place: usize, of: Type) -> Result<Rc<Type>, Fault> {
    match of.size() <= MOST_ENTRIES {
        true => Ok(Rc::new(of)),
        false => Err(Fault(place)),
    }
}
