//! The typing rules, as derivations on trees. A context holds the linear
//! variables and the labels. At a split each of them goes to exactly one part;
//! variables that may be copied and dropped go to both.

use crate::sets::Set;
pub use pqm::types::{copyable, MOST_ENTRIES};
use program_files::{Term, Type, Wire, GATES};
use std::rc::Rc;

/// Which of the rules hold.
#[derive(Clone, Copy, PartialEq, Eq, Debug)]
pub enum Rules {
    /// Every variable and every label may be copied and dropped.
    Types,
    /// A lift may take linear variables and labels from outside.
    Uses,
    All,
}

/// To which part a linear variable or a label goes at a split.
#[derive(Clone, Copy, PartialEq, Eq, Debug)]
pub enum Sharing {
    /// To the part in which it is free. A part whose context holds more or
    /// fewer than those has no derivation.
    Free,
    /// To either part: every way to share is tried.
    Every,
}

/// The type that has a derivation, or the refusal's number: 16 if there is
/// none even where all may be copied and dropped, 17 if there is none even
/// where a lift may take linear uses, else 18.
pub fn verdict(labels: &[Wire], term: &Term, sharing: Sharing) -> Result<Rc<Type>, u8> {
    let with = |rules| derive(labels, term, rules, sharing);
    if let Some(of) = with(Rules::All) {
        Ok(of)
    } else if with(Rules::Types).is_none() {
        Err(16)
    } else if with(Rules::Uses).is_none() {
        Err(17)
    } else {
        Err(18)
    }
}

/// The type of a closed term with exactly these labels; none if it has no
/// derivation.
pub fn derive(labels: &[Wire], term: &Term, rules: Rules, sharing: Sharing) -> Option<Rc<Type>> {
    let mut context = Context::default();
    if rules != Rules::Types {
        context.labels = Set::below(labels.len());
    }
    let mut derivation = Derivation {
        rules,
        sharing,
        labels,
        scope: Vec::new(),
    };
    derivation.node(&Node::new(term, 0), &context)
}

/// A term with the variables and labels that are free in it, and so its parts.
/// A variable is named by the number of binders outside its own.
struct Node<'a> {
    term: &'a Term,
    variables: Set,
    labels: Set,
    parts: Vec<Node<'a>>,
}

impl<'a> Node<'a> {
    fn new(term: &'a Term, binders: usize) -> Node<'a> {
        let parts = match term {
            Term::Abstraction(_, body) => vec![Node::new(body, binders + 1)],
            Term::Let(first, second) => {
                vec![Node::new(first, binders), Node::new(second, binders + 2)]
            }
            other => {
                let parts = other.parts();
                parts
                    .into_iter()
                    .map(|part| Node::new(part, binders))
                    .collect()
            }
        };
        let mut variables = Set::new();
        let mut labels = Set::new();
        for part in &parts {
            variables.add(&part.variables);
            labels.add(&part.labels);
        }
        match term {
            Term::Variable(argument) => variables.insert(binders - 1 - usize::from(*argument)),
            Term::Label(number) => labels.insert(usize::from(*number)),
            Term::Abstraction(..) => variables.remove(binders),
            Term::Let(..) => {
                variables.remove(binders + 1);
                variables.remove(binders);
            }
            _ => {}
        }
        Node {
            term,
            variables,
            labels,
            parts,
        }
    }
}

#[derive(Clone, Default)]
struct Context {
    variables: Set,
    labels: Set,
}

impl Context {
    fn is_empty(&self) -> bool {
        self.variables.is_empty() && self.labels.is_empty()
    }

    /// The one way to share that gives each part what is free in it.
    fn by_free(&self, first: &Node, second: &Node) -> Option<(Context, Context)> {
        let to = |part: &Node| Context {
            variables: self.variables.both(&part.variables),
            labels: self.labels.both(&part.labels),
        };
        let (first, second) = (to(first), to(second));
        let once = |all: &Set, first: &Set, second: &Set| {
            let mut either = first.clone();
            either.add(second);
            first.both(second).is_empty() && either == *all
        };
        let fits = once(&self.variables, &first.variables, &second.variables)
            && once(&self.labels, &first.labels, &second.labels);
        fits.then_some((first, second))
    }

    /// Every way to share.
    fn every(&self) -> Vec<(Context, Context)> {
        let mut ways = vec![(Context::default(), Context::default())];
        for variable in self.variables.members() {
            ways = either_part(ways, |context| context.variables.insert(variable));
        }
        for label in self.labels.members() {
            ways = either_part(ways, |context| context.labels.insert(label));
        }
        ways
    }
}

/// Each way twice: with one more in the first part, and in the second.
fn either_part(
    ways: Vec<(Context, Context)>,
    insert: impl Fn(&mut Context),
) -> Vec<(Context, Context)> {
    let mut more = Vec::with_capacity(2 * ways.len());
    for (mut first, mut second) in ways {
        let (old_first, old_second) = (first.clone(), second.clone());
        insert(&mut first);
        more.push((first, old_second));
        insert(&mut second);
        more.push((old_first, second));
    }
    more
}

struct Derivation<'a> {
    rules: Rules,
    sharing: Sharing,
    labels: &'a [Wire],
    /// The types of the variables in scope, outermost first.
    scope: Vec<Rc<Type>>,
}

impl Derivation<'_> {
    fn node(&mut self, node: &Node, context: &Context) -> Option<Rc<Type>> {
        match node.term {
            Term::Variable(argument) => {
                let variable = self.scope.len() - 1 - usize::from(*argument);
                let of = self.scope[variable].clone();
                let alone = if self.is_linear(&of) {
                    context.variables.is_only(variable) && context.labels.is_empty()
                } else {
                    context.is_empty()
                };
                alone.then_some(of)
            }
            Term::Label(number) => {
                let number = usize::from(*number);
                let alone = if self.rules == Rules::Types {
                    context.is_empty()
                } else {
                    context.labels.is_only(number) && context.variables.is_empty()
                };
                alone.then(|| self.labels[number].as_type())
            }
            Term::Gate(number) => context
                .is_empty()
                .then(|| GATES[usize::from(*number)].circuit_type()),
            Term::UnitValue => context.is_empty().then(|| Rc::new(Type::Unit)),
            Term::Abstraction(over, _) => {
                let to = self.under(&node.parts[0], context.clone(), &[over])?;
                within(Type::Function(over.clone(), to))
            }
            Term::Lift(_) => {
                if self.rules == Rules::All && !context.is_empty() {
                    return None;
                }
                within(Type::Reusable(self.node(&node.parts[0], context)?))
            }
            Term::Force(_) => match &*self.node(&node.parts[0], context)? {
                Type::Reusable(of) => Some(of.clone()),
                _ => None,
            },
            Term::Box(at, _) => {
                let of = self.node(&node.parts[0], context)?;
                let Type::Reusable(function) = &*of else {
                    return None;
                };
                let Type::Function(from, to) = &**function else {
                    return None;
                };
                let fits = from == at && from.is_wire_type() && to.is_wire_type();
                let circuit = Type::Circuit(from.clone(), to.clone());
                fits.then(|| within(circuit)).flatten()
            }
            Term::Application(..) | Term::Pair(..) | Term::Let(..) | Term::Apply(..) => {
                let ways = match self.sharing {
                    Sharing::Free => context
                        .by_free(&node.parts[0], &node.parts[1])
                        .into_iter()
                        .collect(),
                    Sharing::Every => context.every(),
                };
                ways.into_iter()
                    .find_map(|(first, second)| self.two_parts(node, &first, second))
            }
        }
    }

    fn two_parts(&mut self, node: &Node, first: &Context, second: Context) -> Option<Rc<Type>> {
        let left = self.node(&node.parts[0], first)?;
        if let Term::Let(..) = node.term {
            let Type::Pair(half, other) = &*left else {
                return None;
            };
            return self.under(&node.parts[1], second, &[half, other]);
        }
        let right = self.node(&node.parts[1], &second)?;
        match (node.term, &*left) {
            (Term::Pair(..), _) => within(Type::Pair(left, right)),
            (Term::Application(..), Type::Function(from, to))
            | (Term::Apply(..), Type::Circuit(from, to)) => (*from == right).then(|| to.clone()),
            _ => None,
        }
    }

    /// A part under binders of these types.
    fn under(
        &mut self,
        part: &Node,
        mut context: Context,
        binders: &[&Rc<Type>],
    ) -> Option<Rc<Type>> {
        let outside = self.scope.len();
        for &of in binders {
            if self.is_linear(of) {
                context.variables.insert(self.scope.len());
            }
            self.scope.push(of.clone());
        }
        let of = self.node(part, &context);
        self.scope.truncate(outside);
        of
    }

    fn is_linear(&self, of: &Type) -> bool {
        self.rules != Rules::Types && !copyable(of)
    }
}

fn within(of: Type) -> Option<Rc<Type>> {
    (of.size() <= MOST_ENTRIES).then(|| Rc::new(of))
}
