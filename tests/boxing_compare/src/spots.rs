//! The spots of a program: where an abstraction is lifted, boxed at its type and
//! applied. Each can be written with the box or with the abstraction itself
//! applied, and no variable changes by that, since the same binders stand around.

use program_files::{Program, Term, Type};
use programs::edit::with_parts;
use programs::survey::Survey;
use programs::terms::{abstraction, application, apply, boxed, lift};
use programs::typed::Typed;
use std::rc::Rc;

/// An abstraction and what it is applied to.
#[derive(Clone)]
pub struct Applied {
    pub over: Rc<Type>,
    pub body: Rc<Term>,
    pub argument: Rc<Term>,
}

impl Applied {
    /// Lifted, boxed at its type and then applied.
    pub fn boxed(self) -> Rc<Term> {
        let function = abstraction(self.over.clone(), self.body);
        apply(boxed(self.over, lift(function)), self.argument)
    }

    pub fn unboxed(self) -> Rc<Term> {
        application(abstraction(self.over, self.body), self.argument)
    }
}

/// What is applied at a spot; none if the term is none.
fn applied(term: &Term) -> Option<(&Rc<Type>, &Rc<Term>, &Rc<Term>)> {
    let Term::Apply(circuit, argument) = term else {
        return None;
    };
    let Term::Box(at, part) = &**circuit else {
        return None;
    };
    let Term::Lift(function) = &**part else {
        return None;
    };
    match &**function {
        Term::Abstraction(over, body) if over == at => Some((over, body, argument)),
        _ => None,
    }
}

/// The term with each spot written anew. Spots are numbered in file order; the
/// spots inside one are written before it.
fn written(
    term: &Rc<Term>,
    next: &mut usize,
    write: &mut dyn FnMut(usize, Applied) -> Rc<Term>,
) -> Rc<Term> {
    if let Some((over, body, argument)) = applied(term) {
        let number = *next;
        *next += 1;
        let applied = Applied {
            over: over.clone(),
            body: written(body, next, write),
            argument: written(argument, next, write),
        };
        return write(number, applied);
    }
    let parts = term.parts();
    if parts.is_empty() {
        return term.clone();
    }
    let parts: Vec<Rc<Term>> = parts
        .into_iter()
        .map(|part| written(part, next, write))
        .collect();
    Rc::new(with_parts(term, &parts))
}

/// A program with all its spots boxed, and its type.
pub struct Spotted {
    pub program: Program,
    pub of: Rc<Type>,
    pub spots: Vec<Spot>,
}

pub struct Spot {
    /// No other box holds this copy of the type: by it the box is known in a run.
    pub takes: Rc<Type>,
    pub gives: Rc<Type>,
    /// The body of its abstraction.
    pub body: Rc<Term>,
    /// What stands around it: a let, in whose second part it is, a lift, an
    /// abstraction, the argument of another spot.
    pub in_let: bool,
    pub under_lift: bool,
    pub under_abstraction: bool,
    pub in_argument: bool,
    /// The spots in whose abstraction it stands.
    pub inside: Vec<usize>,
    /// Whether the abstraction uses a variable that is bound around it.
    pub uses_around: bool,
}

impl Spotted {
    pub fn new(typed: &Typed) -> Spotted {
        let term = written(&typed.program.term, &mut 0, &mut |_, applied| {
            let over = Rc::new((*applied.over).clone());
            Applied { over, ..applied }.boxed()
        });
        let program = Program {
            term,
            ..typed.program.clone()
        };
        Spotted {
            spots: surveyed(&program),
            program,
            of: typed.of.clone(),
        }
    }

    /// The program with these spots unboxed.
    pub fn unboxed(&self, unboxed: &[bool]) -> Program {
        self.written(&mut |number, applied| match unboxed[number] {
            true => applied.unboxed(),
            false => applied.boxed(),
        })
    }

    /// The program with each spot written in this way.
    pub fn written(&self, write: &mut dyn FnMut(usize, Applied) -> Rc<Term>) -> Program {
        Program {
            term: written(&self.program.term, &mut 0, write),
            ..self.program.clone()
        }
    }
}

/// The spots of a program in file order.
fn surveyed(program: &Program) -> Vec<Spot> {
    let survey = Survey::new(&program.labels, &program.term);
    let nodes = &survey.nodes;
    let places: Vec<usize> = (0..nodes.len())
        .filter(|&at| applied(&nodes[at].term).is_some())
        .collect();
    // A spot's box follows it, and behind that stands its argument.
    let function = |at: usize| at + 1..nodes[at + 1].end;
    let argument = |at: usize| nodes[at + 1].end..nodes[at].end;
    let spot = |at: usize| {
        let (takes, body, _) = applied(&nodes[at].term).expect("a spot");
        let scope = &nodes[at].scope;
        let binders = || scope.iter().map(|&binder| survey.binders[binder].node);
        let is_let = |node: usize| matches!(*nodes[node].term, Term::Let(..));
        let is_around = |node: usize| {
            let binder = survey.binder(node);
            binder.is_some_and(|binder| scope.contains(&binder))
        };
        Spot {
            takes: takes.clone(),
            gives: nodes[at].of.clone().expect("a well-typed program"),
            body: body.clone(),
            in_let: binders().any(is_let),
            under_lift: nodes[at].lifts > 0,
            under_abstraction: !binders().all(is_let),
            in_argument: places.iter().any(|&other| argument(other).contains(&at)),
            inside: (0..places.len())
                .filter(|&other| function(places[other]).contains(&at))
                .collect(),
            uses_around: function(at).any(is_around),
        }
    };
    places.iter().map(|&at| spot(at)).collect()
}
