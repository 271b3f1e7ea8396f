//! Terms as trees, with circuit constants.

use super::circuits::Boxed;
use program_files::Type;
use std::rc::Rc;

#[derive(Clone, Debug)]
pub enum Form {
    /// Counts the binders between it and its own.
    Variable(usize),
    Label(usize),
    Gate(usize),
    /// A circuit constant.
    Constant(Rc<Boxed>),
    Abstraction(Rc<Term>),
    Application(Rc<Term>, Rc<Term>),
    Pair(Rc<Term>, Rc<Term>),
    Let(Rc<Term>, Rc<Term>),
    Lift(Rc<Term>),
    Force(Rc<Term>),
    Box(Rc<Type>, Rc<Term>),
    Apply(Rc<Term>, Rc<Term>),
    /// The value of unit.
    UnitValue,
}

/// A term, with what follows from its parts.
#[derive(Clone, Debug)]
pub struct Term {
    pub form: Form,
    /// How many nodes it has, a circuit constant counting 1.
    pub nodes: usize,
    pub is_value: bool,
    /// Its variables need at most so many binders around it.
    binders: usize,
}

impl Term {
    pub fn new(form: Form) -> Rc<Term> {
        let parts = || parts_of(&form);
        let nodes = 1 + parts().map(|part| part.nodes).sum::<usize>();
        let is_value = match &form {
            Form::Abstraction(_)
            | Form::Lift(_)
            | Form::Label(_)
            | Form::Gate(_)
            | Form::Constant(_)
            | Form::UnitValue => true,
            Form::Pair(first, second) => first.is_value && second.is_value,
            _ => false,
        };
        let binders = match &form {
            Form::Variable(argument) => argument + 1,
            _ => parts()
                .enumerate()
                .map(|(at, part)| part.binders.saturating_sub(bound_in(&form, at)))
                .max()
                .unwrap_or(0),
        };
        Rc::new(Term {
            form,
            nodes,
            is_value,
            binders,
        })
    }

    /// The term of a program file.
    pub fn of_file(term: &program_files::Term) -> Rc<Term> {
        use program_files::Term as Written;
        let of = |part: &Rc<Written>| Term::of_file(part);
        Term::new(match term {
            Written::Variable(argument) => Form::Variable(usize::from(*argument)),
            Written::Label(number) => Form::Label(usize::from(*number)),
            Written::Gate(number) => Form::Gate(usize::from(*number)),
            Written::Abstraction(_, body) => Form::Abstraction(of(body)),
            Written::Application(first, second) => Form::Application(of(first), of(second)),
            Written::Pair(first, second) => Form::Pair(of(first), of(second)),
            Written::Let(first, second) => Form::Let(of(first), of(second)),
            Written::Lift(part) => Form::Lift(of(part)),
            Written::Force(part) => Form::Force(of(part)),
            Written::Box(at, part) => Form::Box(at.clone(), of(part)),
            Written::Apply(first, second) => Form::Apply(of(first), of(second)),
            Written::UnitValue => Form::UnitValue,
        })
    }

    /// The same node with another part in the place of one.
    pub fn with_part(&self, at: usize, new: Rc<Term>) -> Rc<Term> {
        let mut form = self.form.clone();
        let part = match &mut form {
            Form::Variable(_)
            | Form::Label(_)
            | Form::Gate(_)
            | Form::Constant(_)
            | Form::UnitValue => unreachable!("no parts"),
            Form::Abstraction(part) | Form::Lift(part) | Form::Force(part) | Form::Box(_, part) => {
                part
            }
            Form::Application(first, second)
            | Form::Pair(first, second)
            | Form::Let(first, second)
            | Form::Apply(first, second) => match at {
                0 => first,
                _ => second,
            },
        };
        *part = new;
        Term::new(form)
    }

    /// The body of an abstraction or of a let with these values for its
    /// variables: argument 0 becomes the first of them. Values are closed.
    pub fn with_values(self: &Rc<Term>, values: &[Rc<Term>]) -> Rc<Term> {
        self.substituted(values, 0)
    }

    /// The same under so many binders of its own.
    fn substituted(self: &Rc<Term>, values: &[Rc<Term>], under: usize) -> Rc<Term> {
        if self.binders <= under {
            return self.clone();
        }
        if let Form::Variable(argument) = self.form {
            return values[argument - under].clone();
        }
        let mut term = self.clone();
        for (at, part) in parts_of(&self.form).enumerate() {
            let under = under + bound_in(&self.form, at);
            term = term.with_part(at, part.substituted(values, under));
        }
        term
    }

    /// The labels of a tuple, left to right.
    pub fn labels(&self) -> Vec<usize> {
        match &self.form {
            Form::Label(number) => vec![*number],
            Form::UnitValue => vec![],
            Form::Pair(first, second) => {
                let mut labels = first.labels();
                labels.extend(second.labels());
                labels
            }
            other => panic!("{other:?} is no label tuple"),
        }
    }

    /// The tuple with other labels.
    pub fn relabelled(&self, new: &dyn Fn(usize) -> usize) -> Rc<Term> {
        match &self.form {
            Form::Label(number) => Term::new(Form::Label(new(*number))),
            Form::UnitValue => Term::new(Form::UnitValue),
            Form::Pair(first, second) => {
                Term::new(Form::Pair(first.relabelled(new), second.relabelled(new)))
            }
            other => panic!("{other:?} is no label tuple"),
        }
    }

    /// A tuple of this wire type with these labels, left to right, and with the
    /// value of unit wherever the type has unit.
    pub fn tuple(of: &Type, labels: &mut dyn Iterator<Item = usize>) -> Rc<Term> {
        Term::new(match of {
            Type::Pair(first, second) => {
                let first = Term::tuple(first, labels);
                Form::Pair(first, Term::tuple(second, labels))
            }
            Type::Unit => Form::UnitValue,
            _ => Form::Label(labels.next().expect("a label for each wire")),
        })
    }
}

/// The parts, left to right.
fn parts_of(form: &Form) -> impl Iterator<Item = &Rc<Term>> {
    let parts = match form {
        Form::Variable(_)
        | Form::Label(_)
        | Form::Gate(_)
        | Form::Constant(_)
        | Form::UnitValue => [None, None],
        Form::Abstraction(part) | Form::Lift(part) | Form::Force(part) | Form::Box(_, part) => {
            [Some(part), None]
        }
        Form::Application(first, second)
        | Form::Pair(first, second)
        | Form::Let(first, second)
        | Form::Apply(first, second) => [Some(first), Some(second)],
    };
    parts.into_iter().flatten()
}

/// How many variables a node binds in its part of this number.
fn bound_in(form: &Form, part: usize) -> usize {
    match (form, part) {
        (Form::Abstraction(_), 0) => 1,
        (Form::Let(..), 1) => 2,
        _ => 0,
    }
}
