//! The run of a program file: reading, checking, and then step by step.

use super::answer::{refused, Answer};
use super::configurations::Configuration;
use super::listing::listing;
use super::terms::Term;
use program_files::{read, Refusal, Type, Wire};
use programs::check::check_read;
use std::rc::Rc;

/// A program that can be run.
pub struct Prepared {
    pub labels: Vec<Wire>,
    pub term: Rc<Term>,
    /// A wire type.
    pub of: Rc<Type>,
}

/// Reads and checks a program file. 20: the type is no wire type.
pub fn prepare(file: &[u8]) -> Result<Prepared, Refusal> {
    let read = read(file)?;
    let of = check_read(&read).0?;
    if !of.is_wire_type() {
        return Err(Refusal {
            number: 20,
            place: 0,
        });
    }
    Ok(Prepared {
        labels: read.labels,
        term: Term::of_file(&read.term),
        of,
    })
}

/// The answer for a program file and a step limit.
pub fn run(file: &[u8], limit: u32) -> Answer {
    match prepare(file) {
        Ok(prepared) => prepared.run(limit),
        Err(refusal) => Answer::Refused(refusal),
    }
}

impl Prepared {
    pub fn start(&self) -> Configuration {
        Configuration::start(&self.labels, &self.term)
    }

    pub fn run(&self, limit: u32) -> Answer {
        self.run_seen(limit, &mut |_| {})
    }

    /// The run, with each configuration shown that it comes to.
    pub fn run_seen(&self, limit: u32, see: &mut dyn FnMut(&Configuration)) -> Answer {
        let mut now = self.start();
        let mut steps = 0;
        loop {
            see(&now);
            if now.is_finished() {
                return finished(&now, steps);
            }
            if steps == limit {
                return refused(21);
            }
            now = now.next();
            if !now.fits() {
                return refused(22);
            }
            steps += 1;
        }
    }
}

fn finished(configuration: &Configuration, steps: u32) -> Answer {
    let frame = configuration.innermost();
    Answer::Finished {
        steps,
        gates: frame.circuit.gates.len(),
        listing: listing(&frame.circuit, &frame.term.labels()),
    }
}
