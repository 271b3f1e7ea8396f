//! Programs as an example: how they are built, their files, their listings and,
//! where they have one, their texts in OpenQASM.

mod added;
mod corrected;
mod programs;

pub use added::is_added;
pub use corrected::is_corrected;

use evaluator::text::{text, LIMIT};
use evaluator::Answer;
use pqm::{Named, Refusal, Wire};

pub struct Example {
    pub name: &'static str,
    /// The program file.
    pub file: Vec<u8>,
    /// The lines that `wirelist` prints.
    pub lines: String,
    pub listing: Vec<u8>,
    /// Its text in OpenQASM; none with Init or Discard, which have no word there.
    pub text: Option<Vec<u8>>,
}

pub fn examples() -> Vec<Example> {
    let all = programs::all().into_iter();
    all.map(|(name, inputs, term)| built(name, inputs, term))
        .collect()
}

/// The adder with boxes inside boxes in the place of CCX. It is no file.
pub fn adder_without_ccx() -> Example {
    let (inputs, term) = programs::adder_without_ccx();
    built("the adder without CCX", inputs, term)
}

fn built(name: &'static str, inputs: usize, term: Named) -> Example {
    let file = pqm::file(&vec![Wire::Qubit; inputs], term).expect(name);
    let answer = evaluator::run(&file, LIMIT);
    let lines = text(&answer);
    let Answer::Finished { listing, .. } = answer else {
        panic!("{name} does not finish");
    };
    let text = match qasm::export(&listing) {
        Ok(text) => Some(text),
        Err(Refusal { number: 28, .. }) => None,
        Err(refusal) => panic!("the listing of {name} is refused: {refusal:?}"),
    };
    Example {
        name,
        file,
        lines,
        listing,
        text,
    }
}
