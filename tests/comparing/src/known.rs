//! What a program is known to give before it is compared.

use program_files::faults::Broken;
use program_files::{Entries, Refusal, Type};
use programs::broken::{Expected, Spot};
use std::rc::Rc;

#[derive(Clone, PartialEq, Eq, Debug)]
pub enum Known {
    Nothing,
    Accepted,
    /// Well typed, of this type.
    Type(Rc<Type>),
    Number(u8),
    Refused(u8, usize),
}

impl Known {
    pub fn refused(refusal: Refusal) -> Known {
        Known::Refused(refusal.number, refusal.place)
    }

    /// Of a well-typed program that was broken.
    pub fn of_program(expected: Expected, entries: &Entries) -> Known {
        match expected {
            Expected::Anything => Known::Nothing,
            Expected::Number(number) => Known::Number(number),
            Expected::Refused(number, Spot::Label(label)) => Known::Refused(number, label),
            Expected::Refused(number, Spot::Node(node)) => {
                Known::Refused(number, entries.sizes().first_term() + node)
            }
        }
    }

    /// Of a file that was broken.
    pub fn of_file(broken: &Broken) -> Known {
        match broken.place {
            Some(place) => Known::Refused(broken.number, place),
            None => Known::Number(broken.number),
        }
    }

    /// Whether this refusal, or none, is what is known.
    pub fn fits(&self, refusal: Option<&Refusal>) -> bool {
        match (self, refusal) {
            (Known::Nothing, _) | (Known::Accepted | Known::Type(_), None) => true,
            (Known::Number(number), Some(refusal)) => refusal.number == *number,
            (Known::Refused(number, place), Some(refusal)) => {
                (refusal.number, refusal.place) == (*number, *place)
            }
            _ => false,
        }
    }
}
