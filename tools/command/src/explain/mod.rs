//! What a refusal means where it stands, in two or three sentences, with the entry and
//! its surroundings.

mod form;
mod listings;
mod runs;
mod texts;
mod typing;

use crate::dump::Dump;
use crate::meanings::{meaning, MEANINGS};
use crate::words::{count, wrapped};
use gawipsol::{check, check_listing, export, import, run, LIMIT};
use pqm::Refusal;

/// Sentences are written in lines of so many characters.
const WIDTH: usize = 80;

/// What a file is taken for.
#[derive(Clone, Copy, PartialEq, Eq, Debug)]
pub enum Sort {
    Program,
    Listing,
    /// In OpenQASM.
    Text,
}

impl Sort {
    /// What a file of this name is.
    pub fn of_name(name: &str) -> Sort {
        match name.rsplit_once('.') {
            Some((_, "listing")) => Sort::Listing,
            Some((_, "qasm")) => Sort::Text,
            _ => Sort::Program,
        }
    }

    /// What is refused with this number.
    pub fn of_number(number: u8) -> Sort {
        match number {
            24..=26 | 28 => Sort::Listing,
            27 => Sort::Text,
            _ => Sort::Program,
        }
    }

    fn word(self) -> &'static str {
        match self {
            Sort::Program => "file",
            Sort::Listing => "listing",
            Sort::Text => "text",
        }
    }
}

/// The sentences, and what is shown of the file.
struct Explanation {
    sentences: String,
    surroundings: String,
}

/// What the library says of the file, in words; a refusal is explained. A program is
/// run with the limit of `wirelist`, a listing is exported, a text imported.
pub fn explain_file(sort: Sort, bytes: &[u8]) -> String {
    match answer(sort, bytes) {
        Ok(sentence) => wrapped(&sentence, WIDTH),
        Err(refusal) => explain(bytes, refusal),
    }
}

fn answer(sort: Sort, bytes: &[u8]) -> Result<String, Refusal> {
    match sort {
        Sort::Program => run(bytes, LIMIT).map(|finished| {
            let steps = count(finished.steps as usize, "step", "steps");
            let gates = count(finished.gates, "gate", "gates");
            format!("Nothing is refused: the run finishes after {steps} with {gates}.")
        }),
        Sort::Listing => {
            let text = export(bytes)?.len();
            Ok(format!(
                "Nothing is refused: the listing is accepted, and its text in OpenQASM has \
                 {text} bytes."
            ))
        }
        Sort::Text => {
            let listing = import(bytes)?.len();
            Ok(format!(
                "Nothing is refused: the text is the export of a listing of {listing} bytes."
            ))
        }
    }
}

/// What this refusal of the file means.
pub fn explain(bytes: &[u8], refusal: Refusal) -> String {
    let Refusal { number, place } = refusal;
    let head = format!("{refusal}: {}\n", meaning(number));
    if MEANINGS.iter().all(|(other, _)| *other != number) {
        return head;
    }
    let sort = Sort::of_number(number);
    let explained = match other_answer(bytes, refusal) {
        Some(answer) => Explanation {
            sentences: format!("This {} is not refused so: {answer}", sort.word()),
            surroundings: surroundings(sort, bytes, place),
        },
        None => match number {
            1..=9 => form::explain(bytes, refusal),
            16..=18 => typing::explain(bytes, refusal),
            19..=22 => runs::explain(bytes, number),
            27 => texts::explain(bytes),
            _ => listings::explain(bytes, refusal),
        },
    };
    let sentences = wrapped(&explained.sentences, WIDTH);
    match explained.surroundings.is_empty() {
        true => format!("{head}\n{sentences}"),
        false => format!("{head}\n{sentences}\n{}", explained.surroundings),
    }
}

/// What the library says of the file, if that cannot be this refusal. A run that was
/// refused with 21 or 22 may have had another limit.
fn other_answer(bytes: &[u8], refusal: Refusal) -> Option<String> {
    let found = match refusal.number {
        19 => return None,
        1..=18 => check(bytes).err(),
        20..=22 => run(bytes, LIMIT).err(),
        24..=26 => check_listing(bytes).err(),
        27 => import(bytes).err(),
        _ => export(bytes).err(),
    };
    let number = found.map_or(0, |found| found.number);
    let fits = match refusal.number {
        21 => refusal.place == 0 && matches!(number, 0 | 21 | 22),
        22 => refusal.place == 0 && matches!(number, 21 | 22),
        _ => found == Some(refusal),
    };
    match found {
        _ if fits => None,
        Some(found) => Some(format!("the cabinet's answer is `{found}`.")),
        None => Some(String::from("the cabinet accepts it.")),
    }
}

/// The entry at a place, if there is one, and its neighbours.
fn surroundings(sort: Sort, bytes: &[u8], place: usize) -> String {
    match sort {
        Sort::Program => Dump::new(bytes).around(&[place], place),
        Sort::Listing => listings::around(bytes, &[place], place),
        Sort::Text => String::new(),
    }
}
