//! Texts in OpenQASM: explanations.

use crate::explained;
use comparing::{Counts, Known};
use listings::generate::{valid, Shape};
use pqm::Refusal;
use pqm_command::explain::{explain_file, Sort};
use program_files::Random;
use qasm::{cases, print, CompareTexts};

/// One text in so many is taken.
const OF: usize = 60;

/// So many listings have a space put behind each line of their texts.
const SPACES: usize = 60;

/// So many texts at least.
const LEAST: usize = 10_000;

const REFUSED: Refusal = Refusal {
    number: 27,
    place: 0,
};

pub struct Texts {
    counts: Counts,
    offered: usize,
    lines: usize,
}

pub fn compare() -> Texts {
    let mut texts = Texts {
        counts: Counts::default(),
        offered: 0,
        lines: 0,
    };
    qasm_compare::damage::compare(&mut texts);
    texts.counts.group("texts with a space behind each line");
    for exported in cases::exports() {
        texts.spaces(exported.text.as_bytes());
    }
    let mut random = Random::new(5);
    for _ in 0..SPACES {
        let shape = Shape::any(&mut random, 6, 12).without_helpers();
        texts.spaces(&print(&valid(&mut random, &shape)));
    }
    texts
}

impl Texts {
    pub fn all(&self) -> usize {
        self.counts.all()
    }

    pub fn report(&self) {
        self.counts.report("accepted", [27]);
        println!(
            "{:>9} lines found to be the first that is wrong",
            self.lines
        );
        assert!(self.counts.with(27) >= LEAST, "too few texts");
        assert!(self.lines >= 500, "too few lines");
    }

    fn take(&mut self, text: &[u8]) -> Option<String> {
        let is_refused = gawipsol::import(text).is_err();
        let explanation = explain_file(Sort::Text, text);
        let fault = match is_refused {
            true => explained::fault(&explanation, REFUSED, false),
            false => (!explanation.starts_with("Nothing is refused")).then_some(String::new()),
        };
        if let Some(words) = fault {
            self.counts
                .differs(text, &format!("{words}\n{explanation}"));
        }
        self.counts.count(text, if is_refused { 27 } else { 0 });
        is_refused.then_some(explanation)
    }

    /// No export has a space behind a line, so that line is the first that is wrong.
    fn spaces(&mut self, text: &[u8]) {
        let lines: Vec<&[u8]> = text.split_inclusive(|&byte| byte == b'\n').collect();
        for number in 0..lines.len() {
            let mut damaged = lines[..=number].concat();
            damaged.insert(damaged.len() - 1, b' ');
            damaged.extend(lines[number + 1..].concat());
            let explanation = self.take(&damaged).unwrap_or_default();
            let words = format!("Line {} is the first", number + 1);
            if !explanation.contains(&words) {
                self.counts.differs(&damaged, &explanation);
            }
            self.lines += 1;
        }
    }
}

impl CompareTexts for Texts {
    fn texts_group(&mut self, name: &str) {
        self.counts.group(&format!("texts {name}"));
    }

    fn text(&mut self, text: &[u8], _: &Known) {
        self.offered += 1;
        if self.offered.is_multiple_of(OF) {
            self.take(text);
        }
    }
}
