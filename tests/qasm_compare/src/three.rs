//! What has been seen of CCX in texts.

use comparing::tally::{Seen, Tally};
use listings::sizes::MOST_GATES;
use std::collections::BTreeSet;

/// A line that a text has. Registers are counted from 0.
#[derive(Clone, Copy, PartialEq, Eq, PartialOrd, Ord, Debug)]
enum What {
    /// Imported, the registers in this order.
    Ordered([usize; 3]),
    /// Imported, with as many as there can be.
    Most,
    Fewer,
    More,
    Same(usize, usize),
    NotDeclared(usize),
    OfBit(usize),
    CxOnThree,
    Spaces,
    Capitals,
}

/// The least number of texts with such a line, and of those with the most.
const LEAST: usize = 100;
const LEAST_OF_MOST: usize = 10;

impl Seen for What {
    fn words(self) -> String {
        match self {
            What::Ordered(order) => format!("imported with ccx, its registers in order {order:?}"),
            What::Most => format!("imported with {MOST_GATES} ccx"),
            What::Fewer => "refused with ccx on fewer than three registers".to_string(),
            What::More => "refused with ccx on more than three registers".to_string(),
            What::Same(one, other) => {
                format!("refused with ccx, registers {one} and {other} the same")
            }
            What::NotDeclared(at) => format!("refused with ccx, register {at} not declared"),
            What::OfBit(at) => format!("refused with ccx, register {at} that of a Bit"),
            What::CxOnThree => "refused with cx on three registers".to_string(),
            What::Spaces => "refused with ccx and spaces at a comma".to_string(),
            What::Capitals => "refused with ccx in capitals".to_string(),
        }
    }

    fn wanted() -> Vec<(What, usize)> {
        let mut all = vec![
            What::Fewer,
            What::More,
            What::CxOnThree,
            What::Spaces,
            What::Capitals,
        ];
        for one in 0..3 {
            all.extend([What::NotDeclared(one), What::OfBit(one)]);
            all.extend((0..one).map(|earlier| What::Same(earlier, one)));
            for other in (0..3).filter(|&other| other != one) {
                all.push(What::Ordered([one, other, 3 - one - other]));
            }
        }
        let all = all.into_iter().map(|what| (what, LEAST));
        all.chain([(What::Most, LEAST_OF_MOST)]).collect()
    }
}

#[derive(Default)]
pub struct Three {
    seen: Tally<What>,
}

impl Three {
    /// Counts what a text has, which is imported or refused.
    pub fn count(&mut self, text: &[u8], imported: bool) {
        let Ok(text) = std::str::from_utf8(text) else {
            return;
        };
        let seen = match imported {
            true => in_imported(text),
            false => in_refused(text),
        };
        for what in seen {
            self.seen.add(what);
        }
    }

    pub fn report(&self) {
        self.seen.report();
    }

    /// Fails if too little has been seen.
    pub fn assert(&self) {
        self.seen.assert();
    }
}

/// What stands behind the name of a gate, parted by commas.
fn registers<'a>(line: &'a str, name: &str) -> Option<Vec<&'a str>> {
    let registers = line.strip_prefix(name)?.strip_suffix(';')?;
    Some(registers.split(',').collect())
}

/// The number of a register that is written as it should be.
fn number(register: &str) -> Option<usize> {
    let digits = register.strip_prefix('q')?.strip_suffix("[0]")?;
    digits.parse().ok()
}

fn in_imported(text: &str) -> BTreeSet<What> {
    let mut seen = BTreeSet::new();
    let mut lines = 0;
    for line in text.lines() {
        if let Some(registers) = registers(line, "ccx ") {
            let numbers: Vec<Option<usize>> = registers.into_iter().map(number).collect();
            let below = |at: usize| numbers.iter().filter(|other| **other < numbers[at]).count();
            seen.insert(What::Ordered([below(0), below(1), below(2)]));
            lines += 1;
        }
    }
    seen.extend((lines == MOST_GATES).then_some(What::Most));
    seen
}

fn in_refused(text: &str) -> BTreeSet<What> {
    let mut seen = BTreeSet::new();
    for line in text.lines() {
        if registers(line, "cx ").is_some_and(|registers| registers.len() == 3) {
            seen.insert(What::CxOnThree);
        }
        let capitals = line.get(..3).unwrap_or_default();
        if capitals != "ccx" && capitals.eq_ignore_ascii_case("ccx") {
            seen.insert(What::Capitals);
        }
        let Some(registers) = registers(line, "ccx ") else {
            continue;
        };
        let spaces = |register: &&str| register.trim() != *register;
        seen.extend(registers.iter().any(spaces).then_some(What::Spaces));
        match registers.len() {
            ..3 => drop(seen.insert(What::Fewer)),
            3 => seen.extend(wrong(text, &registers)),
            _ => drop(seen.insert(What::More)),
        }
    }
    seen
}

/// What is wrong with the three registers of a CCX.
fn wrong(text: &str, registers: &[&str]) -> Vec<What> {
    let mut all = Vec::new();
    for (at, register) in registers.iter().enumerate() {
        let earlier = registers[..at].iter().position(|other| other == register);
        all.extend(earlier.map(|earlier| What::Same(earlier, at)));
        if let Some(number) = number(register) {
            let declares = |kind: &str| {
                let line = format!("{kind}{number}[1];");
                text.lines().any(|other| other == line)
            };
            all.extend(match (declares("qreg q"), declares("creg c")) {
                (false, false) => Some(What::NotDeclared(at)),
                (false, true) => Some(What::OfBit(at)),
                _ => None,
            });
        }
    }
    all
}
