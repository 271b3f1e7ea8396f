//! What an explanation must have.

use pqm::trees::Term;
use pqm::Refusal;
use pqm_command::explain::explain;
use pqm_command::meanings::MEANINGS;
use program_files::{read, Random};
use programs::edit::binds;

/// Why this is no explanation of the refusal of this file. `marks` says whether the
/// entry at the place is shown.
pub fn fault(explanation: &str, refusal: Refusal, marks: bool) -> Option<String> {
    let Refusal { number, place } = refusal;
    let parts: Vec<&str> = explanation.split("\n\n").collect();
    let head = format!("{refusal}: ");
    let marked = explanation.lines().filter(|line| line.starts_with("> "));
    let marked: Vec<&str> = marked.collect();
    let words = |of: &str| {
        of.split_whitespace()
            .nth(1)
            .and_then(|word| word.parse().ok())
    };
    if !explanation.starts_with(&head) || parts.len() < 2 {
        Some(String::from("no head or no sentences"))
    } else if parts[1].split_whitespace().count() < 5 {
        Some(format!("too few words: {}", parts[1]))
    } else if explanation.contains("not refused so") {
        Some(String::from(
            "the refusal is not taken for that of the file",
        ))
    } else if marks && (marked.len() != 1 || words(marked[0]) != Some(place)) {
        Some(format!("entry {place} is not the one that is marked"))
    } else if number == 16 && !parts[1].contains(&format!("Entry {place} is a")) {
        Some(format!("entry {place} is not named"))
    } else {
        None
    }
}

/// Why an explanation of 17 does not say how often a label or a variable is used.
pub fn use_fault(explanation: &str, file: &[u8], place: usize) -> Option<String> {
    let read = read(file).ok()?;
    let mut uses = Vec::new();
    match place < read.labels.len() {
        true => uses.push(label_uses(&read.term, place as u16)),
        false => {
            let first = read.sizes.first_term();
            binder_uses(
                &read.term,
                &mut Vec::new(),
                &mut first.clone(),
                place,
                &mut uses,
            );
        }
    }
    let said = |uses: &usize| {
        let words = match uses {
            0 => String::from("is never used"),
            1 => return false,
            2 => String::from("is used twice, at"),
            more => format!("is used {more} times, at"),
        };
        explanation.replace('\n', " ").contains(&words)
    };
    (!uses.iter().any(said)).then(|| format!("used {uses:?} times"))
}

fn label_uses(term: &Term, label: u16) -> usize {
    let parts = term.parts().into_iter().map(|part| label_uses(part, label));
    usize::from(*term == Term::Label(label)) + parts.sum::<usize>()
}

/// Counts the uses of what the entry at a place binds. In scope are the binders'
/// entries; `next` is the entry of the term, and then of what follows it.
fn binder_uses(
    term: &Term,
    scope: &mut Vec<(usize, usize)>,
    next: &mut usize,
    place: usize,
    uses: &mut Vec<usize>,
) {
    let here = *next;
    *next += 1;
    if let Term::Variable(argument) = term {
        let (entry, half) = scope[scope.len() - 1 - usize::from(*argument)];
        if entry == place {
            uses[half] += 1;
        }
    }
    for (at, part) in term.parts().into_iter().enumerate() {
        let count = binds(term, at);
        scope.extend((0..count).map(|half| (here, half)));
        if here == place {
            uses.resize(count, 0);
        }
        binder_uses(part, scope, next, place, uses);
        scope.truncate(scope.len() - count);
    }
}

/// Any number and any place, small or large: an answer comes, whatever it is.
pub fn any(random: &mut Random, bytes: &[u8]) -> String {
    let number = match random.below(8) {
        0 => random.byte(),
        _ => MEANINGS[random.below(MEANINGS.len())].0,
    };
    let place = match random.below(4) {
        0 => random.draw() as usize,
        1 => 0,
        _ => random.below(40),
    };
    explain(bytes, Refusal { number, place })
}
