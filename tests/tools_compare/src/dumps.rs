//! A dump held against the file: every entry in its place with its kind and argument,
//! the depth of each node, what binds each variable, the type of the whole, and the mark.

use pqm::trees::Term;
use pqm::types::written;
use pqm::Refusal;
use pqm_command::dump::LEVELS;
use pqm_command::words::TYPE_ENTRIES;
use program_files::read;

/// A line of an entry, taken apart.
struct Line<'a> {
    is_marked: bool,
    columns: [&'a str; 3],
    level: usize,
    words: &'a str,
}

impl<'a> Line<'a> {
    fn new(line: &'a str) -> Option<Line<'a>> {
        let (mark, rest) = line.split_at_checked(1)?;
        if ![" ", ">"].contains(&mark) || !rest.starts_with(' ') {
            return None;
        }
        let number = rest.get(..6)?.trim();
        let kind = rest.get(8..12)?.trim();
        let argument = rest.get(14..22)?.trim();
        let indented = rest.get(24..)?;
        let words = indented.trim_start();
        let spaces = indented.len() - words.len();
        let (level, words) = match words.strip_prefix('(').and_then(|of| of.split_once(") ")) {
            Some((level, words)) => (level.parse().ok()?, words),
            None => (spaces / 2, words),
        };
        let columns = [number, kind, argument];
        let is_right = spaces == 2 * level.min(LEVELS) && number.parse::<usize>().is_ok();
        is_right.then_some(Line {
            is_marked: mark == ">",
            columns,
            level,
            words,
        })
    }

    /// The words without the type.
    fn untyped(&self) -> &'a str {
        let parts = self.words.split_once(" : ");
        parts.map_or(self.words, |(words, _)| words)
    }
}

/// Why this is no dump of the file, which is refused so or accepted.
pub fn fault(text: &str, file: &[u8], refusal: Option<Refusal>) -> Option<String> {
    let lines: Vec<Line> = text.lines().skip(1).filter_map(Line::new).collect();
    let number = |at: usize| {
        file.get(at..at + 2)
            .map(|of| u16::from_le_bytes([of[0], of[1]]))
    };
    let sizes: Option<Vec<usize>> = [0, 2, 4]
        .map(number)
        .into_iter()
        .map(|of| Some(of?.into()))
        .collect();
    let all: usize = sizes.iter().flatten().sum();
    let present = all.min(file.len().saturating_sub(6));
    if lines.len() != present {
        return Some(format!("{} entries in place of {present}", lines.len()));
    }
    for (entry, line) in lines.iter().enumerate() {
        let argument = number(6 + all + 2 * entry);
        let argument = argument.map_or(String::from("?"), |of| of.to_string());
        let columns = [entry.to_string(), file[6 + entry].to_string(), argument];
        if line.columns != columns {
            return Some(format!("entry {entry}: not {columns:?}"));
        }
    }
    mark_fault(text, &lines, refusal).or_else(|| tree_fault(&lines, file))
}

/// The first fault of the file is marked, and nothing else.
fn mark_fault(text: &str, lines: &[Line], refusal: Option<Refusal>) -> Option<String> {
    let marked = lines.iter().enumerate().filter(|(_, line)| line.is_marked);
    let marked: Vec<usize> = marked.map(|(entry, _)| entry).collect();
    let told = text.lines().filter(|line| line.starts_with("> refused "));
    let told: Vec<&str> = told.collect();
    let place = refusal.filter(|of| of.number >= 4 && of.place < lines.len());
    let place: Vec<usize> = place.map(|of| of.place).into_iter().collect();
    if marked != place {
        return Some(format!("marked are {marked:?}"));
    }
    let has_type = |entry: &usize| lines[*entry].untyped() != lines[*entry].words;
    if refusal.is_some_and(|of| of.number == 16) && place.iter().any(has_type) {
        return Some(String::from("a node whose rule fails has a type"));
    }
    let is_told = match refusal {
        Some(refusal) => matches!(told[..], [line] if line.starts_with(&format!("> {refusal}: "))),
        None => told.is_empty(),
    };
    (!is_told).then(|| format!("told is {told:?}"))
}

/// The nodes of a file that is read, in the order of their entries.
fn tree_fault(lines: &[Line], file: &[u8]) -> Option<String> {
    let read = read(file).ok()?;
    let first = read.sizes.first_term();
    let mut nodes = Vec::new();
    add_nodes(&read.term, 0, &mut Vec::new(), first, &mut nodes);
    for ((entry, line), (level, binder)) in lines.iter().enumerate().skip(first).zip(&nodes) {
        if line.level != *level {
            return Some(format!("entry {entry} is not at level {level}"));
        }
        let is_bound = match binder {
            Some(binder) => line.untyped().ends_with(&format!(", {binder}")),
            None => !line.words.starts_with("variable"),
        };
        if !is_bound {
            return Some(format!("entry {entry}: not {binder:?}"));
        }
    }
    let of = gawipsol::check(file).ok()?;
    let of = format!(" : {}", written(&of, TYPE_ENTRIES));
    (!lines[first].words.ends_with(&of)).then(|| format!("the type is not{of}"))
}

/// The level of each node, and the words for what binds a variable.
fn add_nodes(
    term: &Term,
    level: usize,
    bound: &mut Vec<String>,
    first: usize,
    nodes: &mut Vec<(usize, Option<String>)>,
) {
    let entry = first + nodes.len();
    let binder = match term {
        Term::Variable(argument) => Some(bound[bound.len() - 1 - usize::from(*argument)].clone()),
        _ => None,
    };
    nodes.push((level, binder));
    let outside = bound.len();
    for (at, part) in term.parts().into_iter().enumerate() {
        match (term, at) {
            (Term::Abstraction(..), 0) => bound.push(format!("of the abstraction at {entry}")),
            (Term::Let(..), 1) => {
                for half in ["first", "second"] {
                    bound.push(format!("{half} half of the let at {entry}"));
                }
            }
            _ => {}
        }
        add_nodes(part, level + 1, bound, first, nodes);
        bound.truncate(outside);
    }
}
