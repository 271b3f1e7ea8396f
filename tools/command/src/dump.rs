//! The entries of a program file, one line each, with what they mean: as much as can be
//! read of a damaged file.

use crate::file::{File, Section};
use crate::meanings::meaning;
use crate::words::{around, count, marked, type_words};
use pqm::gates::GATES;
use pqm::read::read;
use pqm::survey::Survey;
use pqm::traversal::Traversal;
use pqm::{kinds, Refusal};

/// So many levels are shown by indentation; deeper ones have their number.
pub const LEVELS: usize = 30;

/// What binds a variable, and where.
#[derive(Clone, Copy)]
enum Binder {
    Abstraction(usize),
    FirstHalf(usize),
    SecondHalf(usize),
}

/// The lines of a file.
pub struct Dump {
    /// Of the whole file.
    pub title: String,
    /// One for each entry that is there.
    pub entries: Vec<String>,
    /// What is missing or left at the end.
    pub end: Option<String>,
    /// The entries at which the sections start.
    starts: [usize; 3],
}

/// The heading of the columns, and those of the sections.
const COLUMNS: &str = "  entry  kind  argument";
const SECTIONS: [&str; 3] = ["labels", "types", "terms"];

impl Dump {
    pub fn new(bytes: &[u8]) -> Dump {
        let file = File::new(bytes);
        let starts = [0, file.sizes.labels, file.sizes.first_term()];
        let mut lines = Lines::new(&file);
        let entries = (0..file.present()).map(|entry| lines.line(entry)).collect();
        Dump {
            title: title(&file),
            entries,
            end: lines.end(),
            starts,
        }
    }

    /// The whole dump, with the first fault marked.
    pub fn text(&self, refusal: Option<Refusal>) -> String {
        let mut text = format!("{}\n", self.title);
        let mut fault =
            refusal.map(|refusal| format!("> {refusal}: {}\n", meaning(refusal.number)));
        // A place is that of an entry from 4 on; 0 stands for the whole file before.
        let place = refusal
            .filter(|refusal| refusal.number >= 4)
            .map(|refusal| refusal.place);
        if place.is_none() {
            text += &fault.take().unwrap_or_default();
        }
        if !self.entries.is_empty() {
            text += &format!("{COLUMNS}\n");
        }
        for (entry, line) in self.entries.iter().enumerate() {
            // A section without entries has no heading.
            if let Some(section) = self.starts.iter().rposition(|start| *start == entry) {
                text += &format!("{}\n", SECTIONS[section]);
            }
            text += &marked(line, place == Some(entry));
            if place == Some(entry) {
                text += &fault.take().unwrap_or_default();
            }
        }
        if let Some(end) = &self.end {
            text += &format!("{end}\n");
        }
        text + &fault.unwrap_or_default()
    }

    /// The lines of these entries and their neighbours, under the heading.
    pub fn around(&self, entries: &[usize], place: usize) -> String {
        let text = around(&self.entries, entries, place);
        match text.is_empty() {
            true => text,
            false => format!("{COLUMNS}\n{text}"),
        }
    }
}

fn title(file: &File) -> String {
    let bytes = count(file.bytes.len(), "byte", "bytes");
    if file.bytes.is_empty() {
        return bytes;
    }
    if file.is_short() {
        let hex = file.bytes.iter().map(|byte| format!(" {byte:02X}"));
        return format!("{bytes}:{}", hex.collect::<String>());
    }
    format!(
        "{bytes}: {}, {}, {}",
        count(file.sizes.labels, "label", "labels"),
        count(file.sizes.types, "type entry", "type entries"),
        count(file.sizes.terms, "term entry", "term entries")
    )
}

struct Lines<'a> {
    file: &'a File<'a>,
    /// The types of all nodes, if the file is read.
    survey: Option<Survey>,
    /// The type and the term in which the next entry stands.
    in_type: Traversal<()>,
    in_term: Traversal<Binder>,
}

impl<'a> Lines<'a> {
    fn new(file: &'a File<'a>) -> Lines<'a> {
        let read = read(file.bytes).ok();
        Lines {
            file,
            survey: read.map(|read| Survey::new(&read.labels, &read.term)),
            in_type: Traversal::default(),
            in_term: Traversal::default(),
        }
    }

    /// The entries are taken one after another.
    fn line(&mut self, entry: usize) -> String {
        let kind = self.file.kind(entry).unwrap_or_default();
        let argument = self.file.argument(entry);
        let (level, words) = match self.file.section(entry) {
            Section::Labels => (0, self.label(entry, kind)),
            Section::Types => self.of_type(entry, kind),
            Section::Terms => self.of_term(entry, kind),
        };
        let argument = argument.map_or(String::from("?"), |argument| argument.to_string());
        let indent = "  ".repeat(level.min(LEVELS));
        let level = match level > LEVELS {
            true => format!("({level}) "),
            false => String::new(),
        };
        format!("{entry:>5}  {kind:>4}  {argument:>8}  {indent}{level}{words}")
    }

    fn label(&self, entry: usize, kind: u8) -> String {
        match Section::Labels.kind_word(kind) {
            Some(word) => format!("label {entry}: {word}"),
            None => no_kind(Section::Labels, kind),
        }
    }

    fn of_type(&mut self, entry: usize, kind: u8) -> (usize, String) {
        if self.in_type.is_whole() {
            self.in_type = Traversal::default();
        }
        let level = self.in_type.depth();
        let parts = kinds::type_parts(kind).unwrap_or(0);
        self.in_type.enter(parts, Vec::new());
        let words = match Section::Types.kind_word(kind) {
            Some(word) if parts > 0 => format!("{word}: {}", self.written(entry)),
            Some(word) => word.to_string(),
            None => no_kind(Section::Types, kind),
        };
        (level, words)
    }

    /// The type that starts at an entry.
    fn written(&self, entry: usize) -> String {
        type_words(self.file.types_from(entry))
    }

    fn of_term(&mut self, entry: usize, kind: u8) -> (usize, String) {
        let words = self.term_words(entry, kind);
        if self.in_term.is_whole() {
            return (0, format!("{words}, left over"));
        }
        let level = self.in_term.depth();
        let binds = match kind {
            kinds::ABSTRACTION => vec![Binder::Abstraction(entry)],
            kinds::LET => vec![Binder::FirstHalf(entry), Binder::SecondHalf(entry)],
            _ => Vec::new(),
        };
        let parts = kinds::term_parts(kind).unwrap_or(0);
        self.in_term.enter(parts, binds);
        (level, words + &self.node_type(entry))
    }

    /// The type of a node, where it has one.
    fn node_type(&self, entry: usize) -> String {
        let first = self.file.sizes.first_term();
        let nodes = self.survey.as_ref().map(|survey| &survey.nodes);
        let node = nodes.and_then(|nodes| nodes.get(entry - first));
        match node.and_then(|node| node.of.as_ref()) {
            Some(of) => format!(" : {}", type_words(&of.preorder())),
            None => String::new(),
        }
    }

    fn term_words(&self, entry: usize, kind: u8) -> String {
        let Some(word) = Section::Terms.kind_word(kind) else {
            return no_kind(Section::Terms, kind);
        };
        let Some(argument) = self.file.argument(entry).map(usize::from) else {
            return word.to_string();
        };
        match kind {
            kinds::VARIABLE => format!("variable {argument}, {}", self.binder(argument)),
            kinds::LABEL => format!("label {argument}"),
            kinds::GATE => match GATES.get(argument) {
                Some(gate) => format!("gate {}", gate.name),
                None => format!("gate {argument}, which there is not"),
            },
            kinds::ABSTRACTION => format!("abstraction over {}", self.type_at(argument)),
            kinds::BOX => format!("box at {}", self.type_at(argument)),
            _ => word.to_string(),
        }
    }

    fn binder(&self, argument: usize) -> String {
        let bound = self.in_term.bound();
        let at = bound.len().checked_sub(argument + 1);
        match at.map(|at| bound[at]) {
            Some(Binder::Abstraction(entry)) => format!("of the abstraction at {entry}"),
            Some(Binder::FirstHalf(entry)) => format!("first half of the let at {entry}"),
            Some(Binder::SecondHalf(entry)) => format!("second half of the let at {entry}"),
            None => String::from("which nothing binds"),
        }
    }

    /// The type at a position, and its entry.
    fn type_at(&self, position: usize) -> String {
        if position >= self.file.sizes.types {
            return format!("type position {position}, which there is not");
        }
        let entry = self.file.sizes.labels + position;
        format!("{} (entry {entry})", self.written(entry))
    }

    /// What is missing or left at the end.
    fn end(&self) -> Option<String> {
        let file = self.file;
        if file.is_short() {
            return None;
        }
        let missing = file.sizes.all() - file.present();
        if missing > 0 {
            return Some(count(missing, "entry is missing", "entries are missing"));
        }
        let parts = self.in_term.missing();
        match file.bytes.len().checked_sub(file.length()) {
            None => Some(String::from("arguments are missing")),
            Some(0) if parts > 0 => Some(count(parts, "part is missing", "parts are missing")),
            Some(0) => None,
            Some(more) => Some(count(more, "byte is left over", "bytes are left over")),
        }
    }
}

fn no_kind(section: Section, kind: u8) -> String {
    format!("kind {kind}, which no {} has", section.word())
}
