//! Refusals 1 to 9: the form of a program file.

use super::Explanation;
use crate::dump::Dump;
use crate::file::{File, Section};
use crate::words::{count, entries, numbers, type_words};
use gawipsol::check_listing;
use pqm::entries::{MOST_LABELS, MOST_TERMS, MOST_TYPES};
use pqm::gates::GATES;
use pqm::traversal::Traversal;
use pqm::{kinds, Refusal};

/// The file is refused so.
pub fn explain(bytes: &[u8], Refusal { number, place }: Refusal) -> Explanation {
    let file = File::new(bytes);
    let (sentences, mut shown) = match number {
        1 => (short(&file), vec![]),
        2 => (sizes(&file), vec![]),
        3 => (length(&file), vec![]),
        4 => (kind(&file, place), vec![]),
        5 => (argument(&file, place), vec![]),
        6 => type_runs_out(&file, place),
        7 => no_wire_type(&file, place),
        8 => not_one_term(&file, place),
        _ => no_binder(&file, place),
    };
    if number >= 4 {
        shown.push(place);
    }
    let surroundings = Dump::new(bytes).around(&shown, place);
    Explanation {
        sentences,
        surroundings,
    }
}

/// Files of another sort are told apart by what the library says of them.
fn is_listing(file: &File) -> &'static str {
    match check_listing(file.bytes) {
        Ok(_) => " The bytes are those of a listing, which is accepted as one.",
        Err(_) => "",
    }
}

fn short(file: &File) -> String {
    let bytes = count(file.bytes.len(), "byte", "bytes");
    format!(
        "The file has {bytes}. A program file starts with three sizes of two bytes each, so \
         it has at least 6. Was it written to its end?"
    )
}

fn sizes(file: &File) -> String {
    let sizes = file.sizes;
    let wrong = if sizes.labels > MOST_LABELS {
        format!("{} labels are more than {MOST_LABELS}", sizes.labels)
    } else if sizes.types > MOST_TYPES {
        format!("{} type entries are more than {MOST_TYPES}", sizes.types)
    } else if sizes.terms > MOST_TERMS {
        format!("{} term entries are more than {MOST_TERMS}", sizes.terms)
    } else {
        String::from("there is no term entry, and a program has at least one")
    };
    format!(
        "The first six bytes give the numbers of labels, type entries and term entries, low \
         byte first: {}, {} and {}. That is out of range: {wrong}.{}",
        sizes.labels,
        sizes.types,
        sizes.terms,
        is_listing(file)
    )
}

fn length(file: &File) -> String {
    let (has, needs) = (file.bytes.len(), file.length());
    let wrong = match has.checked_sub(needs) {
        Some(more) => format!("{} too many", count(more, "byte is", "bytes are")),
        None => format!("{} missing", count(needs - has, "byte is", "bytes are")),
    };
    format!(
        "The sizes at the start give {}, and each takes three bytes behind the six of the \
         sizes: {needs} bytes in all. The file has {has}: {wrong}.{}",
        count(file.sizes.all(), "entry", "entries"),
        is_listing(file)
    )
}

fn kind(file: &File, place: usize) -> String {
    let section = file.section(place);
    let kind = file.kind(place).unwrap_or_default();
    let sections = [Section::Labels, Section::Types, Section::Terms];
    let elsewhere = sections
        .into_iter()
        .find_map(|of| Some((of, of.kind_word(kind)?)));
    let is = match elsewhere {
        Some((of, word)) => format!("kind {kind}, which is {word} in the {} section", of.word()),
        None => format!("kind {kind}, which no section has"),
    };
    let allowed = match section {
        Section::Labels => "A label has kind 0, Bit, or 1, Qubit.",
        Section::Types => "The kinds of the type section are 0 to 6.",
        Section::Terms => "The kinds of the term section are 16 to 27.",
    };
    format!(
        "Entry {place} is in the {} section and has {is}. {allowed}",
        section.word()
    )
}

fn argument(file: &File, place: usize) -> String {
    let argument = file.argument(place).unwrap_or_default();
    let why = match (file.section(place), file.kind(place)) {
        (Section::Terms, Some(kinds::LABEL)) => format!(
            "names label {argument}, and the file has {}. Labels are numbered from 0 in the \
             order of the label section",
            numbers(file.sizes.labels, "label", "labels")
        ),
        (Section::Terms, Some(kinds::GATE)) => {
            let names: Vec<&str> = GATES.iter().map(|gate| gate.name).collect();
            format!(
                "names gate {argument}. There are {}: {}",
                numbers(names.len(), "gate", "gates"),
                names.join(", ")
            )
        }
        (Section::Terms, Some(kinds::ABSTRACTION | kinds::BOX)) => format!(
            "has its type at position {argument} of the type section, which has {}. Positions \
             are counted from its first entry",
            numbers(file.sizes.types, "position", "positions")
        ),
        (section, kind) => {
            let word = kind.and_then(|kind| section.kind_word(kind));
            format!(
                "is {} in the {} section, which takes no argument. It must be 0, and it is \
                 {argument}",
                word.unwrap_or("an entry"),
                section.word()
            )
        }
    };
    format!("Entry {place} {why}.")
}

/// Where the entries from this one on end if they are one type or one term, or how many
/// parts they lack; and the entries whose parts are not all there.
fn whole(
    file: &File,
    from: usize,
    to: usize,
    parts: fn(u8) -> Option<usize>,
) -> Result<usize, usize> {
    let mut traversal = Traversal::<()>::default();
    for entry in from..to {
        let kind = file.kind(entry).unwrap_or_default();
        traversal.enter(parts(kind).unwrap_or(0), Vec::new());
        if traversal.is_whole() {
            return Ok(entry + 1);
        }
    }
    Err(traversal.missing())
}

fn type_runs_out(file: &File, place: usize) -> (String, Vec<usize>) {
    let end = file.sizes.first_term();
    let missing = whole(file, place, end, kinds::type_parts);
    let sentences = format!(
        "The type that starts at entry {place} is read in preorder, each entry before its \
         parts: {}. The type section ends at entry {}, and {} missing. Each position must \
         have a whole type, used or not.",
        type_words(file.types_from(place)),
        end.saturating_sub(1),
        count(missing.err().unwrap_or(0), "part is", "parts are")
    );
    (sentences, vec![end.saturating_sub(1)])
}

fn no_wire_type(file: &File, place: usize) -> (String, Vec<usize>) {
    let rule = "Wire types are Bit, Qubit, unit and pairs of wire types";
    if file.section(place) == Section::Types {
        let sentences = format!(
            "Entry {place} is the type {}. Both parts of a Circ must be wire types, since a \
             circuit goes from wires to wires. {rule}.",
            type_words(file.types_from(place))
        );
        return (sentences, vec![]);
    }
    let position = usize::from(file.argument(place).unwrap_or_default());
    let at = file.sizes.labels + position;
    let sentences = format!(
        "Entry {place} is a box at {}, the type at entry {at}, which is no wire type. A box \
         makes a circuit, whose inputs are wires. {rule}.",
        type_words(file.types_from(at))
    );
    (sentences, vec![at])
}

fn not_one_term(file: &File, place: usize) -> (String, Vec<usize>) {
    let (first, end) = (file.sizes.first_term(), file.sizes.all());
    match whole(file, first, end, kinds::term_parts) {
        Err(missing) => {
            let sentences = format!(
                "The term starts at entry {first}, and the file ends behind entry {} before it \
                 is whole: {} missing. Place {place} is the number of all entries.",
                end.saturating_sub(1),
                count(missing, "part is", "parts are")
            );
            (sentences, vec![end.saturating_sub(1)])
        }
        Ok(behind) => {
            let left = count(end - behind, "entry belongs", "entries belong");
            let sentences = format!(
                "The term that starts at entry {first} is whole with entry {}. From entry \
                 {place} on {left} to nothing.",
                behind - 1
            );
            (sentences, vec![behind - 1])
        }
    }
}

fn no_binder(file: &File, place: usize) -> (String, Vec<usize>) {
    let first = file.sizes.first_term();
    let mut traversal = Traversal::default();
    for entry in first..place {
        let kind = file.kind(entry).unwrap_or_default();
        let binds = match kind {
            kinds::ABSTRACTION => vec![entry],
            kinds::LET => vec![entry; 2],
            _ => Vec::new(),
        };
        traversal.enter(kinds::term_parts(kind).unwrap_or(0), binds);
    }
    let argument = usize::from(file.argument(place).unwrap_or_default());
    let bound = traversal.bound();
    let mut binders = bound.to_vec();
    binders.dedup();
    let around = match bound.len() {
        0 => String::from("nothing is bound there"),
        1 => format!("only one variable is bound there, by {}", entries(&binders)),
        more => format!(
            "only {more} variables are bound there, by {}",
            entries(&binders)
        ),
    };
    let sentences = format!(
        "Entry {place} is variable {argument}: it counts {} between itself and its own. But \
         {around}. An abstraction binds one variable, a let two in its second part.",
        count(argument, "binder", "binders")
    );
    (sentences, binders)
}
