//! Sentences and lines from parts.

use pqm::types::written;

/// So many entries of a type are written.
pub const TYPE_ENTRIES: usize = 32;

/// So far from a line its neighbours are shown.
const NEAR: usize = 2;

/// The type that these kinds start with in preorder, as people write it.
pub fn type_words(preorder: &[u8]) -> String {
    written(preorder, TYPE_ENTRIES)
}

/// A number of things: the word for one, or that for more.
pub fn count(number: usize, one: &str, more: &str) -> String {
    match number {
        1 => format!("1 {one}"),
        _ => format!("{number} {more}"),
    }
}

/// So many entries are named one by one.
pub const NAMED: usize = 8;

/// Entries by their numbers: `entry 4`, `entries 4 and 7`.
pub fn entries(numbers: &[usize]) -> String {
    let named = numbers.iter().take(NAMED);
    let mut words: Vec<String> = named.map(usize::to_string).collect();
    if numbers.len() > NAMED {
        words.push(format!("{} more", numbers.len() - NAMED));
    }
    match words.split_last() {
        None => String::from("no entry"),
        Some((only, [])) => format!("entry {only}"),
        Some((last, others)) => format!("entries {} and {last}", others.join(", ")),
    }
}

/// The numbers of so many things: `no wire`, `wire 0 alone`, `wires 0 to 4`.
pub fn numbers(count: usize, one: &str, more: &str) -> String {
    match count {
        0 => format!("no {one}"),
        1 => format!("{one} 0 alone"),
        _ => format!("{more} 0 to {}", count - 1),
    }
}

/// How often, and where.
pub fn used(users: &[usize]) -> String {
    match users.len() {
        0 => String::from("is never used"),
        1 => format!("is used once, at {}", entries(users)),
        2 => format!("is used twice, at {}", entries(users)),
        more => format!("is used {more} times, at {}", entries(users)),
    }
}

/// The words in lines of at most so many characters where that is possible.
pub fn wrapped(text: &str, width: usize) -> String {
    let mut lines = String::new();
    let mut used = 0;
    for word in text.split_whitespace() {
        let length = word.chars().count();
        if used > 0 && used + 1 + length > width {
            lines.push('\n');
            used = 0;
        }
        if used > 0 {
            lines.push(' ');
            used += 1;
        }
        lines.push_str(word);
        used += length;
    }
    lines + "\n"
}

/// A line, marked or not.
pub fn marked(line: &str, is_marked: bool) -> String {
    let mark = if is_marked { '>' } else { ' ' };
    format!("{mark} {line}\n")
}

/// The lines with these numbers and their neighbours, the one at the place marked; an
/// ellipsis stands for others.
pub fn around(lines: &[String], numbers: &[usize], place: usize) -> String {
    let is_near = |number: usize| numbers.iter().any(|of| of.abs_diff(number) <= NEAR);
    let mut text = String::new();
    let mut was_near = true;
    for (number, line) in lines.iter().enumerate() {
        if is_near(number) {
            text += &marked(line, number == place);
        } else if was_near {
            text += "      …\n";
        }
        was_near = is_near(number);
    }
    match lines.iter().enumerate().any(|(number, _)| is_near(number)) {
        true => text,
        false => String::new(),
    }
}
