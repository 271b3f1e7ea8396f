//! A drawing read back and held against its listing.

use listings::Listing;
use program_files::{Gate, Wire};
use std::collections::BTreeSet;

/// The characters of a row.
type Row = Vec<char>;

fn wire_char(of: Option<Wire>) -> char {
    match of {
        Some(Wire::Qubit) => '─',
        Some(Wire::Bit) => '═',
        None => ' ',
    }
}

/// What goes over a line, by how the line is drawn and whether it is doubled.
fn crossing(line: char, doubled: bool) -> char {
    let chars = match line {
        '─' => ['┼', '╫'],
        '═' => ['╪', '╬'],
        _ => ['│', '║'],
    };
    chars[usize::from(doubled)]
}

const CROSSINGS: &str = "┼╫╪╬│║";

/// The gate that a box stands for: on one wire, or under controls.
fn gate_in_box(gate: &Gate) -> &'static str {
    match (gate.name, gate.takes.len()) {
        ("BZ", 2) => "Z",
        (_, 2 | 3) => "X",
        (name, _) => name,
    }
}

/// A drawing as it is read.
struct Reading {
    rows: Vec<Row>,
    /// What joins a line with the next one.
    between: Vec<Row>,
    /// How far each line is read, and the wire that is on it there.
    read: Vec<usize>,
    wires: Vec<Option<(usize, Wire)>>,
    /// The places at which something goes over a line or joins two.
    over: BTreeSet<(usize, usize)>,
    joins: BTreeSet<(usize, usize)>,
}

/// Why this is no drawing of the listing, in one band.
pub fn fault(text: &str, listing: &Listing) -> Option<String> {
    let lines = lines_of(listing);
    if lines == 0 {
        return (text != "no wires\n").then(|| String::from("something is drawn"));
    }
    read(text, listing, lines).err()
}

/// How many lines the wires need, as 02 places them.
fn lines_of(listing: &Listing) -> usize {
    let mut used = listing.inputs.len();
    let mut free = 0;
    for gate in listing.gates.iter().filter_map(|gate| gate.as_gate()) {
        match gate.name {
            "Init" if free == 0 => used += 1,
            "Init" => free -= 1,
            "Discard" => free += 1,
            _ => {}
        }
    }
    used
}

fn read(text: &str, listing: &Listing, lines: usize) -> Result<(), String> {
    let mut reading = start(text, listing, lines)?;
    let mut line_of: Vec<usize> = (0..listing.inputs.len()).collect();
    let mut free: Vec<usize> = Vec::new();
    let mut used = listing.inputs.len();
    for (number, entry) in listing.gates.iter().enumerate() {
        let gate = entry.as_gate().ok_or("no gate")?;
        let slots = entry.slots[..gate.takes.len()].iter();
        let mut on: Vec<usize> = slots.map(|&wire| line_of[usize::from(wire)]).collect();
        if gate.name == "Init" {
            on.push(free.pop().unwrap_or(used));
            used = used.max(on[0] + 1);
        }
        reading
            .gate(gate, &on)
            .map_err(|words| format!("gate {number}, {}: {words}", gate.name))?;
        for (&line, of) in on.iter().zip(gate.makes) {
            reading.wires[line] = Some((line_of.len(), *of));
            line_of.push(line);
        }
        if gate.name == "Discard" {
            reading.wires[on[0]] = None;
            free.push(on[0]);
        }
    }
    reading.finish(listing)
}

/// The rows told apart, and the names of the inputs.
fn start(text: &str, listing: &Listing, lines: usize) -> Result<Reading, String> {
    let mut rows: Vec<Row> = Vec::new();
    let mut between: Vec<Row> = vec![Vec::new(); lines];
    for row in text.lines() {
        let row: Row = row.chars().collect();
        match row.iter().all(|char| " │║".contains(*char)) {
            true => {
                *between
                    .get_mut(rows.len().wrapping_sub(1))
                    .ok_or("a join first")? = row
            }
            false => rows.push(row),
        }
    }
    if rows.len() != lines {
        return Err(format!("{} lines in place of {lines}", rows.len()));
    }
    let mut reading = Reading {
        read: vec![0; lines],
        wires: vec![None; lines],
        over: BTreeSet::new(),
        joins: BTreeSet::new(),
        rows,
        between,
    };
    for (input, entry) in listing.inputs.iter().enumerate() {
        let of = entry.as_input().ok_or("no input")?;
        let name: Row = format!("in {input} {of:?} ").chars().collect();
        let row = &reading.rows[input];
        if !row.starts_with(&name) {
            return Err(format!("input {input} is not named"));
        }
        let spaces = row[name.len()..].iter().take_while(|char| **char == ' ');
        reading.read[input] = name.len() + spaces.count();
        reading.wires[input] = Some((input, of));
    }
    Ok(reading)
}

impl Reading {
    /// Where the next mark on a line stands.
    fn next(&self, line: usize) -> usize {
        let wire = wire_char(self.wires[line].map(|(_, of)| of));
        let rest = self.rows[line][self.read[line]..].iter();
        let passed = rest.take_while(|char| **char == wire || CROSSINGS.contains(**char));
        self.read[line] + passed.count()
    }

    /// The next mark on each of these lines is the gate's, and all are in one column.
    fn gate(&mut self, gate: &Gate, on: &[usize]) -> Result<(), String> {
        let (&boxed, controls) = on.split_last().ok_or("no line")?;
        let name: Row = format!("[{}]", gate_in_box(gate)).chars().collect();
        let at = self.next(boxed);
        if !self.rows[boxed][at..].starts_with(&name) {
            return Err(format!("no box on line {boxed} at {at}"));
        }
        let middle = at + (name.len() - 1) / 2;
        self.read[boxed] = at + name.len();
        for &line in controls {
            let at = self.next(line);
            if at != middle || self.rows[line].get(at) != Some(&'●') {
                return Err(format!("no control on line {line} at {middle}"));
            }
            self.read[line] = at + 1;
        }
        let doubled = gate.takes.first() == Some(&Wire::Bit);
        let first = on.iter().copied().min().unwrap_or(boxed);
        let last = on.iter().copied().max().unwrap_or(boxed);
        for line in first..last {
            let join = if doubled { '║' } else { '│' };
            if self.between[line].get(middle) != Some(&join) {
                return Err(format!("lines {line} and {} are not joined", line + 1));
            }
            self.joins.insert((line, middle));
        }
        for line in (first + 1..last).filter(|line| !on.contains(line)) {
            let row = &self.rows[line];
            let before = row.get(middle - 1).copied().unwrap_or(' ');
            let expected = crossing(before, doubled);
            let found = row.get(middle).copied().unwrap_or(' ');
            if found != expected {
                return Err(format!("line {line} is not crossed at {middle}"));
            }
            self.over.insert((line, middle));
        }
        Ok(())
    }

    /// Behind the last gate each line ends with the name of its output, and nothing is
    /// drawn that no gate has.
    fn finish(&self, listing: &Listing) -> Result<(), String> {
        for line in 0..self.rows.len() {
            let rest: String = self.rows[line][self.next(line)..].iter().collect();
            let name = match self.wires[line] {
                Some((wire, of)) => {
                    let output = listing
                        .outputs
                        .iter()
                        .position(|&out| usize::from(out) == wire);
                    format!(" out {} {of:?}, wire {wire}", output.ok_or("no output")?)
                }
                None => String::new(),
            };
            if rest != name {
                return Err(format!("line {line} ends with {rest:?}"));
            }
        }
        let places = |rows: &[Row]| -> BTreeSet<(usize, usize)> {
            let places = rows.iter().enumerate().flat_map(|(line, row)| {
                let crossed = row
                    .iter()
                    .enumerate()
                    .filter(|(_, char)| CROSSINGS.contains(**char));
                crossed.map(move |(at, _)| (line, at))
            });
            places.collect()
        };
        match places(&self.rows) == self.over && places(&self.between) == self.joins {
            true => Ok(()),
            false => Err(String::from("something is joined or crossed by no gate")),
        }
    }
}

/// Why these bands are not the pieces of the whole, one behind the other.
pub fn wrapped_fault(text: &str, whole: &str) -> Option<String> {
    let rows = |text: &str| -> Vec<Row> { text.lines().map(|row| row.chars().collect()).collect() };
    let whole_rows = rows(whole);
    let bands: Vec<&str> = text.split("\n\n").collect();
    if bands.len() == 1 {
        return (text != whole).then(|| String::from("one band that is not the whole"));
    }
    let mut from = 0;
    for (number, band) in bands.iter().enumerate() {
        let rows = rows(band);
        let is_last = number + 1 == bands.len();
        // Where the band's own columns start, and where they end.
        let starts = rows.iter().filter_map(|row| {
            let at = row.windows(2).position(|pair| pair == [' ', '…']);
            at.filter(|_| row.starts_with(&['w', 'i', 'r', 'e']))
                .map(|at| at + 3)
        });
        let start = if number == 0 {
            0
        } else {
            starts.max().unwrap_or(1) + 1
        };
        let ends = rows.iter().filter(|row| row.ends_with(&[' ', '…']));
        let end = ends.map(|row| row.len() - 2).max();
        // With no wire at the end of a band nothing tells where it ends.
        let (false, Some(end)) = (is_last, end) else {
            return is_last
                .then(|| last_fault(&rows, start, &whole_rows, from))
                .flatten();
        };
        if let Some(words) = piece_fault(&rows, start, end, &whole_rows, from) {
            return Some(format!("band {number}: {words}"));
        }
        from += end - start;
    }
    None
}

/// The columns of a row, with spaces where it has ended.
fn columns(row: &Row, from: usize, count: usize) -> Row {
    let at = |at: usize| row.get(at).copied().unwrap_or(' ');
    (from..from + count).map(at).collect()
}

/// Each row's piece stands in the whole, in the same order.
fn piece_fault(
    rows: &[Row],
    start: usize,
    end: usize,
    whole: &[Row],
    from: usize,
) -> Option<String> {
    let mut left = whole.iter();
    for row in rows {
        let row = match row.ends_with(&[' ', '…']) {
            true => &row[..row.len() - 2],
            false => &row[..],
        };
        let piece = columns(&row.to_vec(), start, end - start);
        if !left.any(|whole| columns(whole, from, end - start) == piece) {
            return Some(format!(
                "not in the whole: {}",
                piece.iter().collect::<String>()
            ));
        }
    }
    None
}

/// The last band has the rest of the whole.
fn last_fault(rows: &[Row], start: usize, whole: &[Row], from: usize) -> Option<String> {
    let longest = |rows: &[Row], from: usize| {
        let lengths = rows.iter().map(|row| row.len().saturating_sub(from));
        lengths.max().unwrap_or(0)
    };
    let count = longest(rows, start).max(longest(whole, from));
    piece_fault(rows, start, start + count, whole, from)
}
