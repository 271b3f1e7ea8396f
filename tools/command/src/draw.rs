//! A listing drawn as text: a line for each line of wires, gates as boxes, controls as
//! dots, measured wires doubled. What joins two lines stands between them.

use pqm::gates::Gate;
use pqm::listing::{Examined, Listing, Made, Taker};
use pqm::Wire;

/// The drawing, with lines of at most so many characters where that is possible; none
/// if the listing is not accepted.
pub fn draw(examined: &Examined, width: usize) -> Option<String> {
    let listing = examined.listing.as_ref()?;
    if examined.fault.is_some() {
        return None;
    }
    let drawing = Drawing::new(listing, &examined.wires);
    Some(drawing.text(width))
}

/// What is drawn where no wire is ever made.
const NOTHING: &str = "no wires\n";

/// A gate on its lines.
struct Placed {
    /// The line of the box, and what stands in it.
    boxed: usize,
    name: &'static str,
    controls: Vec<usize>,
    /// Whether a control is a Bit.
    under_bit: bool,
    /// Each line that the gate is on, with the wire that is on it afterwards.
    after: Vec<(usize, Option<usize>)>,
}

impl Placed {
    /// The first and the last line that the gate is on.
    fn span(&self) -> (usize, usize) {
        let lines = || self.controls.iter().copied().chain([self.boxed]);
        let least = lines().min().unwrap_or(self.boxed);
        (least, lines().max().unwrap_or(self.boxed))
    }

    fn box_width(&self) -> usize {
        self.name.len() + 2
    }
}

/// What stands in the box: that of a gate under controls is the gate on its last wire.
fn name_in_box(gate: &Gate) -> &'static str {
    match gate.name {
        "CNOT" | "BX" | "CCX" => "X",
        "BZ" => "Z",
        name => name,
    }
}

/// The lines of the wires: input K is on line K, what a gate makes on the lines of what
/// it takes, slot by slot; what comes is on the line that was left last or, if none is
/// free, on the next one.
struct Lines {
    of_wires: Vec<usize>,
    left: Vec<usize>,
    count: usize,
}

impl Lines {
    fn next(&mut self) -> usize {
        self.left.pop().unwrap_or_else(|| {
            self.count += 1;
            self.count - 1
        })
    }

    fn place(&mut self, gate: &Gate, slots: &[u16], wires: &[Made]) -> Placed {
        let taken = slots[..gate.takes.len()].iter();
        let taken: Vec<usize> = taken
            .map(|&wire| self.of_wires[usize::from(wire)])
            .collect();
        let mut after = Vec::new();
        for slot in 0..gate.makes.len() {
            let line = taken.get(slot).copied().unwrap_or_else(|| self.next());
            after.push((line, Some(self.of_wires.len())));
            self.of_wires.push(line);
        }
        for &line in taken.iter().skip(gate.makes.len()) {
            after.push((line, None));
            self.left.push(line);
        }
        let (controls, boxed) = match taken.split_last() {
            Some((&last, others)) => (others.to_vec(), last),
            None => (Vec::new(), after[0].0),
        };
        let control_wires = slots[..controls.len()].iter();
        Placed {
            boxed,
            name: name_in_box(gate),
            under_bit: control_wires
                .map(|&wire| wires[usize::from(wire)].of)
                .any(|of| of == Wire::Bit),
            controls,
            after,
        }
    }
}

struct Drawing<'a> {
    listing: &'a Listing,
    wires: &'a [Made],
    lines: usize,
    columns: Vec<Vec<Placed>>,
}

impl<'a> Drawing<'a> {
    /// Each gate stands in the first column that is free on all lines from its first
    /// to its last.
    fn new(listing: &'a Listing, wires: &'a [Made]) -> Drawing<'a> {
        let inputs = listing.inputs.len();
        let mut lines = Lines {
            of_wires: (0..inputs).collect(),
            left: Vec::new(),
            count: inputs,
        };
        let mut columns: Vec<Vec<Placed>> = Vec::new();
        let mut free = vec![0; inputs];
        for entry in &listing.gates {
            let gate = entry.as_gate().expect("a gate of an accepted listing");
            let placed = lines.place(gate, &entry.slots, wires);
            free.resize(lines.count, 0);
            let (first, last) = placed.span();
            let column = free[first..=last].iter().copied().max().unwrap_or(0);
            free[first..=last].fill(column + 1);
            if column == columns.len() {
                columns.push(Vec::new());
            }
            columns[column].push(placed);
        }
        Drawing {
            listing,
            wires,
            lines: lines.count,
            columns,
        }
    }

    fn text(&self, width: usize) -> String {
        if self.lines == 0 {
            return NOTHING.to_string();
        }
        let mut band = Band::new(self);
        let mut text = String::new();
        let mut from = 0;
        for to in self.ends(width) {
            if from > 0 {
                text.push('\n');
                band.start_again();
            }
            for column in &self.columns[from..to] {
                band.column(column);
            }
            match to == self.columns.len() {
                true => band.finish(),
                false => band.stop(),
            }
            text += &band.text();
            from = to;
        }
        text
    }

    /// Where each band of columns ends: as many as have room within the width, and at
    /// least one.
    fn ends(&self, width: usize) -> Vec<usize> {
        let widths: Vec<usize> = self
            .columns
            .iter()
            .map(|column| column_width(column))
            .collect();
        let outputs = 0..self.listing.outputs.len();
        let last = outputs.map(|number| self.output(number).chars().count());
        let last = 1 + last.max().unwrap_or(0);
        let mut ends = Vec::new();
        let mut from = 0;
        let mut first = 2 + self.widest(self.wires.len().min(self.listing.inputs.len()), "in");
        loop {
            let mut to = from;
            let mut used = first;
            while to < widths.len() {
                let more = used + widths[to] + 1;
                let end = if to + 1 == widths.len() {
                    last
                } else {
                    CONTINUED.chars().count()
                };
                if to > from && more + end > width {
                    break;
                }
                used = more;
                to += 1;
            }
            ends.push(to);
            if to == widths.len() {
                return ends;
            }
            from = to;
            first = 2 + self.widest(self.wires.len(), "wire") + CONTINUED.chars().count();
        }
    }

    /// The most characters of the names of so many wires.
    fn widest(&self, wires: usize, word: &str) -> usize {
        match wires.checked_sub(1) {
            Some(most) => format!("{word} {most} Qubit").len(),
            None => 0,
        }
    }

    fn output(&self, number: usize) -> String {
        let wire = self.listing.outputs[number];
        let of = self.wires[usize::from(wire)].of;
        format!("out {number} {of:?}, wire {wire}")
    }
}

/// What stands at the end of a line that goes on in the next band, and at its start.
const CONTINUED: &str = " …";

fn column_width(column: &[Placed]) -> usize {
    let widths = column.iter().map(Placed::box_width);
    widths.max().unwrap_or(1)
}

/// Some columns of all lines.
struct Band<'a> {
    drawing: &'a Drawing<'a>,
    /// The wire on each line.
    wires: Vec<Option<usize>>,
    /// The text of each line, and of what stands between it and the next one.
    rows: Vec<String>,
    between: Vec<String>,
    /// Whether there is a wire on the line.
    shown: Vec<bool>,
}

impl<'a> Band<'a> {
    fn new(drawing: &'a Drawing<'a>) -> Band<'a> {
        let mut band = Band {
            drawing,
            wires: vec![None; drawing.lines],
            rows: Vec::new(),
            between: Vec::new(),
            shown: Vec::new(),
        };
        for input in 0..drawing.listing.inputs.len() {
            band.wires[input] = Some(input);
        }
        band.start("in", "");
        band
    }

    fn start_again(&mut self) {
        self.start("wire", CONTINUED);
    }

    /// Each line starts with the name of its wire.
    fn start(&mut self, word: &str, continued: &str) {
        let name =
            |wire: usize| format!("{word} {wire} {:?}{continued}", self.drawing.wires[wire].of);
        let names = self
            .wires
            .iter()
            .map(|wire| wire.map_or(String::new(), name));
        let names: Vec<String> = names.collect();
        let width = names
            .iter()
            .map(|name| name.chars().count())
            .max()
            .unwrap_or(0);
        self.between = vec![" ".repeat(width + 2); names.len()];
        self.rows = names
            .iter()
            .enumerate()
            .map(|(line, name)| format!("{name:width$} {}", self.wire_at(line)))
            .collect();
        self.shown = self.wires.iter().map(Option::is_some).collect();
    }

    /// How the wire on a line is drawn.
    fn wire_at(&self, line: usize) -> char {
        match self.wires[line].map(|wire| self.drawing.wires[wire].of) {
            Some(Wire::Qubit) => '─',
            Some(Wire::Bit) => '═',
            None => ' ',
        }
    }

    fn column(&mut self, column: &[Placed]) {
        let width = column_width(column);
        let middle = (width - 1) / 2;
        let mut marks: Vec<Option<(usize, String)>> = vec![None; self.rows.len()];
        let mut joined = vec![' '; self.rows.len()];
        for placed in column {
            let (first, last) = placed.span();
            for line in first..last {
                joined[line] = if placed.under_bit { '║' } else { '│' };
            }
            for (line, mark) in marks.iter_mut().enumerate().take(last).skip(first + 1) {
                *mark = Some((middle, self.crossing(line, placed.under_bit).to_string()));
            }
            for &line in &placed.controls {
                marks[line] = Some((middle, String::from("●")));
            }
            let from = middle - (placed.box_width() - 1) / 2;
            marks[placed.boxed] = Some((from, format!("[{}]", placed.name)));
        }
        let before: Vec<char> = (0..self.rows.len())
            .map(|line| self.wire_at(line))
            .collect();
        for &(line, wire) in column.iter().flat_map(|placed| &placed.after) {
            self.wires[line] = wire;
            self.shown[line] = true;
        }
        for (line, mark) in marks.into_iter().enumerate() {
            let after = self.wire_at(line);
            let (from, mark) = mark.unwrap_or((0, String::new()));
            let to = from + mark.chars().count();
            let row = &mut self.rows[line];
            row.extend(std::iter::repeat_n(before[line], from));
            row.push_str(&mark);
            row.extend(std::iter::repeat_n(after, width + 1 - to));
            let between = (0..=width).map(|at| if at == middle { joined[line] } else { ' ' });
            self.between[line].extend(between);
        }
    }

    /// Where what joins two lines goes over a third.
    fn crossing(&self, line: usize, under_bit: bool) -> char {
        match (self.wire_at(line), under_bit) {
            ('─', false) => '┼',
            ('═', false) => '╪',
            ('─', true) => '╫',
            ('═', true) => '╬',
            (_, false) => '│',
            (_, true) => '║',
        }
    }

    /// The lines go on in the next band.
    fn stop(&mut self) {
        for (row, wire) in self.rows.iter_mut().zip(&self.wires) {
            if wire.is_some() {
                row.push_str(CONTINUED);
            }
        }
    }

    /// The lines end with the names of the outputs.
    fn finish(&mut self) {
        for (row, wire) in self.rows.iter_mut().zip(&self.wires) {
            let made = wire.map(|wire| &self.drawing.wires[wire]);
            if let Some(Taker::Output(number)) = made.and_then(|made| made.taker) {
                row.push(' ');
                row.push_str(&self.drawing.output(number));
            }
        }
    }

    /// The lines on which there is a wire, and what joins them.
    fn text(&self) -> String {
        let mut text = String::new();
        for line in 0..self.rows.len() {
            if self.shown[line] {
                for row in [&self.rows[line], &self.between[line]] {
                    if !row.trim().is_empty() {
                        text.push_str(row.trim_end());
                        text.push('\n');
                    }
                }
            }
        }
        text
    }
}
