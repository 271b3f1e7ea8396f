//! The export of a listing to OpenQASM 2.0 and the import of such a text, in
//! plain Rust.

use crate::listing::{self, mark, parts, word, Parts, Sizes, BIT_INPUT};
use crate::memory::{self, NO_WIRE, SLOTS};
use program_files::entries::MOST_LABELS;
use program_files::{Refusal, Wire, GATES};

/// No text is longer.
pub const LONGEST_TEXT: usize = 36 + 26 * MOST_LABELS + 26 * memory::GATES + 7 + 4 * MOST_LABELS;

const HEAD: &[u8] = b"OPENQASM 2.0;\ninclude \"qelib1.inc\";\n";

/// The numbers of gates.
const CNOT: u8 = 5;
const MEASURE: u8 = 6;
const BX: u8 = 7;
const BZ: u8 = 8;
const CCX: u8 = 11;

/// The gates on one Qubit, by their numbers.
const NAMES: &[u8; 5] = b"hxzst";

fn refuse<T>(number: u8) -> Result<T, Refusal> {
    Err(Refusal { number, place: 0 })
}

/// Writes the text of a listing, and answers its length. The lent bytes are
/// zero afterwards, unless a buffer is too short.
pub fn export(listing: &[u8], out: &mut [u8], work: &mut [u8]) -> Result<usize, Refusal> {
    if out.len() < LONGEST_TEXT {
        return refuse(19);
    }
    let Sizes { inputs, .. } = listing::check(listing, work)?;
    let Some((_, parts)) = parts(listing) else {
        return refuse(24);
    };
    let mut gates = parts.entries().skip(inputs);
    if let Some((place, ..)) = gates.find(|&(_, kind, _)| GATES[usize::from(kind)].is_helper()) {
        return Err(Refusal { number: 28, place });
    }
    let (length, wires) = write_text(&parts, inputs, out, work);
    work[..wires].fill(0);
    Ok(length)
}

/// A text that is written from its start on.
struct Writer<'a> {
    out: &'a mut [u8],
    at: usize,
}

impl Writer<'_> {
    fn put(&mut self, bytes: &[u8]) {
        self.out[self.at..][..bytes.len()].copy_from_slice(bytes);
        self.at += bytes.len();
    }

    /// A letter and the number of a line, which has at most two digits.
    fn name(&mut self, letter: u8, line: u8) {
        match line {
            0..=9 => self.put(&[letter, b'0' + line]),
            _ => self.put(&[letter, b'0' + line / 10, b'0' + line % 10]),
        }
    }

    fn qubit(&mut self, line: u8) {
        self.name(b'q', line);
        self.put(b"[0]");
    }

    /// The qubits of these lines, parted by commas.
    fn qubits(&mut self, lines: &[u8]) {
        for (at, &line) in lines.iter().enumerate() {
            if at > 0 {
                self.put(b",");
            }
            self.qubit(line);
        }
    }
}

/// The length of the text, and how many bytes of the working memory hold the
/// lines of wires.
fn write_text(parts: &Parts, inputs: usize, out: &mut [u8], lines: &mut [u8]) -> (usize, usize) {
    let mut text = Writer { out, at: 0 };
    let mut types = [0; MOST_LABELS];
    let mut made = 0;
    text.put(HEAD);
    for (at, kind, slots) in parts.entries() {
        if at < inputs {
            let line = at as u8;
            if kind != BIT_INPUT {
                text.put(b"qreg ");
                text.name(b'q', line);
                text.put(b"[1];\n");
            }
            text.put(b"creg ");
            text.name(b'c', line);
            text.put(b"[1];\n");
            types[at] = kind - BIT_INPUT + mark(Wire::Bit);
            lines[made] = line;
            made += 1;
            continue;
        }
        let line = |slot: usize| lines.get(word(&slots[2 * slot..])).copied().unwrap_or(0);
        let taken: [u8; SLOTS] = std::array::from_fn(line);
        write_gate(&mut text, kind, taken);
        for (&of, line) in GATES[usize::from(kind)].makes.iter().zip(taken) {
            types[usize::from(line)] = mark(of);
            lines[made] = line;
            made += 1;
        }
    }
    text.put(b"// out");
    for output in parts.outputs.chunks_exact(2) {
        let line = lines[word(output)];
        text.put(b" ");
        match types[usize::from(line)] == mark(Wire::Qubit) {
            true => text.name(b'q', line),
            false => text.name(b'c', line),
        }
    }
    text.put(b"\n");
    (text.at, made)
}

/// The gate of this kind on these lines, as many as it takes.
fn write_gate(text: &mut Writer, kind: u8, lines: [u8; SLOTS]) {
    let [first, second, _] = lines;
    match kind {
        CNOT => {
            text.put(b"cx ");
            text.qubits(&lines[..2]);
        }
        CCX => {
            text.put(b"ccx ");
            text.qubits(&lines);
        }
        MEASURE => {
            text.put(b"measure ");
            text.qubit(first);
            text.put(b" -> ");
            text.name(b'c', first);
            text.put(b"[0]");
        }
        BX | BZ => {
            text.put(b"if(");
            text.name(b'c', first);
            text.put(if kind == BX { b"==1) x " } else { b"==1) z " });
            text.qubit(second);
        }
        _ => {
            text.put(&[NAMES[usize::from(kind)], b' ']);
            text.qubit(first);
        }
    }
    text.put(b";\n");
}

/// Writes the listing whose text this is, and answers its length.
pub fn import(text: &[u8], out: &mut [u8]) -> Result<usize, Refusal> {
    if out.len() < crate::LONGEST {
        return refuse(19);
    }
    match read(text) {
        Some(circuit) => Ok(circuit.write(out)),
        None => refuse(27),
    }
}

/// A text that is read from its start on.
struct Reader<'a> {
    rest: &'a [u8],
}

impl Reader<'_> {
    /// Whether these bytes come next; they are read if so.
    fn has(&mut self, bytes: &[u8]) -> bool {
        match self.rest.strip_prefix(bytes) {
            Some(rest) => {
                self.rest = rest;
                true
            }
            None => false,
        }
    }

    fn read(&mut self, bytes: &[u8]) -> Option<()> {
        self.has(bytes).then_some(())
    }

    /// A number without leading zeros. No line has more than two digits.
    fn line(&mut self) -> Option<usize> {
        let (value, length) = match *self.rest {
            [ten @ b'1'..=b'9', one @ b'0'..=b'9', ..] => (10 * (ten - b'0') + one - b'0', 2),
            [one @ b'0'..=b'9', ..] => (one - b'0', 1),
            _ => return None,
        };
        self.rest = &self.rest[length..];
        Some(usize::from(value))
    }

    /// So many lines of qubits, without what stands around the first and the last.
    fn lines(&mut self, count: usize) -> Option<[usize; SLOTS]> {
        let mut lines = [0; SLOTS];
        for (at, line) in lines[..count].iter_mut().enumerate() {
            if at > 0 {
                self.read(b"[0],q")?;
            }
            *line = self.line()?;
        }
        Some(lines)
    }
}

/// A gate's number and the wires that it takes.
struct Row {
    number: u8,
    takes: [u16; SLOTS],
}

/// The wire of a line, and its type.
#[derive(Clone, Copy)]
struct Placed {
    wire: u16,
    of: Wire,
}

#[derive(Default)]
struct Circuit {
    inputs: Vec<Wire>,
    rows: Vec<Row>,
    outputs: Vec<u16>,
    /// The wires of the lines.
    lines: Vec<Option<Placed>>,
    /// How many wires are made.
    made: u16,
}

/// The circuit of a text.
fn read(text: &[u8]) -> Option<Circuit> {
    let mut text = Reader { rest: text };
    let mut circuit = Circuit::default();
    text.read(HEAD)?;
    loop {
        let of = match text.rest {
            [b'q', ..] => Wire::Qubit,
            [b'c', b'r', ..] => Wire::Bit,
            _ => break,
        };
        circuit.declare(&mut text, of)?;
    }
    while !text.has(b"// out") {
        circuit.gate(&mut text)?;
    }
    circuit.outputs(&mut text)?;
    text.rest.is_empty().then_some(circuit)
}

impl Circuit {
    fn declare(&mut self, text: &mut Reader, of: Wire) -> Option<()> {
        let line = self.lines.len();
        if line == MOST_LABELS {
            return None;
        }
        if of == Wire::Qubit {
            text.read(b"qreg q")?;
            (text.line()? == line).then_some(())?;
            text.read(b"[1];\n")?;
        }
        text.read(b"creg c")?;
        (text.line()? == line).then_some(())?;
        text.read(b"[1];\n")?;
        self.inputs.push(of);
        self.lines.push(None);
        self.make(line, of);
        Some(())
    }

    fn make(&mut self, line: usize, of: Wire) {
        self.lines[line] = Some(Placed {
            wire: self.made,
            of,
        });
        self.made += 1;
    }

    /// The wire of a line, if it is there and has this type.
    fn take(&mut self, line: usize, of: Wire) -> Option<u16> {
        let placed = self.lines.get_mut(line)?.take()?;
        (placed.of == of).then_some(placed.wire)
    }

    fn gate(&mut self, text: &mut Reader) -> Option<()> {
        if self.rows.len() == memory::GATES {
            return None;
        }
        let (number, lines) = read_gate(text)?;
        let gate = &GATES[usize::from(number)];
        let mut takes = [NO_WIRE; SLOTS];
        for ((wire, line), &of) in takes.iter_mut().zip(lines).zip(gate.takes) {
            *wire = self.take(line, of)?;
        }
        self.rows.push(Row { number, takes });
        for (line, &of) in lines.into_iter().zip(gate.makes) {
            self.make(line, of);
        }
        Some(())
    }

    /// Each line that has a wire, once.
    fn outputs(&mut self, text: &mut Reader) -> Option<()> {
        while !text.has(b"\n") {
            let of = match text.has(b" q") {
                true => Wire::Qubit,
                false => text.read(b" c").map(|()| Wire::Bit)?,
            };
            let line = text.line()?;
            let wire = self.take(line, of)?;
            self.outputs.push(wire);
        }
        self.lines.iter().all(Option::is_none).then_some(())
    }

    /// Writes the listing; the answer is its length.
    fn write(&self, out: &mut [u8]) -> usize {
        let mut put = |at: usize, number: u16| {
            out[at..at + 2].copy_from_slice(&number.to_le_bytes());
        };
        let inputs = self.inputs.len();
        let entries = inputs + self.rows.len();
        put(0, inputs as u16);
        put(2, self.rows.len() as u16);
        put(4, self.outputs.len() as u16);
        let slots = self.inputs.iter().map(|_| [NO_WIRE; SLOTS]);
        let slots = slots.chain(self.rows.iter().map(|row| row.takes));
        let wires = slots.flatten().chain(self.outputs.iter().copied());
        let mut end = 6 + entries;
        for wire in wires {
            put(end, wire);
            end += 2;
        }
        for (at, &of) in self.inputs.iter().enumerate() {
            out[6 + at] = BIT_INPUT + mark(of) - mark(Wire::Bit);
        }
        for (at, row) in self.rows.iter().enumerate() {
            out[6 + inputs + at] = row.number;
        }
        end
    }
}

/// The gate of a line of the text, and the lines of its wires.
fn read_gate(text: &mut Reader) -> Option<(u8, [usize; SLOTS])> {
    let (&first, _) = text.rest.split_first()?;
    let gate = match first {
        b'c' if text.has(b"ccx q") => (CCX, text.lines(3)?),
        b'c' => {
            text.read(b"cx q")?;
            (CNOT, text.lines(2)?)
        }
        b'm' => {
            text.read(b"measure q")?;
            let from = text.line()?;
            text.read(b"[0] -> c")?;
            (text.line()? == from).then_some((MEASURE, [from; SLOTS]))?
        }
        b'i' => {
            text.read(b"if(c")?;
            let bit = text.line()?;
            let number = match text.has(b"==1) x q") {
                true => BX,
                false => text.read(b"==1) z q").map(|()| BZ)?,
            };
            (number, [bit, text.line()?, 0])
        }
        _ => {
            let number = NAMES.iter().position(|&name| name == first)?;
            text.rest = &text.rest[1..];
            text.read(b" q")?;
            (number as u8, text.lines(1)?)
        }
    };
    text.read(b"[0];\n")?;
    Some(gate)
}
