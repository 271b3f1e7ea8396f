//! A strict parser of the texts that are printed: line by line, with the wire
//! and the type that each line has.

use listings::sizes::{MOST_GATES, MOST_INPUTS};
use listings::{Entry, Listing};
use program_files::{Wire, GATES};

const VERSION: &[u8] = b"OPENQASM 2.0;";
const INCLUDE: &[u8] = b"include \"qelib1.inc\";";

/// The listing whose text this is, if it is one's.
pub fn parse(text: &[u8]) -> Option<Listing> {
    let text = text.strip_suffix(b"\n")?;
    let lines: Vec<&[u8]> = text.split(|&byte| byte == b'\n').collect();
    let [version, include, body @ .., outputs] = &lines[..] else {
        return None;
    };
    (*version == VERSION && *include == INCLUDE).then_some(())?;
    let mut circuit = Circuit::default();
    let gates = circuit.declare(body)?;
    (gates.len() <= MOST_GATES).then_some(())?;
    for line in gates {
        circuit.gate(line)?;
    }
    circuit.outputs(outputs)?;
    Some(circuit.listing)
}

#[derive(Default)]
struct Circuit {
    listing: Listing,
    /// The wire that each line has, until an output names it.
    lines: Vec<Option<(u16, Wire)>>,
    /// The number of the next wire.
    next: u16,
}

impl Circuit {
    /// Declares inputs; the lines that follow are given back.
    fn declare<'a>(&mut self, mut body: &'a [&'a [u8]]) -> Option<&'a [&'a [u8]]> {
        loop {
            let number = self.lines.len();
            let (of, rest) = match body {
                [first, second, rest @ ..] if declared(first, "qreg q") == Some(number) => {
                    (declared(second, "creg c")? == number).then_some((Wire::Qubit, rest))?
                }
                [first, rest @ ..] if declared(first, "creg c") == Some(number) => {
                    (Wire::Bit, rest)
                }
                _ => return Some(body),
            };
            (number < MOST_INPUTS).then_some(())?;
            self.listing.inputs.push(Entry::input(of));
            self.lines.push(None);
            self.make(number, of);
            body = rest;
        }
    }

    /// The next wire, on this line.
    fn make(&mut self, line: usize, of: Wire) {
        self.lines[line] = Some((self.next, of));
        self.next += 1;
    }

    /// The wire of a line, which is of this type and is then taken.
    fn take(&mut self, line: usize, needs: Wire) -> Option<u16> {
        let (wire, of) = self.lines.get_mut(line)?.take()?;
        (of == needs).then_some(wire)
    }

    fn gate(&mut self, line: &[u8]) -> Option<()> {
        let (number, lines) = gate(line)?;
        let gate = &GATES[usize::from(number)];
        let mut wires = Vec::new();
        for (&line, &needs) in lines.iter().zip(gate.takes) {
            wires.push(self.take(line, needs)?);
        }
        self.listing.gates.push(Entry::gate(number, &wires));
        for (&line, &of) in lines.iter().zip(gate.makes) {
            self.make(line, of);
        }
        Some(())
    }

    /// Each line is named once.
    fn outputs(&mut self, line: &[u8]) -> Option<()> {
        let mut words = line.split(|&byte| byte == b' ');
        (words.next()? == b"//" && words.next()? == b"out").then_some(())?;
        for word in words {
            let (of, line) = match word {
                [b'q', line @ ..] => (Wire::Qubit, line),
                [b'c', line @ ..] => (Wire::Bit, line),
                _ => return None,
            };
            let wire = self.take(number(line)?, of)?;
            self.listing.outputs.push(wire);
        }
        self.lines.iter().all(Option::is_none).then_some(())
    }
}

/// The number of the register that this line declares.
fn declared(line: &[u8], kind: &str) -> Option<usize> {
    let line = line.strip_prefix(kind.as_bytes())?;
    number(line.strip_suffix(b"[1];")?)
}

/// The gate of this line, and the lines on which it is.
fn gate(line: &[u8]) -> Option<(u8, Vec<usize>)> {
    let line = line.strip_suffix(b"[0];")?;
    if let Some(line) = line.strip_prefix(b"if(c") {
        return conditional(line);
    }
    if let Some(line) = line.strip_prefix(b"measure q") {
        let (from, to) = parted(line, b"[0] -> c")?;
        return (from == to).then_some((6, vec![from]));
    }
    if let Some(line) = line.strip_prefix(b"cx q") {
        let (control, target) = parted(line, b"[0],q")?;
        return Some((5, vec![control, target]));
    }
    if let Some(line) = line.strip_prefix(b"ccx q") {
        return on_three(line);
    }
    let (&name, line) = line.split_first()?;
    let gate = b"hxzst".iter().position(|&other| other == name)?;
    let line = number(line.strip_prefix(b" q")?)?;
    Some((gate as u8, vec![line]))
}

/// The registers of CCX, without what stands around the first and the last.
fn on_three(line: &[u8]) -> Option<(u8, Vec<usize>)> {
    let (first, others) = split(line, b"[0],q")?;
    let (second, third) = parted(others, b"[0],q")?;
    Some((11, vec![number(first)?, second, third]))
}

/// What follows the bit's register.
fn conditional(line: &[u8]) -> Option<(u8, Vec<usize>)> {
    let x = parted(line, b"==1) x q").map(|(bit, qubit)| (7, vec![bit, qubit]));
    let z = || parted(line, b"==1) z q").map(|(bit, qubit)| (8, vec![bit, qubit]));
    x.or_else(z)
}

/// The numbers before and behind these bytes.
fn parted(line: &[u8], between: &[u8]) -> Option<(usize, usize)> {
    let (before, behind) = split(line, between)?;
    Some((number(before)?, number(behind)?))
}

/// What stands before these bytes, where they come first, and what behind.
fn split<'a>(line: &'a [u8], between: &[u8]) -> Option<(&'a [u8], &'a [u8])> {
    let at = line
        .windows(between.len())
        .position(|bytes| bytes == between)?;
    Some((&line[..at], &line[at + between.len()..]))
}

/// Decimal, without leading zeros. No line has more than two digits.
fn number(digits: &[u8]) -> Option<usize> {
    let value = |digit: u8| usize::from(digit - b'0');
    match *digits {
        [one @ b'0'..=b'9'] => Some(value(one)),
        [ten @ b'1'..=b'9', one @ b'0'..=b'9'] => Some(10 * value(ten) + value(one)),
        _ => None,
    }
}
