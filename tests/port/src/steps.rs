//! The six steps. The redex is the last piece of what has been walked, and
//! its reduct is the first of what is still to be walked.

use crate::machine::{end, parts, Machine, Stop, TooLarge};
use crate::memory::{
    Closed, Frame, Node, Part, Row, BOXES, CONSTANT, GATES, NO_WIRE, PAIR, RESULT, SLOTS, UNIT,
};
use program_files::{kinds, GATES as GATE_TABLE};
use std::ops::Range;

impl Machine<'_> {
    pub fn step(&mut self, stop: Stop) -> Result<(), TooLarge> {
        match stop {
            Stop::Application => self.application(),
            Stop::Let => self.let_in(),
            Stop::Force => self.force(),
            Stop::Apply => self.apply(),
            Stop::BoxEntry => self.box_entry(),
            Stop::BoxExit => self.box_exit(),
            Stop::Finished => Ok(()),
        }
    }

    /// The redex is taken away; the nodes from here follow what was walked
    /// before it.
    fn close_top(&mut self) {
        self.left = usize::from(self.top().place);
        self.opened -= 1;
    }

    fn application(&mut self) -> Result<(), TooLarge> {
        let top = self.top();
        let (place, start) = (usize::from(top.place), usize::from(top.start));
        let value = start..self.left;
        let room = self.room(self.left - place);
        let reduct = self.substitute(place + 2, [value.clone(), value], room)?;
        self.close_top();
        self.put_before(reduct);
        Ok(())
    }

    fn let_in(&mut self) -> Result<(), TooLarge> {
        let place = usize::from(self.top().place);
        let second = end(&self.memory.nodes, place + 2);
        let values = [second..self.left, place + 2..second];
        let body = self.right;
        let body_end = end(&self.memory.nodes, body);
        let room = self.room(self.left - place + body_end - body);
        let reduct = self.substitute(body, values, room)?;
        self.close_top();
        self.right = body_end;
        self.put_before(reduct);
        Ok(())
    }

    fn force(&mut self) -> Result<(), TooLarge> {
        let place = usize::from(self.top().place);
        let body = place + 2..self.left;
        self.close_top();
        self.put_before(body);
        Ok(())
    }

    /// Moves nodes to the front of those still to be walked.
    fn put_before(&mut self, nodes: Range<usize>) {
        self.right -= nodes.len();
        self.memory.nodes.copy_within(nodes, self.right);
    }

    /// Writes a body with values for the variable that counts no further
    /// binder and for the next one, behind the walked nodes.
    fn substitute(
        &mut self,
        body: usize,
        values: [Range<usize>; 2],
        room: usize,
    ) -> Result<Range<usize>, TooLarge> {
        let nodes = &mut self.memory.nodes;
        let waiting = &mut self.memory.waiting;
        let start = self.left;
        let most = start + room;
        let mut to = start;
        let mut at = body;
        waiting[0] = 0;
        let mut wanted = 1;
        while wanted > 0 {
            let node = nodes[at];
            let under = waiting[wanted - 1];
            at += 1;
            wanted -= 1;
            if node.kind == kinds::VARIABLE && node.argument >= under {
                let value = values[usize::from(node.argument - under)].clone();
                let length = value.len();
                if to + length > most {
                    return Err(TooLarge);
                }
                nodes.copy_within(value, to);
                to += length;
                continue;
            }
            if to == most {
                return Err(TooLarge);
            }
            nodes[to] = node;
            to += 1;
            match node.kind {
                kinds::ABSTRACTION => {
                    waiting[wanted] = under + 1;
                    wanted += 1;
                }
                kinds::LET => {
                    waiting[wanted] = under + 2;
                    waiting[wanted + 1] = under;
                    wanted += 2;
                }
                kind => {
                    for _ in 0..parts(kind) {
                        waiting[wanted] = under;
                        wanted += 1;
                    }
                }
            }
        }
        Ok(start..to)
    }

    fn apply(&mut self) -> Result<(), TooLarge> {
        let place = usize::from(self.top().place);
        let circuit = self.memory.nodes[place + 1];
        let mut count = 0;
        for at in place + 2..self.left {
            let node = self.memory.nodes[at];
            if node.kind == kinds::LABEL {
                self.memory.labels[count] = node.argument;
                count += 1;
            }
        }
        let room = self.room(self.left - place);
        match circuit.kind {
            kinds::GATE => self.apply_gate(circuit.argument),
            _ => self.apply_constant(usize::from(circuit.argument), room),
        }
    }

    fn fits(&self, more: usize) -> Result<(), TooLarge> {
        match self.open + self.shut + more <= GATES {
            true => Ok(()),
            false => Err(TooLarge),
        }
    }

    fn apply_gate(&mut self, number: u16) -> Result<(), TooLarge> {
        self.fits(1)?;
        let gate = &GATE_TABLE[usize::from(number)];
        let mut takes = [NO_WIRE; SLOTS];
        takes[..gate.takes.len()].copy_from_slice(&self.memory.labels[..gate.takes.len()]);
        self.memory.open[self.open] = Row {
            gate: number,
            takes,
        };
        self.open += 1;
        let frame = &mut self.memory.frames[self.frames - 1];
        let made = frame.made;
        frame.made += gate.makes.len() as u16;
        self.close_top();
        match gate.makes.len() as u16 {
            0 => self.put(kinds::UNIT_VALUE, 0),
            count => self.put_labels(made, count),
        }
        Ok(())
    }

    /// So many labels from a number on as a tuple nested to the right.
    fn put_labels(&mut self, first: u16, count: u16) {
        self.put(kinds::LABEL, first + count - 1);
        for wire in (0..count - 1).rev() {
            self.put(kinds::LABEL, first + wire);
            self.put(kinds::PAIR, 0);
        }
    }

    /// One node more in front of those still to be walked.
    fn put(&mut self, kind: u8, argument: u16) {
        self.right -= 1;
        self.memory.nodes[self.right] = Node { kind, argument };
    }

    fn apply_constant(&mut self, number: usize, room: usize) -> Result<(), TooLarge> {
        let closed = self.memory.closed[number];
        self.fits(usize::from(closed.gates))?;
        let nodes = usize::from(closed.nodes);
        if nodes > room {
            return Err(TooLarge);
        }
        let memory = &mut *self.memory;
        let frame = &mut memory.frames[self.frames - 1];
        let base = frame.made;
        let labels = &memory.labels;
        let rename = |wire: u16| match wire < closed.inputs {
            true => labels[usize::from(wire)],
            false => base + (wire - closed.inputs),
        };
        let first = usize::from(closed.first);
        for row in &memory.shut[first..first + usize::from(closed.gates)] {
            let gate = &GATE_TABLE[usize::from(row.gate)];
            let mut takes = [NO_WIRE; SLOTS];
            for (new, &old) in takes.iter_mut().zip(&row.takes[..gate.takes.len()]) {
                *new = rename(old);
            }
            memory.open[self.open] = Row {
                gate: row.gate,
                takes,
            };
            self.open += 1;
            frame.made += gate.makes.len() as u16;
        }
        self.right -= nodes;
        let result = &memory.results[RESULT * number..][..nodes];
        for (node, &word) in memory.nodes[self.right..].iter_mut().zip(result) {
            *node = match word {
                PAIR => Node {
                    kind: kinds::PAIR,
                    argument: 0,
                },
                UNIT => Node {
                    kind: kinds::UNIT_VALUE,
                    argument: 0,
                },
                wire => Node {
                    kind: kinds::LABEL,
                    argument: rename(wire),
                },
            };
        }
        self.close_top();
        Ok(())
    }

    fn box_entry(&mut self) -> Result<(), TooLarge> {
        let place = usize::from(self.top().place);
        let from = usize::from(self.memory.nodes[place].argument);
        let mut wanted = 1;
        let mut to = from;
        let mut inputs = 0;
        while wanted > 0 {
            match self.memory.types[to] {
                kinds::PAIR_TYPE => wanted += 1,
                kinds::UNIT => wanted -= 1,
                _ => {
                    wanted -= 1;
                    inputs += 1;
                }
            }
            to += 1;
        }
        let function = place + 2..self.left;
        if 1 + function.len() + (to - from) > self.room(0) {
            return Err(TooLarge);
        }
        let mut wire = inputs;
        for at in (from..to).rev() {
            match self.memory.types[at] {
                kinds::PAIR_TYPE => self.put(kinds::PAIR, 0),
                kinds::UNIT => self.put(kinds::UNIT_VALUE, 0),
                _ => {
                    wire -= 1;
                    self.put(kinds::LABEL, wire);
                }
            }
        }
        self.put_before(function);
        self.put(kinds::APPLICATION, 0);
        self.memory.opened[self.opened - 1].part = Part::Frame;
        self.memory.frames[self.frames] = Frame {
            start: self.left as u16,
            gates: self.open as u16,
            inputs,
            made: inputs,
        };
        self.frames += 1;
        Ok(())
    }

    fn box_exit(&mut self) -> Result<(), TooLarge> {
        if self.boxes == BOXES {
            return Err(TooLarge);
        }
        let memory = &mut *self.memory;
        let frame = memory.frames[self.frames - 1];
        let start = usize::from(frame.start);
        let result = &mut memory.results[RESULT * self.boxes..][..self.left - start];
        for (word, node) in result.iter_mut().zip(&memory.nodes[start..self.left]) {
            *word = match node.kind {
                kinds::PAIR => PAIR,
                kinds::UNIT_VALUE => UNIT,
                _ => node.argument,
            };
        }
        let first = usize::from(frame.gates);
        let gates = self.open - first;
        memory.shut[self.shut..self.shut + gates].copy_from_slice(&memory.open[first..self.open]);
        memory.closed[self.boxes] = Closed {
            inputs: frame.inputs,
            first: self.shut as u16,
            gates: gates as u16,
            nodes: (self.left - start) as u16,
        };
        self.shut += gates;
        self.open = first;
        self.frames -= 1;
        self.close_top();
        self.put(CONSTANT, self.boxes as u16);
        self.boxes += 1;
        Ok(())
    }
}
