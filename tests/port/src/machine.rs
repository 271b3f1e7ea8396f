//! The walk to the next redex, and the run.

use crate::memory::{Frame, Memory, Node, Opened, Part, Row, MOST_NODES, NODES};
use crate::refusal;
use program_files::{kinds, Refusal};

/// The terms of all frames are what stands left and right of the place of
/// evaluation.
pub struct Machine<'a> {
    pub memory: &'a mut Memory,
    /// The walked nodes are those before `left`, the others start at `right`.
    pub left: usize,
    pub right: usize,
    pub opened: usize,
    pub frames: usize,
    pub open: usize,
    pub shut: usize,
    pub boxes: usize,
}

/// What the walk has come to.
#[derive(Clone, Copy, PartialEq, Eq)]
pub enum Stop {
    Finished,
    Application,
    Let,
    Force,
    Apply,
    BoxEntry,
    BoxExit,
}

/// The step exceeds a size.
pub struct TooLarge;

impl<'a> Machine<'a> {
    pub fn new(memory: &'a mut Memory, right: usize, labels: usize) -> Machine<'a> {
        memory.frames[0] = Frame {
            start: 0,
            gates: 0,
            inputs: labels as u16,
            made: labels as u16,
        };
        Machine {
            memory,
            left: 0,
            right,
            opened: 0,
            frames: 1,
            open: 0,
            shut: 0,
            boxes: 0,
        }
    }

    /// The number of steps, or the refusal 21 or 22.
    pub fn run(&mut self, limit: u32) -> Result<u32, Refusal> {
        let mut steps = 0;
        loop {
            let stop = self.walk();
            if stop == Stop::Finished {
                return Ok(steps);
            }
            if steps == limit {
                return Err(refusal(21));
            }
            self.step(stop).map_err(|TooLarge| refusal(22))?;
            steps += 1;
        }
    }

    /// The gates and the value of a finished run.
    pub fn result(&self) -> (&[Row], &[Node]) {
        (
            &self.memory.open[..self.open],
            &self.memory.nodes[..self.left],
        )
    }

    /// How many nodes all frames have.
    pub fn nodes(&self) -> usize {
        self.left + NODES - self.right
    }

    /// How many nodes a reduct may have that takes the place of so many.
    pub fn room(&self, redex: usize) -> usize {
        MOST_NODES + redex - self.nodes()
    }

    pub fn top(&self) -> Opened {
        self.memory.opened[self.opened - 1]
    }

    fn walk(&mut self) -> Stop {
        loop {
            match self.memory.nodes[self.right].kind {
                kinds::APPLICATION | kinds::PAIR | kinds::APPLY | kinds::LET => {
                    self.open_node(Part::First);
                }
                kinds::FORCE | kinds::BOX => self.open_node(Part::Only),
                kinds::ABSTRACTION | kinds::LIFT => {
                    self.pass(end(&self.memory.nodes, self.right) - self.right);
                    if let Some(stop) = self.complete() {
                        return stop;
                    }
                }
                _ => {
                    self.pass(1);
                    if let Some(stop) = self.complete() {
                        return stop;
                    }
                }
            }
        }
    }

    fn open_node(&mut self, part: Part) {
        self.memory.opened[self.opened] = Opened {
            part,
            place: self.left as u16,
            start: 0,
        };
        self.opened += 1;
        self.pass(1);
    }

    /// So many nodes are walked.
    fn pass(&mut self, count: usize) {
        let from = self.right..self.right + count;
        self.memory.nodes.copy_within(from, self.left);
        self.left += count;
        self.right += count;
    }

    /// A value is complete. None if there is another part to be walked.
    fn complete(&mut self) -> Option<Stop> {
        while self.opened > 0 {
            let top = self.top();
            let kind = self.memory.nodes[usize::from(top.place)].kind;
            match (top.part, kind) {
                (Part::Frame, _) => return Some(Stop::BoxExit),
                (Part::Only, kinds::FORCE) => return Some(Stop::Force),
                (Part::Only, _) => return Some(Stop::BoxEntry),
                (Part::First, kinds::LET) => return Some(Stop::Let),
                (Part::First, _) => {
                    let row = &mut self.memory.opened[self.opened - 1];
                    row.part = Part::Second;
                    row.start = self.left as u16;
                    return None;
                }
                (Part::Second, kinds::APPLICATION) => return Some(Stop::Application),
                (Part::Second, kinds::APPLY) => return Some(Stop::Apply),
                (Part::Second, _) => self.opened -= 1,
            }
        }
        Some(Stop::Finished)
    }
}

pub fn parts(kind: u8) -> usize {
    match kind {
        kinds::ABSTRACTION | kinds::LIFT | kinds::FORCE | kinds::BOX => 1,
        kinds::APPLICATION | kinds::PAIR | kinds::LET | kinds::APPLY => 2,
        _ => 0,
    }
}

/// Where the term ends that starts here.
pub fn end(nodes: &[Node], mut at: usize) -> usize {
    let mut wanted = 1;
    while wanted > 0 {
        wanted = wanted - 1 + parts(nodes[at].kind);
        at += 1;
    }
    at
}
