//! The memory of the machine.

/// Nodes that there is room for: those of a configuration twice over, and a
/// reduct beside its redex.
pub const NODES: usize = 16_384;
/// The most nodes of a configuration.
pub const MOST_NODES: usize = 4_096;
/// The most gates of all circuits.
pub const GATES: usize = 2_048;
/// The most boxes closed.
pub const BOXES: usize = 256;
/// The most wires that a gate takes, and so the slots of an entry of a listing.
pub const SLOTS: usize = 3;
/// What stands in a slot that takes no wire.
pub const NO_WIRE: u16 = u16::MAX;
/// Words for one result.
pub const RESULT: usize = 512;

/// The kind of a circuit constant, whose argument counts the closed circuits.
pub const CONSTANT: u8 = 32;
/// The word for a pair in a result.
pub const PAIR: u16 = u16::MAX;
/// The word for a unit in a result.
pub const UNIT: u16 = u16::MAX - 1;

#[derive(Clone, Copy, Default)]
pub struct Node {
    pub kind: u8,
    pub argument: u16,
}

/// In which part of an opened node the walk is.
#[derive(Clone, Copy, Default, PartialEq, Eq)]
pub enum Part {
    #[default]
    Only,
    First,
    Second,
    /// In the frame that the box opened.
    Frame,
}

/// A node that has been opened: its place, and where its second part starts.
#[derive(Clone, Copy, Default)]
pub struct Opened {
    pub part: Part,
    pub place: u16,
    pub start: u16,
}

/// A frame: where its term starts, its first gate, its inputs, and how many
/// wires its circuit has made.
#[derive(Clone, Copy, Default)]
pub struct Frame {
    pub start: u16,
    pub gates: u16,
    pub inputs: u16,
    pub made: u16,
}

/// A gate with the wires it takes.
#[derive(Clone, Copy, Default)]
pub struct Row {
    pub gate: u16,
    pub takes: [u16; SLOTS],
}

/// A closed circuit: its inputs, its first gate and number of gates, and the
/// number of nodes of its result.
#[derive(Clone, Copy, Default)]
pub struct Closed {
    pub inputs: u16,
    pub first: u16,
    pub gates: u16,
    pub nodes: u16,
}

pub struct Memory {
    /// The walked ones from the start, those still to be walked up to the end.
    pub nodes: Vec<Node>,
    pub opened: Vec<Opened>,
    /// For each part that a substitution waits for, the binders around it.
    pub waiting: Vec<u16>,
    /// The labels of an argument.
    pub labels: Vec<u16>,
    pub types: Vec<u8>,
    pub frames: Vec<Frame>,
    /// Those of the open circuits, one stack over all frames.
    pub open: Vec<Row>,
    pub shut: Vec<Row>,
    pub closed: Vec<Closed>,
    pub results: Vec<u16>,
}

impl Default for Memory {
    fn default() -> Memory {
        Memory {
            nodes: vec![Node::default(); NODES],
            opened: vec![Opened::default(); MOST_NODES],
            waiting: vec![0; MOST_NODES + 1],
            labels: vec![0; RESULT],
            types: vec![0; 512],
            frames: vec![Frame::default(); MOST_NODES],
            open: vec![Row::default(); GATES],
            shut: vec![Row::default(); GATES],
            closed: vec![Closed::default(); BOXES],
            results: vec![0; RESULT * BOXES],
        }
    }
}

impl Memory {
    pub fn clear(&mut self) {
        self.nodes.fill(Node::default());
        self.opened.fill(Opened::default());
        self.waiting.fill(0);
        self.labels.fill(0);
        self.types.fill(0);
        self.frames.fill(Frame::default());
        self.open.fill(Row::default());
        self.shut.fill(Row::default());
        self.closed.fill(Closed::default());
        self.results.fill(0);
    }
}
