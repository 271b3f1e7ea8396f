//! A traversal of a term in preorder: which nodes are open, and what is bound there.

/// A node whose parts have not all come.
struct Open<B> {
    /// How many parts are still to come.
    parts: usize,
    /// What the node binds in its last part.
    binds: Vec<B>,
    /// How many are bound outside the node.
    outside: usize,
}

/// What is known of each binder is a `B`. A node binds in its last part alone, as
/// abstraction and let do.
pub struct Traversal<B> {
    open: Vec<Open<B>>,
    bound: Vec<B>,
    started: bool,
}

impl<B> Default for Traversal<B> {
    fn default() -> Traversal<B> {
        Traversal {
            open: Vec::new(),
            bound: Vec::new(),
            started: false,
        }
    }
}

impl<B> Traversal<B> {
    /// In how many nodes the next one stands.
    pub fn depth(&self) -> usize {
        self.open.len()
    }

    /// What is bound for the next node, the outermost first.
    pub fn bound(&self) -> &[B] {
        &self.bound
    }

    /// Whether the term is whole.
    pub fn is_whole(&self) -> bool {
        self.started && self.open.is_empty()
    }

    /// How many parts the term lacks.
    pub fn missing(&self) -> usize {
        match self.started {
            true => self.open.iter().map(|open| open.parts).sum(),
            false => 1,
        }
    }

    /// The next node has so many parts, and binds these in the last of them.
    pub fn enter(&mut self, parts: usize, binds: Vec<B>) {
        self.started = true;
        let outside = self.bound.len();
        if parts > 0 {
            self.open.push(Open {
                parts,
                binds,
                outside,
            });
        } else {
            self.leave();
        }
        if let Some(open) = self.open.last_mut().filter(|open| open.parts == 1) {
            self.bound.append(&mut open.binds);
        }
    }

    /// A part is whole, and with it each node whose last part it is.
    fn leave(&mut self) {
        while let Some(open) = self.open.last_mut() {
            open.parts -= 1;
            if open.parts > 0 {
                return;
            }
            self.bound.truncate(open.outside);
            self.open.pop();
        }
    }
}
