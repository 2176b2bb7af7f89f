//! Waiting lists of nodes: heap, stack, and a dive over a list.

use std::cmp::Reverse;
use std::collections::BinaryHeap;

#[derive(Clone, Copy, Debug, Default, PartialEq, Eq, PartialOrd, Ord)]
pub struct Node {
    pub bound: u64,
    pub decided: u64,
    pub turned: u64,
}

/// The list is full.
#[derive(Clone, Copy, Debug, PartialEq, Eq)]
pub struct Full;

pub trait WaitingList {
    fn take(&mut self) -> Option<Node>;
    fn put(&mut self, node: Node) -> Result<(), Full>;
    fn clear(&mut self);
    fn is_empty(&self) -> bool;
}

/// The least node first.
pub struct Heap {
    nodes: BinaryHeap<Reverse<Node>>,
    capacity: usize,
}

impl Heap {
    pub fn new(capacity: usize) -> Heap {
        Heap {
            nodes: BinaryHeap::with_capacity(capacity),
            capacity,
        }
    }
}

impl WaitingList for Heap {
    fn take(&mut self) -> Option<Node> {
        self.nodes.pop().map(|Reverse(node)| node)
    }

    fn put(&mut self, node: Node) -> Result<(), Full> {
        if self.nodes.len() == self.capacity {
            return Err(Full);
        }
        self.nodes.push(Reverse(node));
        Ok(())
    }

    fn clear(&mut self) {
        self.nodes.clear();
    }

    fn is_empty(&self) -> bool {
        self.nodes.is_empty()
    }
}

/// The newest node first.
pub struct Stack {
    nodes: Vec<Node>,
    capacity: usize,
}

impl Stack {
    pub fn new(capacity: usize) -> Stack {
        Stack {
            nodes: Vec::with_capacity(capacity),
            capacity,
        }
    }
}

impl WaitingList for Stack {
    fn take(&mut self) -> Option<Node> {
        self.nodes.pop()
    }

    fn put(&mut self, node: Node) -> Result<(), Full> {
        if self.nodes.len() == self.capacity {
            return Err(Full);
        }
        self.nodes.push(node);
        Ok(())
    }

    fn clear(&mut self) {
        self.nodes.clear();
    }

    fn is_empty(&self) -> bool {
        self.nodes.is_empty()
    }
}

const KEPT: usize = 8;

/// Keeps up to eight nodes, the newest first; further ones go into the list below.
pub struct Dive<L> {
    kept: [Node; KEPT],
    len: usize,
    below: L,
}

impl<L> Dive<L> {
    pub fn new(below: L) -> Dive<L> {
        Dive {
            kept: [Node::default(); KEPT],
            len: 0,
            below,
        }
    }
}

impl<L: WaitingList> WaitingList for Dive<L> {
    fn take(&mut self) -> Option<Node> {
        if self.len == 0 {
            return self.below.take();
        }
        self.len -= 1;
        Some(self.kept[self.len])
    }

    fn put(&mut self, node: Node) -> Result<(), Full> {
        if self.len == KEPT {
            return self.below.put(node);
        }
        self.kept[self.len] = node;
        self.len += 1;
        Ok(())
    }

    fn clear(&mut self) {
        self.len = 0;
        self.below.clear();
    }

    fn is_empty(&self) -> bool {
        self.len == 0 && self.below.is_empty()
    }
}
