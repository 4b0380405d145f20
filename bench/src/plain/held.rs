//! The buffers that the yardsticks are lent.

use std::hint::black_box;

use reading::frame::MAX_BYTES;
use spatialjoin::{MOST_NODES, Node, Settings};

/// A plan, and a frame's table.
pub struct Plain {
    n: usize,
    plan: Vec<u8>,
    scratch: Vec<u8>,
    table: Vec<Node>,
}

impl Plain {
    pub fn new() -> Self {
        Plain {
            n: 0,
            plan: vec![0; MAX_BYTES],
            scratch: vec![0; MAX_BYTES],
            table: vec![Node::default(); MOST_NODES],
        }
    }

    /// These bytes as they are.
    pub fn holding(bytes: &[u8]) -> Self {
        let mut held = Plain::new();
        held.plan[..bytes.len()].copy_from_slice(bytes);
        held.n = bytes.len();
        held
    }

    pub fn load(&mut self, frame: &[u8]) {
        self.n = super::load(frame, &mut self.plan, &mut self.table).unwrap_or(0);
    }

    pub fn extract(&mut self) {
        let (plan, scratch) = (&mut self.plan, &mut self.scratch);
        let settings = black_box(Settings::default());
        let _ = black_box(super::extract(plan, self.n, scratch, &self.table, settings));
    }

    pub fn merge(&mut self, frame: &[u8]) {
        let (plan, scratch) = (&mut self.plan, &mut self.scratch);
        let _ = black_box(super::merge(frame, plan, self.n, scratch, &mut self.table));
    }

    pub fn project(&mut self, [left, right]: &[Vec<u16>; 2]) {
        let (plan, scratch) = (&mut self.plan, &mut self.scratch);
        let _ = black_box(super::project(plan, self.n, scratch, left, right));
    }

    /// The old plan is in the scratch: it is held again.
    pub fn go_back(&mut self) {
        std::mem::swap(&mut self.plan, &mut self.scratch);
    }
}

/// Buffers that hold each frame.
pub fn plans(frames: &[Vec<u8>]) -> Vec<Plain> {
    let held = |frame: &Vec<u8>| {
        let mut held = Plain::new();
        held.load(frame);
        held
    };
    frames.iter().map(held).collect()
}
