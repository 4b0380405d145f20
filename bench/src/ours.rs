//! The library on buffers of a host, and plain C likewise.

use std::marker::PhantomData;

use reading::frame::MAX_BYTES;
use spatialjoin::{MOST_NODES, MOST_TEXT, Node, Settings, numbers};

use crate::calls::{Calls, Library};

/// The library's.
pub type Ours = Lent<Library>;

/// Both buffers as long as the longest frame, and the table too; they are never cleared.
pub struct Lent<C> {
    calls: PhantomData<C>,
    plan: Vec<u8>,
    scratch: Vec<u8>,
    table: Vec<Node>,
    n: usize,
    /// Of the last extract.
    walk: u32,
}

impl<C: Calls> Lent<C> {
    pub fn new() -> Self {
        Lent {
            calls: PhantomData,
            plan: vec![0; MAX_BYTES],
            scratch: vec![0; MAX_BYTES],
            table: vec![Node::default(); MOST_NODES],
            n: 0,
            walk: 0,
        }
    }

    pub fn load(&mut self, frame: &[u8]) {
        let answer = C::load(frame, &mut self.plan, &mut self.table);
        self.keep(answer);
    }

    pub fn extract(&mut self) {
        let (plan, scratch) = (&mut self.plan, &mut self.scratch);
        let answer = C::extract(plan, self.n, scratch, &self.table, Settings::default());
        self.walk = numbers::walk_of(answer);
        if answer >= 0 {
            self.n = numbers::length_of(answer);
        }
    }

    /// Extracts, and holds the old plan again: the call left it in the scratch, so the buffers
    /// change places and nothing is copied.
    pub fn extract_and_return(&mut self) {
        let (plan, scratch) = (&mut self.plan, &mut self.scratch);
        C::extract(plan, self.n, scratch, &self.table, Settings::default());
        std::mem::swap(&mut self.plan, &mut self.scratch);
    }

    pub fn merge(&mut self, frame: &[u8]) {
        let (plan, scratch) = (&mut self.plan, &mut self.scratch);
        let answer = C::merge(frame, plan, self.n, scratch, &mut self.table);
        self.keep(answer);
    }

    /// Likewise.
    pub fn merge_and_return(&mut self, frame: &[u8]) {
        let (plan, scratch) = (&mut self.plan, &mut self.scratch);
        C::merge(frame, plan, self.n, scratch, &mut self.table);
        std::mem::swap(&mut self.plan, &mut self.scratch);
    }

    /// These bytes as they are, by no call.
    pub fn hold(&mut self, plan: &[u8]) {
        self.plan[..plan.len()].copy_from_slice(plan);
        self.n = plan.len();
    }

    pub fn project(&mut self, [left, right]: &[Vec<u16>; 2]) {
        let (plan, scratch) = (&mut self.plan, &mut self.scratch);
        let answer = C::project(plan, self.n, scratch, left, right);
        self.keep(answer);
    }

    /// Likewise.
    pub fn project_and_return(&mut self, [left, right]: &[Vec<u16>; 2]) {
        C::project(&mut self.plan, self.n, &mut self.scratch, left, right);
        std::mem::swap(&mut self.plan, &mut self.scratch);
    }

    pub fn exchange(&mut self) {
        let answer = C::exchange(&mut self.plan, self.n, &mut self.scratch);
        self.keep(answer);
    }

    /// A refused call shows in the plan, which is checked before anything is timed.
    fn keep(&mut self, answer: i64) {
        self.n = usize::try_from(answer).unwrap_or(self.n);
    }

    pub fn plan(&self) -> &[u8] {
        &self.plan[..self.n]
    }

    pub fn walk(&self) -> u32 {
        self.walk
    }

    pub fn table(&self) -> &[Node] {
        &self.table
    }
}

/// A text buffer that is long enough for every frame; it is never cleared.
pub struct Console<C> {
    calls: PhantomData<C>,
    text: Vec<u8>,
    length: usize,
}

impl<C: Calls> Console<C> {
    pub fn new() -> Self {
        Console {
            calls: PhantomData,
            text: vec![0; MOST_TEXT],
            length: 0,
        }
    }

    /// A refused call shows in the text, which is checked before anything is timed.
    pub fn print(&mut self, frame: &[u8]) {
        self.length = usize::try_from(C::print(frame, &mut self.text)).unwrap_or(0);
    }

    pub fn text(&self) -> &[u8] {
        &self.text[..self.length]
    }
}

/// Four bytes as the program writes them: mask, count, query side.
pub fn logical<C: Calls>(frame: &[u8]) -> [u8; 4] {
    (C::logical(frame) as u32).to_be_bytes()
}
