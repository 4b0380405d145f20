//! A plan as a host holds it from call to call, and what may befall it in between.

use driver::make::damage::{damage, likely_bytes};
use driver::make::extractions::extraction;
use driver::make::lists::lists;
use driver::rng::Rng;
use reading::frame::MAX_BYTES;
use reading::settings::Settings;
use spatialjoin::Node;

use crate::call::{Call, Kind, Outcome};
use crate::tables;

pub struct Held {
    n: usize,
    plan: Vec<u8>,
    /// As the last call left it; longer than it need be, at times.
    table: Vec<Node>,
    /// Of every extract: within a list of calls they are fixed.
    settings: Settings,
}

impl Held {
    /// A fresh plan in a buffer with other bytes; at times the buffer is too short for this frame.
    pub fn new(rng: &mut Rng, frame: usize, settings: Settings) -> Self {
        let length = match rng.below(16) {
            0 => rng.below(frame + 1),
            1 => frame.saturating_sub(1),
            2..=7 => frame,
            8..=13 => frame + rng.below(64),
            14 => MAX_BYTES,
            _ => MAX_BYTES + rng.below(64),
        };
        let plan = any_bytes(rng, length);
        // A node has at least four bytes.
        let table = tables::to_fill(rng, frame / 4);
        Held {
            n: 0,
            plan,
            table,
            settings,
        }
    }

    /// These bytes, in a buffer with others after them.
    pub fn holding(rng: &mut Rng, bytes: &[u8], settings: Settings) -> Self {
        let after = rng.below(64);
        let plan = [bytes, &any_bytes(rng, after)].concat();
        let n = bytes.len();
        let table = Vec::new();
        Held {
            n,
            plan,
            table,
            settings,
        }
    }

    /// The held bytes; none where n is past the end.
    pub fn plan(&self) -> &[u8] {
        self.plan.get(..self.n).unwrap_or_default()
    }

    pub fn settings(&self) -> Settings {
        self.settings
    }

    /// What an accepted merge or projection left; the settings of the list are these.
    pub fn left_by(outcome: Outcome, settings: Settings) -> Option<Self> {
        let n = usize::try_from(outcome.answer).ok()?;
        let Outcome { plan, table, .. } = outcome;
        Some(Held {
            n,
            plan,
            table,
            settings,
        })
    }

    /// So many bytes more in the buffer, and as many records in the table as they could be nodes.
    pub fn lengthen(&mut self, rng: &mut Rng, by: usize) {
        self.plan.extend(any_bytes(rng, by));
        self.table.extend(tables::any_nodes(rng, by / 4));
    }

    /// At times with a table of another length; it stays the one that is held.
    pub fn with_frame(&mut self, kind: Kind, frame: Vec<u8>, rng: &mut Rng) -> Call {
        if kind == Kind::Load && rng.one_in(4) {
            self.table = tables::to_fill(rng, tables::nodes_of(&frame).len());
        }
        Call {
            frame,
            n: self.n,
            plan: self.plan.clone(),
            table: self.table.clone(),
            ..Call::new(kind)
        }
    }

    pub fn with_scratch(&self, kind: Kind, rng: &mut Rng) -> Call {
        // n may be past the buffer's end.
        let n = self.n.min(self.plan.len());
        let length = match rng.below(10) {
            0 => rng.below(n + 1),
            1 => n.saturating_sub(1),
            2 => n + 1,
            3 => n + rng.below(64),
            4 => MAX_BYTES,
            5 => 0,
            _ => n,
        };
        Call {
            n: self.n,
            plan: self.plan.clone(),
            scratch: any_bytes(rng, length),
            table: self.table.clone(),
            settings: self.settings,
            ..Call::new(kind)
        }
    }

    pub fn with_both(&self, kind: Kind, frame: Vec<u8>, rng: &mut Rng) -> Call {
        let call = self.with_scratch(kind, rng);
        Call { frame, ..call }
    }

    pub fn with_lists(&self, rng: &mut Rng) -> Call {
        let lists = lists(rng, self.plan());
        let call = self.with_scratch(Kind::Project, rng);
        Call { lists, ..call }
    }

    /// Takes over what a call left: its answer has the new length, if it is accepted.
    pub fn after(&mut self, kind: Kind, outcome: Outcome) {
        if kind != Kind::Logical
            && let Ok(length) = usize::try_from(kind.without_walk(outcome.answer))
        {
            self.n = length;
        }
        self.plan = outcome.plan;
        self.table = outcome.table;
    }

    /// In most cases nothing; else another table, or another n, a damaged plan, or one that no call
    /// made, at times with its own table.
    pub fn disturb(&mut self, rng: &mut Rng) {
        self.disturb_plan(rng);
        let held = self.plan();
        match rng.below(24) {
            0 => {
                let nodes = tables::nodes_of(held);
                tables::damage(rng, &mut self.table, nodes.len());
            }
            1 | 2 => {
                self.table = tables::nodes_of(held);
                let more = rng.below(3);
                self.table.extend(tables::any_nodes(rng, more));
            }
            _ => (),
        }
    }

    fn disturb_plan(&mut self, rng: &mut Rng) {
        match rng.below(48) {
            0 => self.n = self.past_the_end(rng),
            1 => self.n = rng.below(self.plan.len() + 1),
            2 => {
                let mut bytes = self.plan().to_vec();
                damage(rng, &mut bytes);
                self.hold(&bytes);
            }
            3..=6 => self.hold(&extraction(rng)),
            7 => {
                let mut bytes = extraction(rng);
                damage(rng, &mut bytes);
                self.hold(&bytes);
            }
            8 => {
                let mut bytes = likely_bytes(rng);
                bytes[0] = rng.pick(&[0x01, 0x02, 0x11, 0x12, 0x13]);
                self.hold(&bytes);
            }
            9 => {
                let length = rng.below(40);
                self.hold(&any_bytes(rng, length));
            }
            _ => (),
        }
    }

    /// The buffer grows if it must; bytes after the plan stay.
    fn hold(&mut self, bytes: &[u8]) {
        if self.plan.len() < bytes.len() {
            self.plan.resize(bytes.len(), 0);
        }
        self.plan[..bytes.len()].copy_from_slice(bytes);
        self.n = bytes.len();
    }

    fn past_the_end(&self, rng: &mut Rng) -> usize {
        let far = rng.below(MAX_BYTES);
        match rng.below(4) {
            0 => usize::MAX - far,
            1 => usize::MAX / 2 + far,
            2 => (1 << 32) + rng.below(self.plan.len() + 1),
            _ => self.plan.len() + 1 + rng.below(64),
        }
    }
}

pub fn any_bytes(rng: &mut Rng, length: usize) -> Vec<u8> {
    (0..length).map(|_| rng.draw() as u8).collect()
}
