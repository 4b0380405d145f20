//! One call with all that it is given, run by the reading and by the library.

use std::fmt;

use driver::rng::Rng;
use reading::calls::{self, All, Explained};
use reading::program::hex;
use reading::project::Lists;
use reading::queues::Served;
use reading::refusal::Refusal;
use reading::settings::Settings;
use spatialjoin::{Node, numbers};

use crate::lent::Lent;
use crate::settings::to_library;
use crate::tables::{of_reading, to_reading};

#[derive(Clone, Copy, Debug, PartialEq, Eq, PartialOrd, Ord)]
pub enum Kind {
    Load,
    Extract,
    Exchange,
    Logical,
    Print,
    Merge,
    Project,
    Put,
    Serve,
    ExtractAll,
    Explain,
}

impl Kind {
    /// A length, or minus a refusal's number: an extract's answer without its walk, a serve's without its
    /// queue, that of an extract of all conjuncts without its rounds, an explain's without what is taken.
    pub fn without_walk(self, answer: i64) -> i64 {
        match (self, answer) {
            (Kind::Extract | Kind::Serve | Kind::ExtractAll | Kind::Explain, 0..) => {
                answer % 65_536
            }
            (Kind::Extract, _) => -(-answer % 256),
            _ => answer,
        }
    }

    /// An extract's walk; no other call has one.
    pub fn walk(self, answer: i64) -> i64 {
        match (self, answer) {
            (Kind::Extract, 0..) => answer / 65_536,
            (Kind::Extract, _) => -answer / 256,
            _ => 0,
        }
    }
}

/// An answer as one number. Request 10 of document 02: an extract's has the walk, which is 0 for every
/// other call.
fn number(walk: usize, answer: Result<usize, Refusal>) -> i64 {
    match answer {
        Ok(length) => (walk * 65_536 + length) as i64,
        Err(refusal) => -((walk * 256) as i64 + i64::from(refusal.number())),
    }
}

/// Request 12 of document 02: a serve's answer has the queue, and is 0 with both empty.
fn served_number(answer: Result<Option<Served>, Refusal>) -> i64 {
    let served = |served: Served| served.queue * 65_536 + served.length;
    number(0, answer.map(|frame| frame.map_or(0, served)))
}

/// Request 14 of document 02: rounds and length.
fn all_number(answer: Result<All, Refusal>) -> i64 {
    number(0, answer.map(|all| all.rounds * 65_536 + all.length))
}

/// Line, position and count; line and position are 0 without a match.
fn explained_number(answer: Result<Explained, Refusal>) -> i64 {
    let bill = |taken: Option<(u8, u16)>| {
        taken.map_or(0, |(line, position)| {
            usize::from(line) * 65_536 + usize::from(position)
        })
    };
    number(
        0,
        answer.map(|explained| bill(explained.taken) * 65_536 + explained.count),
    )
}

/// What a call is not given is empty.
pub struct Call {
    pub kind: Kind,
    /// Of a load, of a logical call, of a print, of a merge, of a put, of an extract of all conjuncts and of an
    /// explain.
    pub frame: Vec<u8>,
    pub n: usize,
    pub plan: Vec<u8>,
    /// Of an extract, of an exchange, of a merge and of a projection.
    pub scratch: Vec<u8>,
    /// Of a print.
    pub text: Vec<u8>,
    /// Of a load, of an extract and of a merge.
    pub table: Vec<Node>,
    /// Of an extract, of one of all conjuncts and of an explain.
    pub settings: Settings,
    /// Of a projection: the left one and the right one.
    pub lists: [Vec<u16>; 2],
    /// Of a put and of a serve.
    pub queues: Vec<u8>,
    /// Of a put.
    pub queue: u8,
    /// Of a serve, of an extract of all conjuncts, and of an explain: the verdicts.
    pub out: Vec<u8>,
}

/// An answer, and the buffers and the table after it.
#[derive(Default, PartialEq, Eq)]
pub struct Outcome {
    pub answer: i64,
    pub plan: Vec<u8>,
    pub scratch: Vec<u8>,
    pub text: Vec<u8>,
    pub table: Vec<Node>,
    pub queues: Vec<u8>,
    pub out: Vec<u8>,
}

/// The library's outcome, and whether it left alone what wasn't its to write.
pub struct Given {
    outcome: Outcome,
    /// The frame and the lists are as they were.
    read_only_holds: bool,
    guards_hold: bool,
}

impl Call {
    pub fn new(kind: Kind) -> Self {
        Call {
            kind,
            frame: Vec::new(),
            n: 0,
            plan: Vec::new(),
            scratch: Vec::new(),
            text: Vec::new(),
            table: Vec::new(),
            settings: Settings::OF_THE_PROGRAM,
            lists: [Vec::new(), Vec::new()],
            queues: Vec::new(),
            queue: 0,
            out: Vec::new(),
        }
    }

    pub fn expected(&self) -> Outcome {
        let (mut n, mut plan, mut scratch) = (self.n, self.plan.clone(), self.scratch.clone());
        let mut text = self.text.clone();
        let (mut queues, mut out) = (self.queues.clone(), self.out.clone());
        let mut table: Vec<_> = self.table.iter().map(to_reading).collect();
        let mut walk = 0;
        let answer = match self.kind {
            Kind::Load => calls::load(&self.frame, &mut n, &mut plan, &mut table),
            Kind::Extract => {
                let settings = self.settings;
                walk = calls::walk(n, &plan, &scratch, &table, settings);
                calls::extract(&mut n, &mut plan, &mut scratch, &table, settings)
            }
            Kind::Exchange => calls::exchange(&mut n, &mut plan, &mut scratch),
            Kind::Logical => {
                calls::logical(&self.frame).map(|bytes| u32::from_be_bytes(bytes) as usize)
            }
            Kind::Print => calls::print(&self.frame, &mut text),
            Kind::Merge => {
                let (plan, scratch) = (&mut plan, &mut scratch);
                calls::merge(&self.frame, &mut n, plan, scratch, &mut table)
            }
            Kind::Project => {
                let [left, right] = &self.lists;
                let lists = Lists { left, right };
                calls::project(&mut n, &mut plan, &mut scratch, lists)
            }
            Kind::Put => calls::put(&mut queues, self.queue, &self.frame),
            Kind::Serve => {
                let answer = served_number(calls::serve(&mut queues, &mut out));
                return Outcome {
                    answer,
                    queues,
                    out,
                    ..Outcome::default()
                };
            }
            Kind::ExtractAll | Kind::Explain => return self.expected_of_frame(),
        };
        Outcome {
            answer: number(walk, answer),
            plan,
            scratch,
            text,
            table: table.iter().map(of_reading).collect(),
            queues,
            out,
        }
    }

    /// Of a call that takes a frame, an output and settings.
    fn expected_of_frame(&self) -> Outcome {
        let mut out = self.out.clone();
        let answer = match self.kind {
            Kind::ExtractAll => {
                all_number(calls::extract_all(&self.frame, &mut out, self.settings))
            }
            _ => explained_number(calls::explain(&self.frame, &mut out, self.settings)),
        };
        Outcome {
            answer,
            out,
            ..Outcome::default()
        }
    }

    pub fn given(&self, rng: &mut Rng) -> Given {
        match self.kind {
            Kind::Put | Kind::Serve => self.given_of_queues(rng),
            Kind::ExtractAll | Kind::Explain => self.given_of_frame(rng),
            _ => self.given_of_plan(rng),
        }
    }

    fn given_of_queues(&self, rng: &mut Rng) -> Given {
        let frame = Lent::bytes(rng, &self.frame);
        let mut queues = Lent::bytes(rng, &self.queues);
        let mut out = Lent::bytes(rng, &self.out);
        let answer = match self.kind {
            Kind::Put => numbers::put(queues.items_mut(), self.queue, frame.items()),
            _ => numbers::serve(queues.items_mut(), out.items_mut()),
        };
        Given {
            outcome: Outcome {
                answer,
                queues: queues.items().to_vec(),
                out: out.items().to_vec(),
                ..Outcome::default()
            },
            read_only_holds: frame.items() == self.frame,
            guards_hold: [frame, queues, out].iter().all(Lent::guards_hold),
        }
    }

    /// Likewise.
    fn given_of_frame(&self, rng: &mut Rng) -> Given {
        let frame = Lent::bytes(rng, &self.frame);
        let mut out = Lent::bytes(rng, &self.out);
        let settings = to_library(self.settings);
        let answer = match self.kind {
            Kind::ExtractAll => numbers::extract_all(frame.items(), out.items_mut(), settings),
            _ => numbers::explain(frame.items(), out.items_mut(), settings),
        };
        Given {
            outcome: Outcome {
                answer,
                out: out.items().to_vec(),
                ..Outcome::default()
            },
            read_only_holds: frame.items() == self.frame,
            guards_hold: frame.guards_hold() && out.guards_hold(),
        }
    }

    fn given_of_plan(&self, rng: &mut Rng) -> Given {
        let frame = Lent::bytes(rng, &self.frame);
        let mut plan = Lent::bytes(rng, &self.plan);
        let mut scratch = Lent::bytes(rng, &self.scratch);
        let mut text = Lent::bytes(rng, &self.text);
        let mut table = Lent::records(rng, &self.table);
        let lists = self.lists.each_ref().map(|list| Lent::list(rng, list));
        let n = self.n;
        let answer = match self.kind {
            Kind::Load => numbers::load(frame.items(), plan.items_mut(), table.items_mut()),
            Kind::Extract => {
                let (plan, scratch) = (plan.items_mut(), scratch.items_mut());
                numbers::extract(plan, n, scratch, table.items(), to_library(self.settings))
            }
            Kind::Exchange => numbers::exchange(plan.items_mut(), n, scratch.items_mut()),
            Kind::Logical => numbers::logical(frame.items()),
            Kind::Print => numbers::print(frame.items(), text.items_mut()),
            Kind::Merge => {
                let (plan, scratch) = (plan.items_mut(), scratch.items_mut());
                numbers::merge(frame.items(), plan, n, scratch, table.items_mut())
            }
            Kind::Project => {
                let [left, right] = lists.each_ref().map(Lent::items);
                numbers::project(plan.items_mut(), n, scratch.items_mut(), left, right)
            }
            Kind::Put | Kind::Serve | Kind::ExtractAll | Kind::Explain => {
                unreachable!("they take no plan")
            }
        };
        Given {
            outcome: Outcome {
                answer,
                plan: plan.items().to_vec(),
                scratch: scratch.items().to_vec(),
                text: text.items().to_vec(),
                table: table.items().to_vec(),
                ..Outcome::default()
            },
            read_only_holds: frame.items() == self.frame
                && lists.each_ref().map(Lent::items) == self.lists.each_ref().map(Vec::as_slice),
            guards_hold: [frame, plan, scratch, text].iter().all(Lent::guards_hold)
                && table.guards_hold()
                && lists.iter().all(Lent::guards_hold),
        }
    }
}

impl Given {
    /// What differs from the expected outcome.
    pub fn faults(&self, expected: &Outcome) -> Vec<String> {
        let mut faults = Vec::new();
        if self.outcome.answer != expected.answer {
            faults.push(format!("the answer, {}", self.outcome.answer));
        }
        let buffers = [
            ("plan", &self.outcome.plan, &expected.plan),
            ("scratch", &self.outcome.scratch, &expected.scratch),
            ("text", &self.outcome.text, &expected.text),
            ("queues", &self.outcome.queues, &expected.queues),
            ("output", &self.outcome.out, &expected.out),
        ];
        for (name, given, expected) in buffers {
            if given != expected {
                faults.push(format!("the {name}, {}", shown(given)));
            }
        }
        if self.outcome.table != expected.table {
            faults.push(format!("the table, {}", records(&self.outcome.table)));
        }
        if !self.read_only_holds {
            faults.push("the frame or a list, which was written to".to_owned());
        }
        if !self.guards_hold {
            faults.push("bytes outside the buffers, which were written to".to_owned());
        }
        faults
    }
}

fn records(table: &[Node]) -> String {
    let record = |node: &Node| format!("{}:{}-{}", node.kind, node.start, node.end);
    let records: Vec<String> = table.iter().map(record).collect();
    format!("{} records: {}", table.len(), records.join(" "))
}

fn items(list: &[u16]) -> String {
    let items: Vec<String> = list.iter().map(u16::to_string).collect();
    format!("{} items: {}", list.len(), items.join(" "))
}

fn shown(bytes: &[u8]) -> String {
    let digits = String::from_utf8_lossy(&hex(bytes)).into_owned();
    format!("{} bytes: {digits}", bytes.len())
}

impl fmt::Display for Call {
    fn fmt(&self, f: &mut fmt::Formatter<'_>) -> fmt::Result {
        if let Kind::Put | Kind::Serve = self.kind {
            writeln!(f, "{:?}, queue {}", self.kind, self.queue)?;
            writeln!(f, "  frame    {}", shown(&self.frame))?;
            writeln!(f, "  queues   {}", shown(&self.queues))?;
            return write!(f, "  output   {}", shown(&self.out));
        }
        if let Kind::ExtractAll | Kind::Explain = self.kind {
            writeln!(f, "{:?}\n  {:?}", self.kind, self.settings)?;
            writeln!(f, "  frame    {}", shown(&self.frame))?;
            return write!(f, "  output   {}", shown(&self.out));
        }
        writeln!(f, "{:?}, n = {}", self.kind, self.n)?;
        if let Kind::Extract = self.kind {
            writeln!(f, "  {:?}", self.settings)?;
        }
        writeln!(f, "  frame    {}", shown(&self.frame))?;
        writeln!(f, "  plan     {}", shown(&self.plan))?;
        writeln!(f, "  scratch  {}", shown(&self.scratch))?;
        writeln!(f, "  text     {}", shown(&self.text))?;
        writeln!(f, "  left     {}", items(&self.lists[0]))?;
        writeln!(f, "  right    {}", items(&self.lists[1]))?;
        write!(f, "  table    {}", records(&self.table))
    }
}

impl fmt::Display for Outcome {
    fn fmt(&self, f: &mut fmt::Formatter<'_>) -> fmt::Result {
        writeln!(f, "  answer   {}", self.answer)?;
        if self.plan.is_empty() && !self.out.is_empty() && self.queues.is_empty() {
            return write!(f, "  output   {}", shown(&self.out));
        }
        if !self.queues.is_empty() {
            writeln!(f, "  queues   {}", shown(&self.queues))?;
            return write!(f, "  output   {}", shown(&self.out));
        }
        writeln!(f, "  plan     {}", shown(&self.plan))?;
        writeln!(f, "  scratch  {}", shown(&self.scratch))?;
        writeln!(f, "  text     {}", shown(&self.text))?;
        write!(f, "  table    {}", records(&self.table))
    }
}
