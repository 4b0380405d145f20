//! Times all contenders of one operation in turns, on all groups of frames, so that what else the
//! machine does and how fast it runs falls on all of them alike.

use std::collections::BTreeMap;
use std::time::Duration;

use driver::progress::Progress;

use crate::clock::processor_time;

/// Who does the work that is timed.
#[derive(Clone, Copy, PartialEq, Eq, PartialOrd, Ord)]
pub enum Contender {
    Ours,
    RustFromBytes,
    RustCall,
    RustAnswer,
    /// The same call as ours, in plain Rust.
    PlainRust,
    /// Likewise in plain C.
    PlainC,
    /// Ours, beside our print or merge.
    Load,
    /// Ours, beside our projection.
    Exchange,
    /// Ours, beside our extract of all conjuncts.
    LoadAndExtract,
    Copy,
}

/// Does the work on so many frames.
pub type Work<'a> = Box<dyn FnMut(usize) + 'a>;

pub type Works<'a> = Vec<(Contender, Work<'a>)>;

/// A group of frames, of this mean length, and what is done with them.
pub struct Task<'a> {
    pub name: &'static str,
    pub bytes: f64,
    pub works: Works<'a>,
}

/// A group of frames, and how long it took.
pub struct Row {
    pub name: &'static str,
    pub bytes: f64,
    pub readings: BTreeMap<Contender, Readings>,
}

/// Nanoseconds a frame, one reading a round.
pub type Readings = Vec<f64>;

/// The least time of a batch, which is one reading of the clock.
const BATCH: Duration = Duration::from_millis(4);
const WARM_UP: Duration = Duration::from_millis(20);

/// The rounds of all operations, and how many of them are done.
pub struct Rounds {
    each: usize,
    done: u64,
    progress: Progress,
}

impl Rounds {
    /// So many of each operation.
    pub fn new(each: usize, operations: usize) -> Self {
        Rounds {
            each,
            done: 0,
            progress: Progress::new("rounds of all operations", (each * operations) as u64),
        }
    }

    pub fn measure(&mut self, tasks: Vec<Task<'_>>) -> Vec<Row> {
        let mut all: Vec<Course<'_>> = tasks.into_iter().map(Course::warmed_up).collect();
        for _ in 0..self.each {
            let running = all.iter_mut().flat_map(|course| &mut course.running);
            running.for_each(Running::take_reading);
            self.done += 1;
            self.progress.done(self.done);
        }
        all.into_iter().map(Course::row).collect()
    }
}

/// A task under way.
struct Course<'a> {
    name: &'static str,
    bytes: f64,
    running: Vec<Running<'a>>,
}

impl<'a> Course<'a> {
    fn warmed_up(task: Task<'a>) -> Self {
        Course {
            name: task.name,
            bytes: task.bytes,
            running: task.works.into_iter().map(Running::warmed_up).collect(),
        }
    }

    fn row(self) -> Row {
        let readings = |running: Running<'_>| (running.contender, running.readings);
        Row {
            name: self.name,
            bytes: self.bytes,
            readings: self.running.into_iter().map(readings).collect(),
        }
    }
}

struct Running<'a> {
    contender: Contender,
    work: Work<'a>,
    /// Frames in a batch.
    times: usize,
    readings: Readings,
}

impl<'a> Running<'a> {
    /// Works for some time, and finds out how many frames make a batch.
    fn warmed_up((contender, mut work): (Contender, Work<'a>)) -> Self {
        let start = processor_time();
        let mut times = 1;
        loop {
            let batch = time(&mut work, times);
            if batch < BATCH {
                times *= 2;
            } else if processor_time() - start > WARM_UP {
                break;
            }
        }
        Running {
            contender,
            work,
            times,
            readings: Vec::new(),
        }
    }

    fn take_reading(&mut self) {
        let nanoseconds = time(&mut self.work, self.times).as_nanos() as f64;
        self.readings.push(nanoseconds / self.times as f64);
    }
}

fn time(work: &mut Work<'_>, times: usize) -> Duration {
    let start = processor_time();
    work(times);
    processor_time() - start
}
