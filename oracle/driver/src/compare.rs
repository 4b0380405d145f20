//! Runs the planner on cases and holds each of its lines to the reading's and the original's.

use std::path::{Path, PathBuf};
use std::{io, iter};

use reading::program::Program;

use crate::make::{self, Case};
use crate::original::{AsItIs, Original, try_refused};
use crate::planner::Planner;
use crate::progress::Progress;
use crate::report::Report;
use crate::shrink::shrink;

/// Frames for one run of the planner.
const FRAMES_PER_RUN: u64 = 5_000;

pub struct Options {
    pub planner: PathBuf,
    /// At least 1.
    pub frames: u64,
    pub seed: u64,
    /// How many differences to show with their smallest input.
    pub show: usize,
}

/// What a line is to be answered with.
pub struct Expected {
    pub reading: Vec<u8>,
    /// Nothing where the original has no part in the answer. An extraction's position (request 4 of
    /// document 02) is left out of it.
    pub original: Option<Vec<u8>>,
    /// What the original's line is held to: the reading's, an extraction without its position.
    held_to: Vec<u8>,
    /// What the original does with a k of 0, for an extract of a frame that has one (request 5).
    pub nearest: Option<AsItIs>,
    /// Likewise with a bound of mark columns (request 8).
    pub marked: Option<AsItIs>,
}

/// Reading and original, each with its own plan.
#[derive(Default)]
pub struct References {
    reading: Program,
    original: Original,
}

impl Expected {
    /// Reading and original have the same answer, or the original has none.
    pub fn agrees(&self) -> bool {
        let original = self.original.as_ref();
        original.is_none_or(|line| *line == self.held_to)
    }

    /// A refusal with 6 or 8, where document 01 lists that the original does something else.
    pub fn is_listed_difference(&self) -> bool {
        matches!(&self.reading[..], b"06" | b"08")
    }
}

impl References {
    pub fn expect(&mut self, line: &[u8]) -> Expected {
        let reading = self.reading.answer(line);
        let (nearest, marked) = match line {
            b"21" => (self.original.nearest(), self.original.marked()),
            _ => (None, None),
        };
        Expected {
            nearest,
            marked,
            original: self.original.answer(line),
            held_to: without_position(line, &reading),
            reading,
        }
    }
}

/// The answer to a line; if it is an extraction, without the four digits after its first byte.
fn without_position(line: &[u8], answer: &[u8]) -> Vec<u8> {
    match (line, answer.first_chunk()) {
        (b"21" | b"22", Some(b"0011" | b"0012" | b"0013")) => [&answer[..4], &answer[8..]].concat(),
        _ => answer.to_vec(),
    }
}

/// A line in, the lines out.
pub struct Compared {
    pub line: Vec<u8>,
    pub expected: Expected,
    pub planner: Vec<u8>,
}

impl Compared {
    pub fn agrees(&self) -> bool {
        self.expected.reading == self.planner && self.expected.agrees()
    }
}

/// Runs the planner on these lines alone.
pub fn compare_lines(planner: &Path, lines: &[Vec<u8>]) -> io::Result<Vec<Compared>> {
    let running = Planner::start(planner)?;
    running.send(joined(lines, true));
    let mut references = References::default();
    let expected: Vec<Expected> = lines.iter().map(|line| references.expect(line)).collect();
    let mut output = running.finish()?.lines().into_iter();
    let compared = |(line, expected): (&Vec<u8>, Expected)| Compared {
        line: line.clone(),
        expected,
        planner: output.next().unwrap_or_default(),
    };
    Ok(lines.iter().zip(expected).map(compared).collect())
}

fn joined(lines: &[Vec<u8>], last_line_feed: bool) -> Vec<u8> {
    let mut bytes = lines.join(&b'\n');
    if last_line_feed && !lines.is_empty() {
        bytes.push(b'\n');
    }
    bytes
}

/// Compares as many frames as the options say.
pub fn compare(options: &Options) -> io::Result<Report> {
    let mut report = Report::default();
    let mut progress = Progress::new("frames compared", options.frames);
    let mut first = 0;
    while first < options.frames {
        let end = options.frames.min(first + FRAMES_PER_RUN);
        one_run(options, first, end, &mut report)?;
        first = end;
        progress.done(first);
    }
    if report.written == 0 {
        return Err(io::Error::other("the planner wrote no line"));
    }
    for difference in &mut report.shown {
        difference.smallest = shrink(&options.planner, &difference.case)?;
    }
    Ok(report)
}

/// One run of the planner: a few lines on a fresh plan, then the frames of these numbers.
fn one_run(options: &Options, first: u64, end: u64, report: &mut Report) -> io::Result<()> {
    let planner = Planner::start(&options.planner)?;
    let mut references = References::default();
    let fresh = make::fresh_case(!options.seed, first);
    let frames = (first + 1..=end).map(|number| make::case(options.seed, number));
    let mut cases = Vec::new();
    for (number, case) in (first..).zip(iter::once(fresh).chain(frames)) {
        let cut = number == end && ends_without_line_feed(end, &case);
        planner.send(joined(&case.lines, !cut));
        let expect = |line: &Vec<u8>| references.expect(line);
        let expected: Vec<Expected> = case.lines.iter().map(expect).collect();
        cases.push((number, case, expected));
    }
    let output = planner.finish()?;
    let mut lines = output.lines().into_iter();
    let written = lines.len();
    for (number, case, expected) in cases {
        hold(number, &case, expected, &mut lines, options.show, report);
    }
    report.end_of_run(written, lines.count(), output.status);
    Ok(())
}

/// Every other run does, unless its last line is empty and would be none.
fn ends_without_line_feed(end: u64, last: &Case) -> bool {
    let empty = last.lines.last().is_none_or(|line| line.is_empty());
    end / FRAMES_PER_RUN % 2 == 1 && !empty
}

/// Holds the planner's next lines to what a case expects.
fn hold(
    number: u64,
    case: &Case,
    expected: Vec<Expected>,
    planner: &mut impl Iterator<Item = Vec<u8>>,
    show: usize,
    report: &mut Report,
) {
    let mut differences = 0;
    for (line, expected) in case.lines.iter().zip(expected) {
        let compared = Compared {
            line: line.clone(),
            expected,
            planner: planner.next().unwrap_or_default(),
        };
        report.count_line(&compared);
        if compared.expected.is_listed_difference()
            && let Some(tried) = try_refused(line)
        {
            report.count_tried(&compared.expected.reading, tried);
        }
        report.count_as_it_is(&compared.expected);
        if !compared.agrees() {
            differences += 1;
            if differences == 1 && report.shown.len() < show {
                report.show(number, case, compared);
            }
        }
    }
    report.count_case(number, case, differences);
}
