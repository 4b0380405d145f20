//! What was compared, counted.

use std::collections::BTreeMap;
use std::fmt;
use std::process::ExitStatus;

use reading::program::parse;

use crate::compare::{Compared, Expected};
use crate::make::Case;
use crate::original::{AsItIs, Tried};

#[derive(Default)]
struct ClassCount {
    frames: u64,
    lines: u64,
    differences: u64,
}

#[derive(Default)]
struct AnswerCount {
    lines: u64,
    asked: u64,
}

#[derive(Default)]
struct TriedCount {
    panics: u64,
    extracts: u64,
    nothing: u64,
}

/// What the original did as it is, by our answer.
type AsItIsCounts = BTreeMap<&'static str, AsItIsCount>;

#[derive(Default)]
struct AsItIsCount {
    panics: u64,
    takes: u64,
    another: u64,
    nothing: u64,
}

/// A case with a difference, its first one, and the smallest lines that still have one when
/// they are run alone.
pub struct Difference {
    number: u64,
    pub case: Case,
    seen: Compared,
    pub smallest: Vec<Compared>,
}

#[derive(Default)]
pub struct Report {
    classes: BTreeMap<&'static str, ClassCount>,
    answers: BTreeMap<&'static str, AnswerCount>,
    tried: BTreeMap<String, TriedCount>,
    nearest: AsItIsCounts,
    marked: AsItIsCounts,
    runs: u64,
    /// Lines that the planner wrote.
    pub written: u64,
    first_difference: Option<u64>,
    pub differences: u64,
    pub shown: Vec<Difference>,
}

impl Report {
    pub fn count_line(&mut self, compared: &Compared) {
        let kind = kind(&compared.line, &compared.expected.reading);
        let count = self.answers.entry(kind).or_default();
        count.lines += 1;
        count.asked += u64::from(compared.expected.original.is_some());
    }

    pub fn count_tried(&mut self, refusal: &[u8], tried: Tried) {
        let refusal = String::from_utf8_lossy(refusal).into_owned();
        let count = self.tried.entry(refusal).or_default();
        match tried {
            Tried::Panics => count.panics += 1,
            Tried::Extracts => count.extracts += 1,
            Tried::FindsNothing => count.nothing += 1,
        }
    }

    /// An extract of a frame with a k of 0 or a bound of mark columns.
    pub fn count_as_it_is(&mut self, expected: &Expected) {
        let cases = [
            (&expected.nearest, &mut self.nearest),
            (&expected.marked, &mut self.marked),
        ];
        for (as_it_is, counts) in cases {
            let Some(as_it_is) = as_it_is else {
                continue;
            };
            let count = counts.entry(kind(b"21", &expected.reading)).or_default();
            match as_it_is {
                AsItIs::Panics => count.panics += 1,
                AsItIs::TakesIt => count.takes += 1,
                AsItIs::TakesAnother => count.another += 1,
                AsItIs::FindsNothing => count.nothing += 1,
            }
        }
    }

    pub fn count_case(&mut self, number: u64, case: &Case, differences: u64) {
        let count = self.classes.entry(case.class).or_default();
        count.frames += 1;
        count.lines += case.lines.len() as u64;
        count.differences += differences;
        self.differences += differences;
        if differences > 0 {
            self.first_difference.get_or_insert(number);
        }
    }

    /// Keeps a case to show, unless one of the same kind is kept.
    pub fn show(&mut self, number: u64, case: &Case, seen: Compared) {
        let same = |shown: &Difference| {
            shown.seen.kinds() == seen.kinds() && shown.case.class == case.class
        };
        if !self.shown.iter().any(same) {
            self.shown.push(Difference {
                number,
                case: case.clone(),
                seen,
                smallest: Vec::new(),
            });
        }
    }

    /// Lines that nobody asked for, or a bad end, are differences as well.
    pub fn end_of_run(&mut self, lines: usize, lines_left: usize, status: ExitStatus) {
        self.runs += 1;
        self.written += lines as u64;
        if lines_left > 0 {
            println!("the planner wrote {lines_left} lines too many");
            self.differences += 1;
        }
        if !status.success() {
            println!("the planner ended with {status}");
            self.differences += 1;
        }
    }
}

impl Compared {
    /// What the answer is, and what it is said to be.
    fn kinds(&self) -> [&'static str; 2] {
        [&self.expected.reading, &self.planner].map(|answer| kind(&self.line, answer))
    }
}

/// The kind of an answer, from the line in and the line out.
fn kind(line: &[u8], answer: &[u8]) -> &'static str {
    let exchange = line == b"22";
    match answer {
        [_, _] => refusal_kind(answer),
        _ if line.starts_with(b"02") => names_kind(answer),
        [b'0', b'0', b'0', b'1', ..] if exchange => "frame exchanged",
        [b'0', b'0', b'0', b'1', ..] => "frame loaded",
        [b'0', b'0', b'1', b'1', ..] if exchange => "relation exchanged",
        [b'0', b'0', b'1', b'1', ..] => "relation extracted",
        [b'0', b'0', b'1', b'2', ..] if exchange => "distance exchanged",
        [b'0', b'0', b'1', b'2', ..] => "distance extracted",
        [b'0', b'0', b'1', b'3', ..] if exchange => "KNN exchanged",
        [b'0', b'0', b'1', b'3', ..] => "KNN extracted",
        _ => STRANGE,
    }
}

const STRANGE: &str = "strange line";

fn refusal_kind(answer: &[u8]) -> &'static str {
    const REFUSALS: [&str; 14] = [
        "refusal  1",
        "refusal  2",
        "refusal  3",
        "refusal  4",
        "refusal  5",
        "refusal  6",
        "refusal  7",
        "refusal  8",
        "refusal  9",
        "refusal 10",
        "refusal 11",
        "refusal 12",
        "refusal 13",
        "refusal 14",
    ];
    match parse(answer).as_deref() {
        Ok([number @ 1..=14]) => REFUSALS[usize::from(number - 1)],
        _ => STRANGE,
    }
}

fn names_kind(answer: &[u8]) -> &'static str {
    match answer.last() {
        Some(b'0') => "names, query side left",
        Some(b'1') => "names, query side right",
        Some(b'2') => "names, no query side",
        _ => STRANGE,
    }
}

impl Report {
    fn write_classes(&self, f: &mut fmt::Formatter<'_>) -> fmt::Result {
        let (frames, lines, differences) = ("frames", "lines", "differences");
        writeln!(f, "class{frames:>29}{lines:>10}{differences:>13}")?;
        for (name, count) in &self.classes {
            let (frames, lines, differences) = (count.frames, count.lines, count.differences);
            writeln!(f, "{name:<24}{frames:>10}{lines:>10}{differences:>13}")?;
        }
        Ok(())
    }

    fn write_answers(&self, f: &mut fmt::Formatter<'_>) -> fmt::Result {
        let (lines, asked) = ("lines", "held to the original");
        writeln!(f, "\nanswer{lines:>28}{asked:>24}")?;
        for (name, AnswerCount { lines, asked }) in &self.answers {
            writeln!(f, "{name:<24}{lines:>10}{asked:>24}")?;
        }
        Ok(())
    }

    fn write_tried(&self, f: &mut fmt::Formatter<'_>) -> fmt::Result {
        let (panics, extracts, nothing) = ("panics", "extracts", "finds none");
        writeln!(
            f,
            "\nrefused; the original{panics:>13}{extracts:>10}{nothing:>13}"
        )?;
        for (refusal, count) in &self.tried {
            let (panics, extracts, nothing) = (count.panics, count.extracts, count.nothing);
            writeln!(
                f,
                "refusal {refusal}{panics:>24}{extracts:>10}{nothing:>13}"
            )?;
        }
        Ok(())
    }
}

fn write_as_it_is(f: &mut fmt::Formatter<'_>, what: &str, counts: &AsItIsCounts) -> fmt::Result {
    let head = format!("{what}; the original, as it is");
    let (takes, another, nothing, panics) = ("takes it", "another", "finds none", "panics");
    writeln!(
        f,
        "\n{head:<40}{takes:>10}{another:>10}{nothing:>12}{panics:>8}"
    )?;
    for (answer, count) in counts {
        let (takes, another, nothing) = (count.takes, count.another, count.nothing);
        let panics = count.panics;
        writeln!(
            f,
            "{answer:<40}{takes:>10}{another:>10}{nothing:>12}{panics:>8}"
        )?;
    }
    Ok(())
}

impl fmt::Display for Report {
    fn fmt(&self, f: &mut fmt::Formatter<'_>) -> fmt::Result {
        self.write_classes(f)?;
        self.write_answers(f)?;
        self.write_tried(f)?;
        write_as_it_is(f, "a k of 0", &self.nearest)?;
        write_as_it_is(f, "a bound of marks", &self.marked)?;
        for difference in &self.shown {
            write!(f, "\n{difference}")?;
        }
        let first = self.first_difference;
        let first = first.map_or("none".to_owned(), |number| number.to_string());
        writeln!(f, "\nruns of the planner: {}", self.runs)?;
        writeln!(f, "first difference at frame: {first}")?;
        write!(f, "differences: {}", self.differences)
    }
}

impl fmt::Display for Difference {
    fn fmt(&self, f: &mut fmt::Formatter<'_>) -> fmt::Result {
        let class = self.case.class;
        writeln!(f, "difference at frame {}, class {class}:", self.number)?;
        if self.smallest.iter().all(Compared::agrees) {
            writeln!(
                f,
                "  none if the frame's lines are run alone; in the long run:"
            )?;
            return write!(f, "{}", self.seen);
        }
        for compared in &self.smallest {
            write!(f, "{compared}")?;
        }
        Ok(())
    }
}

impl fmt::Display for Compared {
    fn fmt(&self, f: &mut fmt::Formatter<'_>) -> fmt::Result {
        let text = |line: &[u8]| String::from_utf8_lossy(line).into_owned();
        writeln!(f, "  in        {}", text(&self.line))?;
        if self.agrees() {
            return Ok(());
        }
        writeln!(f, "  planner   {}", text(&self.planner))?;
        writeln!(f, "  reading   {}", text(&self.expected.reading))?;
        match &self.expected.original {
            Some(original) => writeln!(f, "  original  {}", text(original)),
            None => Ok(()),
        }
    }
}
