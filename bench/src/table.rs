//! Tables in Markdown.

use crate::frames::{
    ALL_LONG, ALL_LONG_ONE, ALL_MIDDLE, ALL_MIDDLE_ONE, ALL_SHORT, ALL_SHORT_ONE, HALF_STAY,
    MANY_RECORDS, NONE_STAYS, ONE_KIB, SIXTEEN_KIB,
};
use crate::measure::{Contender, Row};
use crate::queues::{QUEUED_LONG, QUEUED_SHORT};

pub struct Table {
    pub title: &'static str,
    pub columns: &'static [Column],
    pub rows: Vec<Row>,
}

/// The value below which this many quarters of the values lie; between two of them, as far along as the
/// quarters are, so that two readings have a spread too.
fn quartile(values: &[f64], number: usize) -> f64 {
    let mut sorted = values.to_vec();
    sorted.sort_by(f64::total_cmp);
    let (place, part) = (
        (sorted.len() - 1) * number / 4,
        (sorted.len() - 1) * number % 4,
    );
    let next = sorted[(place + 1).min(sorted.len() - 1)];
    sorted[place] + (next - sorted[place]) * part as f64 / 4.0
}

/// Half the distance between the quartiles, in percent of the median; of one reading there is none.
fn spread(readings: &[f64]) -> String {
    let half = (quartile(readings, 3) - quartile(readings, 1)) / 2.0;
    let percent = 100.0 * half / median(readings);
    match (readings.len(), percent) {
        (1, _) => String::new(),
        (_, ..0.95) => format!(" ±{percent:.1} %"),
        _ => format!(" ±{percent:.0} %"),
    }
}

fn median(values: &[f64]) -> f64 {
    quartile(values, 2)
}

/// The median of the rounds' ratios, since the machine is as fast for both in a round.
fn median_ratio(above: &[f64], below: &[f64]) -> f64 {
    let ratios: Vec<f64> = above.iter().zip(below).map(|(a, b)| a / b).collect();
    median(&ratios)
}

impl Row {
    /// The time of these contenders together, for one of ours.
    fn ratio(&self, to: &[Contender]) -> Option<f64> {
        let ours = self.readings.get(&Contender::Ours)?;
        let mut total = vec![0.0; ours.len()];
        for contender in to {
            let readings = self.readings.get(contender)?;
            total
                .iter_mut()
                .zip(readings)
                .for_each(|(sum, r)| *sum += r);
        }
        Some(median_ratio(&total, ours))
    }

    /// How many times as long as plain C ours takes.
    fn ours_to_c(&self) -> Option<f64> {
        self.ratio(&[Contender::PlainC]).map(f64::recip)
    }

    /// Median and spread.
    fn time(&self, contender: Contender) -> String {
        let Some(readings) = self.readings.get(&contender) else {
            return NONE.to_owned();
        };
        format!("{}{}", number(median(readings)), spread(readings))
    }

    fn per_byte(&self, contender: Contender) -> Option<f64> {
        let readings = self.readings.get(&contender)?;
        Some(median(readings) / self.bytes)
    }
}

/// A column's head, and what a row has in it.
pub type Column = (&'static str, fn(&Row) -> String);

const FRAMES: Column = ("frames", |row| row.name.to_owned());
const BYTES: Column = ("bytes", |row| number(row.bytes));
const OURS: Column = ("ours", |row| row.time(Contender::Ours));
const OURS_A_BYTE: Column = ("ours, a byte", |row| shown(row.per_byte(Contender::Ours)));
const COPY: Column = ("copy", |row| row.time(Contender::Copy));
const OURS_TO_COPY: Column = ("ours / copy", |row| {
    shown(row.ratio(&[Contender::Copy]).map(f64::recip))
});

const FROM_BYTES_TO_OURS: Column = ("Rust from bytes / ours", |row| {
    shown(row.ratio(&[Contender::RustFromBytes]))
});
const CALL_AND_ANSWER_TO_OURS: Column = ("Rust call and answer / ours", |row| {
    shown(row.ratio(&[Contender::RustCall, Contender::RustAnswer]))
});
const CALL_TO_OURS: Column = ("Rust call / ours", |row| {
    shown(row.ratio(&[Contender::RustCall]))
});
const FROM_BYTES: Column = ("Rust from bytes", |row| row.time(Contender::RustFromBytes));
const FROM_BYTES_A_BYTE: Column = ("Rust from bytes, a byte", |row| {
    shown(row.per_byte(Contender::RustFromBytes))
});
const CALL: Column = ("Rust call", |row| row.time(Contender::RustCall));
const ANSWER: Column = ("Rust answer", |row| row.time(Contender::RustAnswer));
const PLAIN_TO_OURS: Column = ("plain Rust / ours", |row| {
    shown(row.ratio(&[Contender::PlainRust]))
});
const PLAIN: Column = ("plain Rust", |row| row.time(Contender::PlainRust));
const OURS_TO_C: Column = ("ours / plain C", |row| shown(row.ours_to_c()));
const PLAIN_C: Column = ("plain C", |row| row.time(Contender::PlainC));

/// Beside the original and plain C.
pub const ORIGINAL: &[Column] = &[
    FRAMES,
    BYTES,
    FROM_BYTES_TO_OURS,
    CALL_AND_ANSWER_TO_OURS,
    CALL_TO_OURS,
    OURS_TO_C,
    OURS,
    OURS_A_BYTE,
    FROM_BYTES,
    FROM_BYTES_A_BYTE,
    CALL,
    ANSWER,
    PLAIN_C,
    COPY,
    OURS_TO_COPY,
];

/// Beside the original, plain Rust and plain C.
pub const BOTH: &[Column] = &[
    FRAMES,
    BYTES,
    FROM_BYTES_TO_OURS,
    CALL_AND_ANSWER_TO_OURS,
    CALL_TO_OURS,
    PLAIN_TO_OURS,
    OURS_TO_C,
    OURS,
    OURS_A_BYTE,
    FROM_BYTES,
    FROM_BYTES_A_BYTE,
    CALL,
    ANSWER,
    PLAIN,
    PLAIN_C,
    COPY,
    OURS_TO_COPY,
];

/// Beside plain Rust, plain C and our load, where the original has no such call.
pub const YARDSTICK: &[Column] = &[
    FRAMES,
    BYTES,
    PLAIN_TO_OURS,
    OURS_TO_C,
    ("ours / our load", |row| {
        shown(row.ratio(&[Contender::Load]).map(f64::recip))
    }),
    OURS,
    OURS_A_BYTE,
    PLAIN,
    PLAIN_C,
    ("plain Rust, a byte", |row| {
        shown(row.per_byte(Contender::PlainRust))
    }),
    ("our load", |row| row.time(Contender::Load)),
    ("our load, a byte", |row| {
        shown(row.per_byte(Contender::Load))
    }),
    COPY,
    OURS_TO_COPY,
];

/// Beside plain Rust, plain C and our exchange of the same plan, where the original has no such call.
pub const BESIDE_EXCHANGE: &[Column] = &[
    FRAMES,
    BYTES,
    PLAIN_TO_OURS,
    OURS_TO_C,
    ("ours / our exchange", |row| {
        shown(row.ratio(&[Contender::Exchange]).map(f64::recip))
    }),
    OURS,
    OURS_A_BYTE,
    PLAIN,
    PLAIN_C,
    ("plain Rust, a byte", |row| {
        shown(row.per_byte(Contender::PlainRust))
    }),
    ("our exchange", |row| row.time(Contender::Exchange)),
    COPY,
    OURS_TO_COPY,
];

/// Beside plain Rust, plain C and one load and extract of ours, where the original has no such call.
pub const BESIDE_EXTRACT: &[Column] = &[
    FRAMES,
    BYTES,
    PLAIN_TO_OURS,
    OURS_TO_C,
    ("ours / our load and extract", |row| {
        shown(row.ratio(&[Contender::LoadAndExtract]).map(f64::recip))
    }),
    OURS,
    OURS_A_BYTE,
    PLAIN,
    PLAIN_C,
    ("our load and extract", |row| {
        row.time(Contender::LoadAndExtract)
    }),
    COPY,
    OURS_TO_COPY,
];

/// Beside plain Rust and plain C, of calls that take no plan; the bytes are those that the call copies.
pub const QUEUED: &[Column] = &[
    ("waiting", |row| row.name.to_owned()),
    ("bytes copied", |row| number(row.bytes)),
    PLAIN_TO_OURS,
    OURS_TO_C,
    OURS,
    OURS_A_BYTE,
    PLAIN,
    PLAIN_C,
    COPY,
    OURS_TO_COPY,
];

const NONE: &str = "–";

/// A number, or that there is none.
fn shown(value: Option<f64>) -> String {
    value.map_or(NONE.to_owned(), number)
}

/// Three digits or so, thousands apart.
fn number(value: f64) -> String {
    match value {
        ..0.1 => format!("{value:.4}"),
        ..10.0 => format!("{value:.2}"),
        ..100.0 => format!("{value:.1}"),
        _ => {
            let digits = format!("{value:.0}").into_bytes();
            let groups: Vec<&[u8]> = digits.rchunks(3).rev().collect();
            String::from_utf8_lossy(&groups.join(&b',')).into_owned()
        }
    }
}

impl Table {
    pub fn print(&self) {
        let original = |row: &Row| row.readings.contains_key(&Contender::RustFromBytes);
        let note = match self.rows.iter().any(original) {
            true => "",
            false => " (the original has no such call)",
        };
        println!("## {}{note}\n", self.title);
        let heads: Vec<&str> = self.columns.iter().map(|(head, _)| *head).collect();
        println!("| {} |", heads.join(" | "));
        println!("|---{}|", "|--:".repeat(heads.len() - 1));
        for row in &self.rows {
            let cells: Vec<String> = self.columns.iter().map(|(_, cell)| cell(row)).collect();
            println!("| {} |", cells.join(" | "));
        }
        println!();
    }

    fn row(&self, name: &str) -> Option<&Row> {
        self.rows.iter().find(|row| row.name == name)
    }

    /// Our time on a group of frames.
    fn ours(&self, name: &str) -> f64 {
        let readings = self
            .row(name)
            .and_then(|row| row.readings.get(&Contender::Ours));
        readings.map_or(f64::NAN, |readings| median(readings))
    }

    /// Cost per byte of the longest frames against that of 1 KiB.
    fn growth(&self, contender: Contender) -> Option<f64> {
        self.growth_between(ONE_KIB, SIXTEEN_KIB, contender)
    }

    /// Cost per byte of one group's frames against that of another's.
    fn growth_between(&self, short: &str, long: &str, contender: Contender) -> Option<f64> {
        let (short, long) = (self.row(short)?, self.row(long)?);
        let times = median_ratio(
            long.readings.get(&contender)?,
            short.readings.get(&contender)?,
        );
        Some(times * short.bytes / long.bytes)
    }

    fn print_growth(&self) {
        let per_byte = |name, contender| shown(self.row(name).and_then(|r| r.per_byte(contender)));
        let of = |contender| {
            let (short, long) = (
                per_byte(ONE_KIB, contender),
                per_byte(SIXTEEN_KIB, contender),
            );
            format!("{short} | {long} | {}", shown(self.growth(contender)))
        };
        let (ours, original) = (of(Contender::Ours), of(Contender::RustFromBytes));
        println!("| {} | {ours} | {original} |", self.title);
    }

    /// The row where a value is least, or greatest.
    fn extreme(&self, value: impl Fn(&Row) -> Option<f64>, greatest: bool) -> (f64, &'static str) {
        let sign = if greatest { -1.0 } else { 1.0 };
        let values = self
            .rows
            .iter()
            .filter_map(|row| Some((value(row)?, row.name)));
        let least = values.min_by(|a, b| (sign * a.0).total_cmp(&(sign * b.0)));
        least.unwrap_or((f64::NAN, NONE))
    }
}

/// Groups of short and of long frames of one make, which have the same name in several tables.
const GROWTH: [(&str, &str); 4] = [
    (ONE_KIB, SIXTEEN_KIB),
    (ALL_MIDDLE_ONE, ALL_LONG_ONE),
    (ALL_MIDDLE, ALL_LONG),
    (QUEUED_SHORT, QUEUED_LONG),
];

/// Whether a call's time grows as its frames do: that of a byte from 1 KiB to 16 KiB. The frame of a put has
/// at most 1 KiB, so it is from 64 bytes there.
pub fn print_linear(tables: &[Table]) {
    const MOST: f64 = 1.5;
    println!("## Growth of every call\n");
    println!("| call | from | to | a byte of the second over one of the first | at most {MOST} |");
    println!("|---|---|---|--:|---|");
    for table in tables {
        for (short, long) in GROWTH {
            let Some(times) = table.growth_between(short, long, Contender::Ours) else {
                continue;
            };
            let (title, times, linear) = (table.title, number(times), yes(times <= MOST));
            println!("| {title} | {short} | {long} | {times} | {linear} |");
        }
    }
    println!();
}

/// The columns of the table of all calls, after the call's.
const ALL: &[Column] = &[
    FRAMES,
    BYTES,
    OURS,
    FROM_BYTES_TO_OURS,
    CALL_AND_ANSWER_TO_OURS,
    CALL_TO_OURS,
    PLAIN_TO_OURS,
    OURS_TO_C,
    OURS_TO_COPY,
];

/// Every call on every group of frames, in one table.
pub fn print_all(tables: &[Table]) {
    println!("## All calls in one table\n");
    let heads: Vec<&str> = ALL.iter().map(|(head, _)| *head).collect();
    println!("| call | {} |", heads.join(" | "));
    println!("|---|---{}|", "|--:".repeat(heads.len() - 1));
    for table in tables {
        for row in &table.rows {
            let cells: Vec<String> = ALL.iter().map(|(_, cell)| cell(row)).collect();
            println!("| {} | {} |", table.title, cells.join(" | "));
        }
    }
    println!();
}

pub fn print_growth(tables: &[Table]) {
    println!("## Nanoseconds a byte, from 1,024 to 16,384 bytes\n");
    println!(
        "| operation | ours, 1,024 | ours, 16,384 | grows by | Rust from bytes, 1,024 \
         | Rust from bytes, 16,384 | grows by |"
    );
    println!("|---{}|", "|--:".repeat(6));
    tables.iter().for_each(Table::print_growth);
    println!();
}

/// The goals beside what was measured. Nothing is tested: the times are this machine's.
pub fn print_goals(load: &Table, load_and_extract: &Table, others: [&Table; 3]) {
    println!("## Goals\n");
    println!("| goal | measured | reached |");
    println!("|---|---|---|");
    print_speeds(load_and_extract);
    for table in [load, load_and_extract].into_iter().chain(others) {
        let growth = table.growth(Contender::Ours).unwrap_or(f64::NAN);
        let title = table.title;
        let goal = format!("{title}: a byte of 16,384 costs at most 1.3 times one of 1,024");
        print_goal(&goal, &format!("{} times", number(growth)), growth <= 1.3);
    }
    let copies = |row: &Row| row.ratio(&[Contender::Copy]).map(f64::recip);
    let (copies, name) = load.extreme(copies, true);
    let measured = format!("at most {} times ({name})", number(copies));
    let goal = "Load: within 8 times a copy of the same bytes";
    print_goal(goal, &measured, copies <= 8.0);
}

/// Those of request 3, about frames with as many records as there may be.
pub fn print_record_goals(load: &Table, load_and_extract: &Table, extract: &Table) {
    let row = load_and_extract.row(MANY_RECORDS);
    let faster = row.and_then(|row| row.ratio(&[Contender::RustFromBytes]));
    let faster = faster.unwrap_or(f64::NAN);
    print_goal(
        "Load and extract, 256 records: at least 15 times as fast as the Rust from the same bytes",
        &format!("{} times", number(faster)),
        faster >= 15.0,
    );
    for name in [MANY_RECORDS, NONE_STAYS, HALF_STAY] {
        let loads = extract.ours(name) / load.ours(name);
        let goal = format!("Extract, {name}: within 3 times the load of the same frame");
        print_goal(&goal, &format!("{} times", number(loads)), loads <= 3.0);
    }
}

/// Those of request 14: all conjuncts against one load and extract.
pub fn print_all_goals(all: &Table) {
    println!("| goal | measured | reached |");
    println!("|---|---|---|");
    for (name, most) in [
        (ALL_SHORT_ONE, 1.5),
        (ALL_SHORT, 1.5),
        (ALL_LONG_ONE, 3.0),
        (ALL_LONG, 3.0),
    ] {
        let row = all.row(name);
        let times = row.and_then(|row| row.ratio(&[Contender::LoadAndExtract]));
        let times = times.map_or(f64::NAN, f64::recip);
        let goal = format!("All conjuncts, {name}: within {most} times one load and extract");
        print_goal(&goal, &format!("{} times", number(times)), times <= most);
    }
    println!();
}

/// That of explain: one load and extract at the most, whatever the frame.
pub fn print_explain_goal(explain: &Table) {
    println!("| goal | measured | reached |");
    println!("|---|---|---|");
    let times = |row: &Row| row.ratio(&[Contender::LoadAndExtract]).map(f64::recip);
    let (times, name) = explain.extreme(times, true);
    let measured = format!("at most {} times ({name})", number(times));
    let goal = "Explain: at most one load and extract";
    print_goal(goal, &measured, times <= 1.0);
    println!();
}

fn print_speeds(load_and_extract: &Table) {
    use Contender::{RustAnswer, RustCall, RustFromBytes};
    const GOALS: [(&str, &[Contender], f64); 3] = [
        (
            "at least 5 times as fast as the Rust from the same bytes",
            &[RustFromBytes],
            5.0,
        ),
        (
            "no slower than the Rust's call and answer, its trees built before",
            &[RustCall, RustAnswer],
            1.0,
        ),
        (
            "no slower than the Rust's call alone, its trees built before",
            &[RustCall],
            1.0,
        ),
    ];
    let title = load_and_extract.title;
    for (goal, to, bound) in GOALS {
        let (ratio, name) = load_and_extract.extreme(|row| row.ratio(to), false);
        let measured = format!("at least {} times ({name})", number(ratio));
        print_goal(&format!("{title}: {goal}"), &measured, ratio >= bound);
    }
}

fn print_goal(goal: &str, measured: &str, reached: bool) {
    println!("| {goal} | {measured} | {} |", yes(reached));
}

fn yes(reached: bool) -> &'static str {
    if reached { "yes" } else { "no" }
}

/// How many times as long as plain C ours may take: in the median of a call's groups, if there is a goal for
/// that, and on the worst of them.
const C_GOALS: [(&str, Option<f64>, f64); 14] = [
    ("Load", Some(1.3), 1.9),
    ("Load and extract", Some(1.35), 1.9),
    ("Extract, a frame held", Some(1.4), 1.9),
    ("Exchange, a frame held", Some(1.4), 2.0),
    ("Exchange, an extraction held", Some(1.4), 2.0),
    ("Logical", Some(1.5), 2.0),
    ("Print", Some(1.3), 1.55),
    ("Merge, a frame held", Some(1.4), 1.8),
    ("Project by lists of the plan's own columns", Some(1.5), 1.8),
    ("Project by lists of 4,096 columns", Some(1.0), 1.4),
    ("Put, the last of these frames", None, 1.6),
    ("Serve, the first of these frames", None, 1.6),
    ("All conjuncts", Some(1.6), 1.9),
    ("Explain", Some(1.5), 2.0),
];

/// Ours over plain C, call by call, and the original over ours.
pub fn print_c_goals(tables: &[Table]) {
    println!("## Goals beside plain C\n");
    println!("| call | median | at most | reached | worst | at most | reached | on |");
    println!("|---|--:|--:|---|--:|--:|---|---|");
    for table in tables {
        let goal = C_GOALS.iter().find(|(title, ..)| *title == table.title);
        let (title, most, worst_most) = goal.expect("each call has one");
        let ratios: Vec<f64> = table.rows.iter().filter_map(Row::ours_to_c).collect();
        let (worst, name) = table.extreme(Row::ours_to_c, true);
        let median = median(&ratios);
        let reached = most.map_or(NONE, |most| yes(median <= most));
        let (most, worst_reached) = (shown(*most), yes(worst <= *worst_most));
        println!(
            "| {title} | {} | {most} | {reached} | {} | {} | {worst_reached} | {name} |",
            number(median),
            number(worst),
            number(*worst_most),
        );
    }
    println!();
    println!("| goal | measured | reached |");
    println!("|---|---|---|");
    for table in tables
        .iter()
        .filter(|table| table.title == "Load and extract")
    {
        print_original_goal(table);
    }
    println!();
}

/// On every group, and which of them miss it.
fn print_original_goal(load_and_extract: &Table) {
    const LEAST: f64 = 5.0;
    let ratio = |row: &Row| row.ratio(&[Contender::RustFromBytes]);
    let (least, name) = load_and_extract.extreme(ratio, false);
    let rows = load_and_extract.rows.iter();
    let missed = rows.filter(|row| ratio(row).is_some_and(|times| times < LEAST));
    let missed: Vec<&str> = missed.map(|row| row.name).collect();
    let measured = match missed.is_empty() {
        true => format!("at least {} times ({name})", number(least)),
        false => format!(
            "at least {} times ({name}); less on {}",
            number(least),
            missed.join("; ")
        ),
    };
    let title = load_and_extract.title;
    let goal = format!(
        "{title}: the Rust from bytes takes at least {LEAST} times as long, on every group"
    );
    print_goal(&goal, &measured, least >= LEAST);
}

#[cfg(test)]
mod tests {
    use super::{quartile, spread};

    #[test]
    fn quartiles_of_few_values() {
        let quartiles = |values: &[f64]| [1, 2, 3].map(|number| quartile(values, number));
        assert_eq!(quartiles(&[7.0]), [7.0, 7.0, 7.0]);
        assert_eq!(quartiles(&[3.0, 1.0]), [1.5, 2.0, 2.5]);
        assert_eq!(quartiles(&[1.0, 3.0, 2.0]), [1.5, 2.0, 2.5]);
        assert_eq!(quartiles(&[4.0, 3.0, 2.0, 1.0]), [1.75, 2.5, 3.25]);
        assert_eq!(quartiles(&[5.0, 4.0, 3.0, 2.0, 1.0]), [2.0, 3.0, 4.0]);
    }

    #[test]
    fn one_reading_has_no_spread_and_two_have() {
        assert_eq!(spread(&[100.0]), "");
        assert_eq!(spread(&[96.0, 104.0]), " ±2 %");
        assert_eq!(spread(&[99.0, 101.0]), " ±0.5 %");
        assert_eq!(spread(&[100.0; 5]), " ±0.0 %");
    }
}
