//! Holds the library's calls to the reading's, buffers and all, on cases from a seed.

mod call;
mod conjuncts;
mod counts;
mod held;
mod lent;
mod merges;
mod projections;
mod queues;
mod settings;
mod tables;
mod texts;
mod verdicts;

use std::env;
use std::process::ExitCode;

use driver::make::pairs::{self, Pair};
use driver::make::{self, Case};
use driver::original::keep_guarded_panics_quiet;
use driver::progress::Progress;
use driver::rng::Rng;
use reading::frame::{LOGICAL, MAX_BYTES, PHYSICAL};
use reading::program::parse;
use reading::settings::Settings;

use call::{Call, Kind, Outcome};
use counts::Counts;
use held::Held;

const USAGE: &str = "library [--frames N] [--seed S] [--calls all|plan]";

/// With so many frames, or more, every answer of every call comes.
const ALL_REACHED: u64 = 20_000;

/// One case in so many has a list of puts and serves, whose buffers are long.
const WITH_QUEUES: u64 = 8;

/// What is asked on a line of a case.
enum Asked {
    OfFrame(Vec<u8>),
    OfPlan(Kind),
}

fn main() -> ExitCode {
    let words: Vec<String> = env::args().skip(1).collect();
    let Some(Options {
        frames,
        seed,
        calls,
    }) = options(&words)
    else {
        eprintln!("{USAGE}");
        return ExitCode::from(2);
    };
    if !spatialjoin::version_matches() {
        let (archive, package) = (spatialjoin::version(), spatialjoin::VERSION);
        eprintln!("the library is of version {archive}, not {package}; nothing was compared");
        return ExitCode::from(2);
    }
    println!("seed {seed}, {frames} frames");
    keep_guarded_panics_quiet();
    let mut counts = Counts::default();
    let mut progress = Progress::new("frames compared", frames);
    for number in 1..=frames {
        let mut rng = Rng::new(!seed, number);
        let case = make::case(seed, number);
        let compared = match calls {
            Calls::All => run(&mut rng, &case, &mut counts),
            Calls::Plan => run_plan(&mut rng, &case, &mut counts),
        };
        let compared = match calls {
            Calls::All if number % WITH_QUEUES == 0 => {
                compared.and_then(|()| queues::run(&mut rng, &mut counts))
            }
            _ => compared,
        };
        if let Err(difference) = compared {
            println!("difference at frame {number}\n{difference}");
            return ExitCode::FAILURE;
        }
        progress.done(number);
    }
    println!("{counts}, no difference");
    let unreached = counts.unreached();
    if matches!(calls, Calls::All) && frames >= ALL_REACHED && !unreached.is_empty() {
        eprintln!("no call was answered so: {}", unreached.join(", "));
        return ExitCode::from(2);
    }
    ExitCode::SUCCESS
}

struct Options {
    frames: u64,
    seed: u64,
    calls: Calls,
}

/// Which calls are made: all, or those of a case's lines on its plan.
enum Calls {
    All,
    Plan,
}

fn options(words: &[String]) -> Option<Options> {
    let (mut frames, mut seed, mut calls) = (200_000, 1, Calls::All);
    for pair in words.chunks(2) {
        let [name, value] = pair else {
            return None;
        };
        match name.as_str() {
            "--frames" => frames = value.parse().ok().filter(|frames| *frames > 0)?,
            "--seed" => seed = value.parse().ok()?,
            "--calls" if value == "all" => calls = Calls::All,
            "--calls" if value == "plan" => calls = Calls::Plan,
            _ => return None,
        }
    }
    Some(Options {
        frames,
        seed,
        calls,
    })
}

/// The calls of a case's lines alone, on one plan and under the program's settings.
fn run_plan(rng: &mut Rng, case: &Case, counts: &mut Counts) -> Result<(), String> {
    let asked: Vec<Asked> = case.lines.iter().map(|line| asked(rng, line)).collect();
    let mut held = Held::new(rng, longest(&asked), Settings::OF_THE_PROGRAM);
    for asked in &asked {
        next_call(rng, asked, &mut held, counts)?;
    }
    Ok(())
}

/// The call that is asked for, on the plan that is held.
fn next_call(
    rng: &mut Rng,
    asked: &Asked,
    held: &mut Held,
    counts: &mut Counts,
) -> Result<(), String> {
    let call = match asked {
        Asked::OfFrame(frame) => {
            let kind = frame_call(rng, frame);
            held.with_frame(kind, frame.clone(), rng)
        }
        Asked::OfPlan(kind) => {
            held.disturb(rng);
            held.with_scratch(*kind, rng)
        }
    };
    let outcome = compare(rng, &call, counts)?;
    held.after(call.kind, outcome);
    Ok(())
}

/// All calls of a case, on one plan and under the same settings, with projections of what is held after each; then prints, merges,
/// extracts of all conjuncts and explains of its frames, merges of a pair, projections of an extraction that no frame need
/// have made, extracts of all conjuncts and explains of a frame that has many, and explains of one whose leaves have several reasons.
fn run(rng: &mut Rng, case: &Case, counts: &mut Counts) -> Result<(), String> {
    let asked: Vec<Asked> = case.lines.iter().map(|line| asked(rng, line)).collect();
    let settings = settings::any(rng, asked.iter().filter_map(frame_of));
    let mut held = Held::new(rng, longest(&asked), settings);
    for asked in &asked {
        next_call(rng, asked, &mut held, counts)?;
        projections::run(rng, &held, counts)?;
    }
    for asked in &asked {
        if let Asked::OfFrame(frame) = asked {
            for call in texts::prints(rng, frame) {
                let compared = compare(rng, &call, counts);
                compared.map_err(|found| smaller(rng, &call.frame).unwrap_or(found))?;
            }
            let (held, new) = (pairs::frame(rng), frame.clone());
            merges::run(rng, &Pair { held, new }, counts)?;
            conjuncts::run(rng, frame, settings, counts)?;
            verdicts::run(rng, frame, settings, counts)?;
        }
    }
    let pair = pairs::pair(rng);
    merges::run(rng, &pair, counts)?;
    projections::run_alone(rng, counts)?;
    let (frame, settings) = conjuncts::any(rng);
    conjuncts::run(rng, &frame, settings, counts)?;
    verdicts::run(rng, &frame, settings, counts)?;
    verdicts::run_alone(rng, counts)
}

/// The difference on a print of a filter that is part of this one, the smallest found.
fn smaller(rng: &mut Rng, frame: &[u8]) -> Option<String> {
    for part in texts::smaller(frame) {
        for call in texts::prints_of(rng, &part) {
            if let Err(found) = compare(rng, &call, &mut Counts::default()) {
                return Some(smaller(rng, &part).unwrap_or(found));
            }
        }
    }
    None
}

/// A line that is no hexadecimal is a frame as it stands.
fn asked(rng: &mut Rng, line: &[u8]) -> Asked {
    let mut frame = parse(line).unwrap_or(line.to_vec());
    match frame[..] {
        [0x21] => return Asked::OfPlan(Kind::Extract),
        [0x22] => return Asked::OfPlan(Kind::Exchange),
        _ => (),
    }
    if rng.one_in(200) {
        frame.resize(MAX_BYTES + rng.below(3), 0);
    }
    Asked::OfFrame(frame)
}

fn frame_of(asked: &Asked) -> Option<&[u8]> {
    match asked {
        Asked::OfFrame(frame) => Some(frame),
        Asked::OfPlan(_) => None,
    }
}

fn longest(asked: &[Asked]) -> usize {
    let lengths = asked.iter().filter_map(frame_of).map(<[u8]>::len);
    lengths.max().unwrap_or(0)
}

/// The call for a frame's first byte, in most cases.
fn frame_call(rng: &mut Rng, frame: &[u8]) -> Kind {
    let strange = rng.one_in(16);
    match frame.first() {
        Some(&LOGICAL) if !strange => Kind::Logical,
        Some(&PHYSICAL) if strange => Kind::Logical,
        Some(&PHYSICAL | &LOGICAL) => Kind::Load,
        _ => rng.pick(&[Kind::Load, Kind::Logical]),
    }
}

/// What the call leaves, if the library and the reading agree on it.
fn compare(rng: &mut Rng, call: &Call, counts: &mut Counts) -> Result<Outcome, String> {
    let expected = call.expected();
    let faults = call.given(rng).faults(&expected);
    if !faults.is_empty() {
        let faults = faults.join("\n");
        return Err(format!(
            "{call}\nexpected\n{expected}\nthe library differs in\n{faults}"
        ));
    }
    counts.count(call, expected.answer);
    Ok(expected)
}
