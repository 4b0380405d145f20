//! Compares a planner program with the original, writes a sample of the original's answers, or
//! runs the original on lines of one's own.

use std::env;
use std::io::{self, BufWriter};
use std::path::PathBuf;
use std::process::ExitCode;

use driver::compare::{self, Options};
use driver::{lines, original, sample};

const USAGE: &str = "driver compare --planner PROGRAM [--frames N] [--seed S] [--show N]
driver sample FOLDER [--seed S]
driver lines";

fn main() -> ExitCode {
    original::keep_guarded_panics_quiet();
    let words: Vec<String> = env::args().skip(1).collect();
    match run(&words) {
        Ok(code) => code,
        Err(error) => {
            eprintln!("{error}");
            ExitCode::from(2)
        }
    }
}

fn run(words: &[String]) -> io::Result<ExitCode> {
    match words.split_first() {
        Some((mode, rest)) if mode == "compare" => run_compare(rest),
        Some((mode, rest)) if mode == "sample" => run_sample(rest),
        Some((mode, [])) if mode == "lines" => run_lines(),
        _ => Err(io::Error::other(USAGE)),
    }
}

fn run_compare(words: &[String]) -> io::Result<ExitCode> {
    let mut options = Options {
        planner: PathBuf::new(),
        frames: 1_000_000,
        seed: 1,
        show: 10,
    };
    for pair in words.chunks(2) {
        match pair {
            [name, value] if name == "--planner" => options.planner = value.into(),
            [name, value] if name == "--frames" => options.frames = number(value)?,
            [name, value] if name == "--seed" => options.seed = number(value)?,
            [name, value] if name == "--show" => options.show = number(value)? as usize,
            _ => return Err(io::Error::other(USAGE)),
        }
    }
    if options.frames == 0 {
        return Err(io::Error::other("no frame to compare"));
    }
    println!("seed {}, {} frames", options.seed, options.frames);
    let report = compare::compare(&options)?;
    println!("{report}");
    Ok(code(report.differences == 0))
}

fn run_sample(words: &[String]) -> io::Result<ExitCode> {
    let (folder, seed) = match words {
        [folder] => (folder, 1),
        [folder, name, value] if name == "--seed" => (folder, number(value)?),
        _ => return Err(io::Error::other(USAGE)),
    };
    println!("{}", sample::sample(folder.as_ref(), seed)?);
    Ok(ExitCode::SUCCESS)
}

fn run_lines() -> io::Result<ExitCode> {
    let output = BufWriter::new(io::stdout().lock());
    lines::lines(io::stdin().lock(), output).map(code)
}

fn code(agreed: bool) -> ExitCode {
    match agreed {
        true => ExitCode::SUCCESS,
        false => ExitCode::FAILURE,
    }
}

fn number(text: &str) -> io::Result<u64> {
    text.parse()
        .map_err(|_| io::Error::other(format!("no number: {text}")))
}
