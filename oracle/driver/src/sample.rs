//! Writes a fixed list for replay: a program's input and the output that is right for it.

use std::path::Path;
use std::{fs, io};

use crate::compare::References;
use crate::make::{self, CLASSES, Case};
use crate::rng::Rng;

const CASES_PER_CLASS: u64 = 45;

/// Longer cases are left out, the limits excepted.
const MOST_BYTES: usize = 4_000;

/// Writes `stdin` and `stdout` into the folder.
pub fn sample(folder: &Path, seed: u64) -> io::Result<String> {
    let mut references = References::default();
    let (mut input, mut output) = (Vec::new(), Vec::new());
    let mut asked = 0;
    let mut lines = 0;
    for case in cases(seed) {
        for line in &case.lines {
            let expected = references.expect(line);
            if !expected.agrees() {
                let text = String::from_utf8_lossy(line);
                return Err(io::Error::other(format!(
                    "reading and original differ on {text}"
                )));
            }
            input.extend([line, &b"\n"[..]].concat());
            output.extend([&expected.reading, &b"\n"[..]].concat());
            lines += 1;
            asked += u64::from(expected.original.is_some());
        }
    }
    fs::create_dir_all(folder)?;
    fs::write(folder.join("stdin"), &input)?;
    fs::write(folder.join("stdout"), &output)?;
    let bytes = input.len() + output.len();
    Ok(format!(
        "{lines} lines, {asked} answered by the original, {bytes} bytes in both files"
    ))
}

fn cases(seed: u64) -> Vec<Case> {
    let mut cases = vec![make::all_odd_lines()];
    cases.extend(make::limit_cases(seed));
    for class in CLASSES.iter().filter(|class| class.name != make::LIMITS) {
        let made =
            (0..CASES_PER_CLASS).map(|number| make::case_of(class, &mut Rng::new(seed, number)));
        let short = |case: &Case| case.lines.concat().len() <= MOST_BYTES;
        cases.extend(made.filter(short));
    }
    cases
}
