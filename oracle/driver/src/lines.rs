//! The original on lines of one's own.

use std::io::{self, BufRead, Write};

use crate::compare::{Expected, References};
use crate::original::{AsItIs, Tried, try_refused};

/// Answers every line of the input, and says whether reading and original agreed on all of them.
/// It is an error if there is none.
pub fn lines(input: impl BufRead, mut output: impl Write) -> io::Result<bool> {
    let mut references = References::default();
    let mut agreed = true;
    let mut count = 0;
    for line in input.split(b'\n') {
        let line = line?;
        let expected = references.expect(&line);
        agreed &= expected.agrees();
        writeln!(output, "{}", told(&line, &expected))?;
        count += 1;
    }
    match count {
        0 => Err(io::Error::other("no line")),
        _ => Ok(agreed),
    }
}

fn told(line: &[u8], expected: &Expected) -> String {
    let text = |answer: &[u8]| String::from_utf8_lossy(answer).into_owned();
    let reading = text(&expected.reading);
    match &expected.original {
        Some(_) if expected.agrees() => format!("original {reading}{}", as_it_is(expected)),
        Some(original) => format!("differ {}, the reading {reading}", text(original)),
        None => format!("reading {reading}{}", nonetheless(line, expected)),
    }
}

/// What the original does with a frame that is refused with 6 or 8.
fn nonetheless(line: &[u8], expected: &Expected) -> &'static str {
    if !expected.is_listed_difference() {
        return "";
    }
    match try_refused(line) {
        Some(Tried::Panics) => ", the original panics",
        Some(Tried::Extracts) => ", the original extracts",
        Some(Tried::FindsNothing) => ", the original finds nothing",
        None => "",
    }
}

/// What the original does with a k of 0 that it gets as a literal, and with a bound of mark columns that
/// it gets as it is, where it does anything else.
fn as_it_is(expected: &Expected) -> String {
    let cases = [
        ("k of 0", &expected.nearest),
        ("bound of mark columns", &expected.marked),
    ];
    let said = |(what, as_it_is): (&str, &Option<AsItIs>)| match as_it_is {
        Some(AsItIs::Panics) => format!(", with its {what} it panics"),
        Some(AsItIs::TakesIt) => format!(", with its {what} it takes that"),
        Some(AsItIs::TakesAnother | AsItIs::FindsNothing) | None => String::new(),
    };
    cases.map(said).concat()
}

#[cfg(test)]
mod tests {
    use super::lines;

    #[test]
    fn the_worked_run_is_the_originals_but_for_loads_and_refusals() {
        let run = include_bytes!("../../../examples/worked-run.txt");
        let answers = include_str!("../../../examples/worked-run-answers.txt");
        let mut output = Vec::new();
        assert!(lines(&run[..], &mut output).unwrap());
        let who = ["reading", "original", "original", "reading"];
        let expected: Vec<String> = who
            .iter()
            .zip(answers.lines())
            .map(|(who, answer)| format!("{who} {answer}\n"))
            .collect();
        assert_eq!(String::from_utf8(output).unwrap(), expected.concat());
    }

    #[test]
    fn a_frame_that_is_refused_is_given_to_the_original_nonetheless() {
        let mut output = Vec::new();
        let within = "010000030973745f77697468696e00";
        assert!(lines(within.as_bytes(), &mut output).unwrap());
        assert_eq!(output, b"reading 08, the original panics\n");
    }

    #[test]
    fn a_k_of_0_is_no_literal_and_is_given_to_the_original_nonetheless() {
        let mut output = Vec::new();
        let columns = "01000200000000000100000000";
        let nearest = "030673745f6b6e6e03000000000000000100000102";
        let run = format!(
            "{columns}{nearest}0000000000000000\n21\n{columns}{nearest}0000000000000001\n21"
        );
        assert!(lines(run.as_bytes(), &mut output).unwrap());
        let text = String::from_utf8(output).unwrap();
        let told: Vec<&str> = text.lines().collect();
        assert_eq!(told[1], "original 0d, with its k of 0 it takes that");
        assert_eq!(
            told[3],
            "original 00130000000000010000020000000000000000000000"
        );
    }

    #[test]
    fn a_bound_of_mark_columns_is_none_and_is_given_to_the_original_nonetheless() {
        let mut output = Vec::new();
        let columns = "01000300000500000100000000020009000003";
        let near = "0a73745f6477697468696e0300000000000000010000";
        let run = format!("{columns}{near}0000020000\n21\n{columns}{near}0000000000\n21");
        assert!(lines(run.as_bytes(), &mut output).unwrap());
        let text = String::from_utf8(output).unwrap();
        let told: Vec<&str> = text.lines().collect();
        assert_eq!(
            told[1],
            "original 0d, with its bound of mark columns it takes that"
        );
        assert_eq!(
            told[3],
            "original 00120000000000000500000000000000000005000000"
        );
    }

    #[test]
    fn no_line_is_an_error() {
        assert!(lines(&b""[..], Vec::new()).is_err());
    }
}
