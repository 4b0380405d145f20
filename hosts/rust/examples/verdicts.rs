//! A Rust host that says why each conjunct of filters is indexed or is not: each line of standard input is a
//! physical frame in hexadecimal, as `examples/encode` writes them. Prints a line for each frame: which line
//! of the price list it is on (0 for none), the position of the conjunct that sets it, and a verdict of each
//! conjunct in hexadecimal; or the refusal's number. With `words` as its argument, each conjunct's position
//! and verdict in words instead, that which sets the line with a mark. `hosts/c/explain.c` prints the first.

use std::env;
use std::io::{self, BufRead};

use spatialjoin::{Explained, MOST_NODES, Settings, VERSION, Verdict};

fn bytes(line: &str) -> Option<Vec<u8>> {
    let digits = |at| u8::from_str_radix(line.get(at..at + 2)?, 16).ok();
    (0..line.len()).step_by(2).map(digits).collect()
}

/// The verdicts that were written for a frame.
fn verdicts(bytes: &[u8]) -> impl Iterator<Item = Verdict> {
    let known = |byte: &u8| Verdict::from_byte(*byte).expect("the call wrote it");
    bytes.iter().map(known)
}

fn in_digits(explained: Explained, bytes: &[u8]) {
    let (line, position) = explained
        .taken
        .map_or((0, 0), |taken| (taken.kind as u8, taken.position));
    let digits: String = verdicts(bytes)
        .map(|verdict| format!(" {:02x}", verdict.byte()))
        .collect();
    println!("line {line:02x}, conjunct {position}:{digits}");
}

fn in_words(explained: Explained, bytes: &[u8]) {
    let taken = explained.taken.map(|taken| usize::from(taken.position));
    for (position, verdict) in verdicts(bytes).enumerate() {
        let mark = if taken == Some(position) { '>' } else { ' ' };
        println!("{mark} {position}  {verdict}");
    }
}

/// So many bytes are always enough.
fn explain(frame: &[u8], say: fn(Explained, &[u8])) {
    let mut bytes = [0; MOST_NODES];
    match spatialjoin::explain(frame, &mut bytes, Settings::default()) {
        Ok(explained) => say(explained, &bytes[..explained.count]),
        Err(refusal) => println!("refused: {}", refusal.number()),
    }
}

fn main() -> io::Result<()> {
    assert!(
        spatialjoin::version_matches(),
        "the archive is of version {}, the package of {VERSION}",
        spatialjoin::version()
    );
    let words = env::args().nth(1).is_some_and(|word| word == "words");
    let say = if words { in_words } else { in_digits };
    for line in io::stdin().lock().lines() {
        match bytes(&line?) {
            Some(frame) => explain(&frame, say),
            None => println!("no hexadecimal"),
        }
    }
    Ok(())
}
