//! A Rust host that lists all indexable conjuncts of filters: each line of standard input is a physical
//! frame in hexadecimal, as `examples/encode` writes them. Prints for each frame a line of every
//! predicate, with its kind and its conjunct's position, and one of what is left; a refused frame has its
//! refusal's number. `hosts/c/all.c` prints the same.

use std::io::{self, BufRead};

use spatialjoin::{Conjuncts, Kind, MOST_BYTES, Settings, VERSION};

fn hexadecimal(bytes: &[u8]) -> String {
    bytes.iter().map(|byte| format!("{byte:02x}")).collect()
}

fn bytes(line: &str) -> Option<Vec<u8>> {
    let digits = |at| u8::from_str_radix(line.get(at..at + 2)?, 16).ok();
    (0..line.len()).step_by(2).map(digits).collect()
}

/// An output as long as the frame is always enough.
fn list(frame: &[u8]) {
    let mut out = [0; MOST_BYTES];
    let written = match spatialjoin::extract_all(frame, &mut out, Settings::default()) {
        Ok(all) => &out[..all.length],
        Err(refusal) => return println!("refused: {}", refusal.number()),
    };
    let conjuncts = Conjuncts::of(written);
    for conjunct in conjuncts.clone() {
        let kind = match conjunct.kind {
            Kind::Relation => "relation",
            Kind::Distance => "distance",
            Kind::Knn => "KNN",
        };
        let (position, digits) = (conjunct.position, hexadecimal(conjunct.bytes));
        println!("{kind}, conjunct {position}: {digits}");
    }
    match conjuncts.remainder() {
        Some(frame) => println!("left: {}", hexadecimal(frame)),
        None => println!("left: nothing"),
    }
}

fn main() -> io::Result<()> {
    assert!(
        spatialjoin::version_matches(),
        "the archive is of version {}, the package of {VERSION}",
        spatialjoin::version()
    );
    for line in io::stdin().lock().lines() {
        match bytes(&line?) {
            Some(frame) => list(&frame),
            None => println!("no hexadecimal"),
        }
    }
    Ok(())
}
