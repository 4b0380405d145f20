//! A Rust host that has its filters as trees: it builds the worked run's frame, loads it and extracts, and
//! reads what the join is indexed by. Prints the plans as the program spatialjoin prints them, and then the
//! predicate and what is left.

use std::error::Error;

use spatialjoin::{Expression, Extraction, MOST_BYTES, MOST_NODES, Node, Predicate, Record};
use spatialjoin::{Records, Settings, Side, VERSION};

fn print(plan: &[u8]) {
    let digits = plan.iter().map(|byte| format!("{byte:02x}"));
    println!("00{}", digits.collect::<String>());
}

/// `st_within(R3, L0) AND L0`, with the host's tags.
fn worked_run() -> (Records, Expression) {
    let mut records = Records::new();
    let mut column = |side, child, tag| {
        let record = Record { side, child, tag };
        records.column(record, tag)
    };
    let (right, left) = (
        column(Some(Side::Right), 3, 7),
        column(Some(Side::Left), 0, 8),
    );
    let within = Expression::function("st_within", [right, left.clone()]);
    (records, within.and(left))
}

fn main() -> Result<(), Box<dyn Error>> {
    if !spatialjoin::version_matches() {
        return Err(format!("the archive is not of version {VERSION}").into());
    }
    let (mut plan, mut scratch) = ([0; MOST_BYTES], [0; MOST_BYTES]);
    let mut table = [Node::default(); MOST_NODES];
    let (records, filter) = worked_run();
    let frame = records.frame(filter).bytes()?;
    let n = spatialjoin::load(&frame, &mut plan, &mut table)?;
    print(&plan[..n]);
    let extracted = spatialjoin::extract(&mut plan, n, &mut scratch, &table, Settings::default())?;
    let plan = &plan[..extracted.length];
    print(plan);
    let extraction = Extraction::of(plan)?;
    if let Predicate::Relation { relation, .. } = extraction.predicate {
        println!("{relation:?}, by conjunct {}", extraction.position);
    }
    if let Some(frame) = extraction.remainder {
        println!("left: a filter over {} record", frame.records.len());
    }
    Ok(())
}
