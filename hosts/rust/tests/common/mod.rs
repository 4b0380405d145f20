//! Frames, tables and texts for the tests; each test file uses some of them.
#![allow(dead_code)]

use spatialjoin::{
    Extracted, MOST_BYTES, MOST_NODES, MOST_TEXT, Node, Refusal, Settings, Unextracted,
};
use spatialjoin::{load, print};

/// Columns 0 (of the left child) and 1 (of the right).
pub const RECORDS: &[u8] = b"\x01\0\x02\0\0\0\0\0\x01\0\0\0\0";
pub const LEFT: &[u8] = b"\0\0\0\0\0";
pub const RIGHT: &[u8] = b"\0\0\x01\0\0";

pub fn bytes(line: &str) -> Vec<u8> {
    let digits = |at| u8::from_str_radix(&line[at..at + 2], 16).expect("hexadecimal");
    (0..line.len()).step_by(2).map(digits).collect()
}

/// A call of this name without arguments; they are to follow.
pub fn call(name: &str, arguments: u8) -> Vec<u8> {
    [&[3, name.len() as u8], name.as_bytes(), &[arguments]].concat()
}

/// `st_within` of a left and a right column.
pub fn good() -> Vec<u8> {
    [RECORDS, &call("st_within", 2), LEFT, RIGHT].concat()
}

/// A physical frame of one conjunct without columns.
pub fn frame_of(expression: &[u8]) -> Vec<u8> {
    [b"\x01\0\0", expression].concat()
}

/// Functions of one argument, the last of none.
pub fn levels(count: usize) -> Vec<u8> {
    [call("f", 1).repeat(count - 1), call("f", 0)].concat()
}

/// A record that no frame has.
pub const STRAY: Node = Node {
    kind: 7,
    start: 7,
    end: 7,
};

/// A table that is long enough for every frame.
pub fn table() -> Vec<Node> {
    vec![STRAY; MOST_NODES]
}

/// The plan after an accepted load, its length, and the table.
pub fn loaded(frame: &[u8]) -> (Vec<u8>, usize, Vec<Node>) {
    let (mut plan, mut table) = (vec![0; MOST_BYTES], table());
    let n = load(frame, &mut plan, &mut table).expect("a good frame");
    (plan, n, table)
}

/// An extract under the default settings.
pub fn extract(
    plan: &mut [u8],
    n: usize,
    scratch: &mut [u8],
    table: &[Node],
) -> Result<Extracted, Unextracted> {
    spatialjoin::extract(plan, n, scratch, table, Settings::default())
}

/// Its walk left out.
pub fn extract_plan(
    plan: &mut [u8],
    n: usize,
    scratch: &mut [u8],
    table: &[Node],
) -> Result<usize, Refusal> {
    Ok(extract(plan, n, scratch, table)?.length)
}

/// The rows of a table of the price list, in the section of this title: their cells.
pub fn price_list(title: &str) -> Vec<Vec<&'static str>> {
    let list = include_str!("../../../../docs/PRICE-LIST.md");
    let heading = format!("\n## {title}\n");
    let (_, after) = list.split_once(&heading).expect("it has the section");
    let (section, _) = after.split_once("\n## ").unwrap_or((after, ""));
    let rows = section.lines().filter(|row| row.starts_with("| `"));
    let cells = |row: &'static str| row.trim_matches('|').split('|').map(str::trim).collect();
    rows.map(cells).collect()
}

/// The text of a frame in a buffer that is just long enough and in a longer one.
pub fn text_of(frame: &[u8]) -> String {
    let mut text = vec![7; MOST_TEXT];
    let length = print(frame, &mut text).expect("a good frame");
    assert_eq!(text[length..], vec![7; MOST_TEXT - length]);
    let mut exact = vec![0; length];
    assert_eq!(print(frame, &mut exact), Ok(length));
    assert_eq!(exact, text[..length]);
    String::from_utf8(exact).expect("its characters are from 32 to 126")
}
