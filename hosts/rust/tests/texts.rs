//! Texts of frames, and every refusal of print.

mod common;

use common::{LEFT, RECORDS, RIGHT, bytes, call, frame_of, good, levels, text_of};
use spatialjoin::{Refusal, print};

/// What a print with no room answers.
fn print_alone(frame: &[u8]) -> Result<usize, Refusal> {
    print(frame, &mut [])
}

#[test]
fn texts() {
    let run = include_str!("../../../examples/worked-run.txt");
    let worked = include_str!("../../../examples/worked-run-text.txt");
    let frame = bytes(run.lines().next().expect("a frame"));
    assert_eq!(text_of(&frame), worked.trim_end());
    let literal = frame_of(b"\x01\x06\x01\x23\x45\x67\x89\xab\xcd\xef");
    assert_eq!(text_of(&literal), "#6:0123456789abcdef");
    let marks = [RECORDS, &call("],[:", 2), LEFT, b"\x04\xff\xff\0"].concat();
    assert_eq!(text_of(&marks), "f4:],[:[c0:0,x65535[]]");
    let binary = [RECORDS, b"\x02\x3f", LEFT, RIGHT].concat();
    assert_eq!(text_of(&binary), "(c0:0 o63 c1:0)");
}

#[test]
fn texts_of_the_price_list() {
    let list = include_str!("../../../docs/PRICE-LIST.md");
    let lines = include_str!("../../../examples/price-lines.txt").lines();
    for frame in lines.filter(|line| line.starts_with("01")) {
        let text = text_of(&bytes(frame));
        assert!(list.contains(&format!(" | `{text}` |\n")), "{text}");
    }
}

#[test]
fn refusals_of_a_print() {
    let good = good();
    assert_eq!(print_alone(b""), Err(Refusal::FrameLength));
    assert_eq!(print_alone(b"\x02"), Err(Refusal::FirstByte));
    assert_eq!(print_alone(&good[..9]), Err(Refusal::FrameEnds));
    assert_eq!(print_alone(&frame_of(b"\x05")), Err(Refusal::OutOfRange));
    let deep = frame_of(&levels(65));
    assert_eq!(print_alone(&deep), Err(Refusal::TooLarge));
    assert_eq!(print_alone(&frame_of(LEFT)), Err(Refusal::NoSuchColumn));
    let longer = [&good[..], b"\0"].concat();
    assert_eq!(print_alone(&longer), Err(Refusal::BytesAfter));
    let fewer = frame_of(&call("st_within", 0));
    assert_eq!(print_alone(&fewer), Err(Refusal::TooFewArguments));
    let mut short = vec![7; text_of(&good).len() - 1];
    assert_eq!(print(&good, &mut short), Err(Refusal::TextTooShort));
    assert_eq!(short, vec![7; short.len()]);
}
