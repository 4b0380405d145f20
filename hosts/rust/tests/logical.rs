//! The names of the mask, the query side, and every refusal of a logical call.

mod common;

use common::{LEFT, call, good, levels};
use spatialjoin::{NAMES, Names, Refusal, Side, logical};

#[test]
fn refusals_of_a_logical_call() {
    let logical_frame = |expression: &[u8]| [&[2], expression].concat();
    assert_eq!(logical(b""), Err(Refusal::FrameLength));
    assert_eq!(logical(&good()), Err(Refusal::FirstByte));
    assert_eq!(logical(b"\x02"), Err(Refusal::FrameEnds));
    assert_eq!(logical(&logical_frame(LEFT)), Err(Refusal::OutOfRange));
    let deep = logical_frame(&levels(65));
    assert_eq!(logical(&deep), Err(Refusal::TooLarge));
    let longer = logical_frame(b"\x05\x01\0\0\0");
    assert_eq!(logical(&longer), Err(Refusal::BytesAfter));
}

#[test]
fn names_have_their_bits() {
    for (bit, name) in NAMES.iter().enumerate() {
        let expected = Names {
            mask: 1 << bit,
            count: 1,
            query_side: None,
        };
        for name in [name.to_string(), name.to_uppercase()] {
            let frame = [&[2][..], &call(&name, 0)].concat();
            assert_eq!(logical(&frame), Ok(expected));
        }
    }
}

#[test]
fn query_sides() {
    let sides = [None, Some(Side::Left), Some(Side::Right), None];
    for (bits, side) in (0..).zip(sides) {
        let column = [5, bits, 0, 0];
        let frame = [&[2][..], &call("st_knn", 1), &column].concat();
        assert_eq!(logical(&frame).map(|names| names.query_side), Ok(side));
    }
}
