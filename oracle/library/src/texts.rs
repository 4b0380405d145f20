//! Print calls: text buffers of every length, and frames whose texts are hard to tell apart.

use driver::rng::Rng;
use reading::frame::{Expr, Frame, literal, operator};
use reading::{decode, encode, print};
use spatialjoin::MOST_TEXT;

use crate::call::{Call, Kind};
use crate::held::any_bytes;

/// Prints of a frame and, if it is good, of one of the same shape with other names and numbers.
pub fn prints(rng: &mut Rng, frame: &[u8]) -> Vec<Call> {
    let mut calls = prints_of(rng, frame);
    if let Ok(mut good) = decode::physical(frame) {
        retell(rng, good.records.len(), &mut good.expr);
        calls.extend(prints_of(rng, &encode::physical(&good)));
    }
    calls
}

/// A text buffer that is empty, shorter, one byte short, just long enough, longer; at times as long
/// as any text. A frame that is refused has no text, and its own length stands for that.
pub fn prints_of(rng: &mut Rng, frame: &[u8]) -> Vec<Call> {
    let text = decode::physical(frame).map(|good| print::text(&good.expr).len());
    let length = text.unwrap_or(frame.len());
    assert!(text.is_err() || length <= MOST_TEXT, "a text of {length}");
    let mut rooms = vec![
        0,
        rng.below(length + 1),
        length.saturating_sub(1),
        length,
        length + 1 + rng.below(64),
    ];
    if rng.one_in(64) {
        rooms.push(MOST_TEXT);
    }
    let print = |room| Call {
        frame: frame.to_vec(),
        text: any_bytes(rng, room),
        ..Call::new(Kind::Print)
    };
    rooms.into_iter().map(print).collect()
}

/// Frames with a child of the filter in its place.
pub fn smaller(frame: &[u8]) -> Vec<Vec<u8>> {
    let Ok(Frame { records, expr }) = decode::physical(frame) else {
        return Vec::new();
    };
    let with = |child: &Expr| {
        let (records, expr) = (records.clone(), child.clone());
        encode::physical(&Frame { records, expr })
    };
    expr.children().into_iter().map(with).collect()
}

/// Names get the marks of a text, numbers as many digits as they can have. No length changes, and a
/// good frame stays one.
fn retell(rng: &mut Rng, records: usize, expr: &mut Expr) {
    match expr {
        Expr::Column { index, tag } => {
            *index = rng.below(records) as u16;
            *tag = number(rng);
        }
        Expr::Literal { kind, bytes } => {
            if [
                literal::NULL,
                literal::INT64,
                literal::UINT64,
                literal::OTHER,
            ]
            .contains(kind)
            {
                *bytes = rng.draw().to_be_bytes();
            }
        }
        Expr::Binary { op, left, right } => {
            if *op > operator::GT_EQ {
                *op = rng.pick(&[5, 9, 10, 11, 59, 60, operator::LAST]);
            }
            retell(rng, records, left);
            retell(rng, records, right);
        }
        Expr::Function { name, args } => {
            name.fill_with(|| rng.pick(b"[],:()#cfxo0123456789!~"));
            args.iter_mut().for_each(|arg| retell(rng, records, arg));
        }
        Expr::Other { tag, children } => {
            *tag = number(rng);
            children
                .iter_mut()
                .for_each(|child| retell(rng, records, child));
        }
        Expr::LogicalColumn { .. } => (),
    }
}

/// A tag, most often where the count of its digits changes.
fn number(rng: &mut Rng) -> u16 {
    const EDGES: [u16; 12] = [0, 1, 9, 10, 99, 100, 101, 999, 1_000, 9_999, 10_000, 65_535];
    match rng.below(4) {
        0 => rng.draw() as u16,
        _ => rng.pick(&EDGES),
    }
}
