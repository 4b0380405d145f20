//! Literals, with the values where the types and k end.

use reading::frame::{Expr, literal};

use crate::rng::Rng;

const POW_31: u64 = 1 << 31;
const POW_32: u64 = 1 << 32;

/// Every type with its values next to a limit; all are in range.
const EDGES: [(u8, &[u64]); 7] = [
    (literal::NULL, &[0, 1, 2, 3, 4, 5, 6, u64::MAX]),
    (literal::BOOLEAN, &[0, 1]),
    (
        literal::INT32,
        &[0, 1, POW_31 - 1, u64::MAX, POW_31.wrapping_neg()],
    ),
    (
        literal::INT64,
        &[
            0,
            1,
            POW_31 - 1,
            POW_31,
            POW_32 - 1,
            POW_32,
            i64::MAX as u64,
            i64::MIN as u64,
            u64::MAX,
        ],
    ),
    (literal::UINT32, &[0, 1, POW_31 - 1, POW_31, POW_32 - 1]),
    (
        literal::UINT64,
        &[0, 1, POW_31, POW_32 - 1, POW_32, i64::MIN as u64, u64::MAX],
    ),
    (
        literal::OTHER,
        &[0, 1, 0x101, 0x1_0001, 0x2_0001, 0x3ff0_0000_0000_0000],
    ),
];

pub fn of(kind: u8, value: u64) -> Expr {
    Expr::Literal {
        kind,
        bytes: value.to_be_bytes(),
    }
}

/// Any type, at one of its limits.
pub fn edge(rng: &mut Rng) -> Expr {
    let (kind, values) = rng.pick(&EDGES);
    of(kind, rng.pick(values))
}

/// Mostly an integer that is good for k.
pub fn k(rng: &mut Rng) -> Expr {
    let kind = rng.pick(&[
        literal::INT32,
        literal::INT64,
        literal::UINT32,
        literal::UINT64,
    ]);
    match rng.below(3) {
        0 => of(kind, rng.draw() >> 33),
        _ => edge(rng),
    }
}

/// Mostly a Boolean.
pub fn flag(rng: &mut Rng) -> Expr {
    match rng.below(4) {
        0 => edge(rng),
        _ => of(literal::BOOLEAN, rng.draw() % 2),
    }
}
