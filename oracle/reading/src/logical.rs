//! The logical half: predicate names and the KNN query side. Letter case is ignored.

use crate::frame::{Expr, Side};

/// Bit 0 of the mask is the first of these.
const NAMES: [&[u8]; 15] = [
    b"st_intersects",
    b"st_contains",
    b"st_within",
    b"st_covers",
    b"st_covered_by",
    b"st_coveredby",
    b"st_touches",
    b"st_crosses",
    b"st_overlaps",
    b"st_equals",
    b"st_dwithin",
    b"st_knn",
    b"rs_intersects",
    b"rs_contains",
    b"rs_within",
];

/// Mask (two bytes), count, query side.
pub fn answer(expr: &Expr) -> [u8; 4] {
    let mask = names(expr);
    let [high, low] = mask.to_be_bytes();
    [
        high,
        low,
        mask.count_ones() as u8,
        knn_query_side(expr).byte(),
    ]
}

fn is_call(expr: &Expr, wanted: &[u8]) -> bool {
    matches!(expr, Expr::Function { name, .. } if name.eq_ignore_ascii_case(wanted))
}

fn names(expr: &Expr) -> u16 {
    let mut mask = 0;
    for leaf in expr.and_leaves() {
        let distance = leaf
            .compared()
            .is_some_and(|(read, _)| is_call(read, b"st_distance"));
        for (bit, name) in NAMES.into_iter().enumerate() {
            if is_call(leaf, name) || (distance && name == b"st_dwithin") {
                mask |= 1 << bit;
            }
        }
    }
    mask
}

fn knn_query_side(expr: &Expr) -> Side {
    let leaves = expr.and_leaves();
    let call = leaves.into_iter().find(|leaf| is_call(leaf, b"st_knn"));
    let Some(Expr::Function { args, .. }) = call else {
        return Side::None;
    };
    let mut bits = Vec::new();
    if let Some(query) = args.first() {
        collect_bits(query, &mut bits);
    }
    let all = |bit: u8| !bits.is_empty() && bits.iter().all(|bits| bits & bit != 0);
    match (all(1), all(2)) {
        (true, false) => Side::Left,
        (false, true) => Side::Right,
        _ => Side::None,
    }
}

fn collect_bits(expr: &Expr, found: &mut Vec<u8>) {
    if let Expr::LogicalColumn { bits, .. } = expr {
        found.push(*bits);
    }
    for child in expr.children() {
        collect_bits(child, found);
    }
}
