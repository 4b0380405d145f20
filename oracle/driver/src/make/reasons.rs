//! Physical frames whose AND-leaves have several reasons not to match, or one, or none.

use reading::frame::{Expr, Side, operator};

use super::filter::Filter;
use super::{literals, names};
use crate::rng::Rng;

/// One to six leaves over columns of both children and mark columns.
pub fn frame(rng: &mut Rng) -> Vec<u8> {
    let counts = [1 + rng.below(2), 1 + rng.below(2), rng.below(3)];
    let mut filter = Filter::with_counts(rng, counts, 4);
    let count = 1 + filter.rng.below(6);
    let leaves = (0..count).map(|_| leaf(&mut filter)).collect();
    let expr = filter.conjunction(leaves);
    filter.frame(expr)
}

/// A call or a comparison that is meant for a line, or one that would be but for its letters, its side,
/// its operator or what stands above it.
fn leaf(filter: &mut Filter) -> Expr {
    let mut leaf = match filter.rng.below(8) {
        0 | 1 => relation(filter),
        2 => dwithin(filter),
        3..=5 => knn(filter),
        _ => comparison(filter),
    };
    if filter.rng.one_in(8) {
        change_case(filter.rng, &mut leaf);
    }
    let levels = if filter.rng.one_in(6) {
        1 + filter.rng.below(2)
    } else {
        0
    };
    (0..levels).fold(leaf, |leaf, _| below(filter, leaf))
}

fn call(name: &str, args: Vec<Expr>) -> Expr {
    let name = name.into();
    Expr::Function { name, args }
}

/// Columns of both children beside a mark column.
fn of_all(filter: &mut Filter) -> Expr {
    let mut columns = [Side::Left, Side::Right, Side::None].map(|side| filter.column(side));
    filter.rng.shuffle(&mut columns);
    call("f", columns.into())
}

/// Mostly of one child: left or right, the other, mark columns, columns of several, or none.
fn geometry(filter: &mut Filter, side: Side) -> Expr {
    match filter.rng.below(14) {
        0 => filter.columnless(),
        1 => filter.mixed(),
        2 => filter.of_side(Side::None, 2),
        3 => filter.bound_beside_marks(),
        4 => filter.of_side(side.negate(), 2),
        5 => of_all(filter),
        _ => filter.of_side(side, 1),
    }
}

fn geometries(filter: &mut Filter) -> Vec<Expr> {
    let side = filter.rng.pick(&[Side::Left, Side::Right]);
    vec![geometry(filter, side), geometry(filter, side.negate())]
}

fn relation(filter: &mut Filter) -> Expr {
    let name = filter.rng.pick(&names::RELATIONS);
    let args = geometries(filter);
    call(name, args)
}

fn bound(filter: &mut Filter) -> Expr {
    let side = filter.side();
    geometry(filter, side)
}

fn dwithin(filter: &mut Filter) -> Expr {
    let mut args = geometries(filter);
    args.push(bound(filter));
    call("st_dwithin", args)
}

/// With none to six arguments, of which k and the flags are good or not, each for itself.
fn knn(filter: &mut Filter) -> Expr {
    let mut args = geometries(filter);
    args.push(match filter.rng.below(4) {
        0 => literals::edge(filter.rng),
        1 => filter.argument(),
        _ => literals::k(filter.rng),
    });
    for _ in 0..2 {
        args.push(match filter.rng.below(4) {
            0 => filter.argument(),
            _ => literals::flag(filter.rng),
        });
    }
    args.push(filter.argument());
    args.truncate(match filter.rng.below(8) {
        0 => filter.rng.below(7),
        _ => 2 + filter.rng.below(4),
    });
    call("st_knn", args)
}

/// `st_distance` on either side, or on both, of an operator that is looked at or of one that is not.
fn comparison(filter: &mut Filter) -> Expr {
    let op = match filter.rng.below(4) {
        0 => 5 + filter.rng.below(6) as u8,
        _ => filter
            .rng
            .pick(&[operator::LT, operator::LT_EQ, operator::GT, operator::GT_EQ]),
    };
    let side = |filter: &mut Filter, distance| match distance {
        true => {
            let args = geometries(filter);
            call("st_distance", args)
        }
        false => bound(filter),
    };
    let on_left = op == operator::LT || op == operator::LT_EQ;
    let (left, right) = match filter.rng.below(8) {
        0 => (true, true),
        1 | 2 => (!on_left, on_left),
        _ => (on_left, !on_left),
    };
    let (left, right) = (side(filter, left), side(filter, right));
    Expr::binary(op, left, right)
}

/// The letters of a call's name, or of the calls' on both sides of a comparison.
fn change_case(rng: &mut Rng, expr: &mut Expr) {
    match expr {
        Expr::Function { name, .. } => {
            let known = String::from_utf8_lossy(name).into_owned();
            *name = names::mixed_case(&known, rng);
        }
        Expr::Binary { left, right, .. } => {
            for side in [left, right] {
                if !rng.one_in(4) {
                    change_case(rng, side);
                }
            }
        }
        _ => (),
    }
}

/// Below an OR, a NOT, a function, or an And that is itself below an OR.
fn below(filter: &mut Filter, leaf: Expr) -> Expr {
    let beside = filter.argument();
    match filter.rng.below(5) {
        0 => Expr::Other {
            tag: 1,
            children: vec![leaf],
        },
        1 => call("f", vec![beside, leaf]),
        2 => Expr::binary(6, leaf, beside),
        3 => Expr::binary(6, beside, leaf),
        _ => {
            let both = Expr::binary(operator::AND, leaf.clone(), leaf);
            Expr::binary(6, both, beside)
        }
    }
}
