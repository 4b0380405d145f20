//! The physical half: matching, pick, remainder, exchange.

use crate::frame::{Expr, Extraction, Frame, Plan, Predicate, Record, Side, literal, operator};
use crate::settings::Settings;

const CONTAINS: u8 = 1;
const WITHIN: u8 = 2;
const COVERS: u8 = 3;
const COVERED_BY: u8 = 4;

/// The relation type of a name; names are compared byte for byte.
pub(crate) fn relation_type(name: &[u8]) -> Option<u8> {
    match name {
        b"st_intersects" | b"rs_intersects" => Some(0),
        b"st_contains" | b"rs_contains" => Some(CONTAINS),
        b"st_within" | b"rs_within" => Some(WITHIN),
        b"st_covers" => Some(COVERS),
        b"st_coveredby" | b"st_covered_by" => Some(COVERED_BY),
        b"st_touches" => Some(5),
        b"st_crosses" => Some(6),
        b"st_overlaps" => Some(7),
        b"st_equals" => Some(8),
        _ => None,
    }
}

fn inverse(relation: u8) -> u8 {
    match relation {
        CONTAINS => WITHIN,
        WITHIN => CONTAINS,
        COVERS => COVERED_BY,
        COVERED_BY => COVERS,
        symmetric => symmetric,
    }
}

/// Refusal 8's condition, the other way round.
pub fn arity_holds(expr: &Expr) -> bool {
    expr.and_leaves().into_iter().all(|leaf| match leaf {
        Expr::Function { name, args } if relation_type(name).is_some() => args.len() >= 2,
        Expr::Function { name, args } if name == b"st_dwithin" => args.len() >= 3,
        _ => distance_call(leaf).is_none_or(|(args, _)| args.len() >= 2),
    })
}

/// A comparison's `st_distance` arguments and its bound.
fn distance_call(leaf: &Expr) -> Option<(&[Expr], &Expr)> {
    match leaf.compared()? {
        (Expr::Function { name, args }, bound) if name == b"st_distance" => Some((args, bound)),
        _ => None,
    }
}

/// The side of an expression's columns; `None` where it is undefined.
fn side_of(expr: &Expr, records: &[Record]) -> Option<Side> {
    let mut sides = Vec::new();
    collect_columns(expr, &mut |index| {
        sides.push(records[usize::from(index)].side)
    });
    let side = sides.first().copied().unwrap_or(Side::None);
    sides.iter().all(|other| *other == side).then_some(side)
}

pub(crate) fn collect_columns(expr: &Expr, found: &mut impl FnMut(u16)) {
    if let Expr::Column { index, .. } = expr {
        found(*index);
    }
    for child in expr.children() {
        collect_columns(child, found);
    }
}

/// The same expression, each column's index replaced.
pub(crate) fn renumber(expr: &Expr, new_index: &impl Fn(u16) -> u16) -> Expr {
    let all = |exprs: &[Expr]| exprs.iter().map(|e| renumber(e, new_index)).collect();
    match expr {
        Expr::Column { index, tag } => Expr::Column {
            index: new_index(*index),
            tag: *tag,
        },
        Expr::Binary { op, left, right } => {
            Expr::binary(*op, renumber(left, new_index), renumber(right, new_index))
        }
        Expr::Function { name, args } => Expr::Function {
            name: name.clone(),
            args: all(args),
        },
        Expr::Other { tag, children } => Expr::Other {
            tag: *tag,
            children: all(children),
        },
        leaf => leaf.clone(),
    }
}

/// An argument of a defined side as the predicate stores it: child indices for the columns of a
/// child, a plain copy where there is none.
fn stored(expr: &Expr, side: Side, records: &[Record]) -> Expr {
    if side == Side::None {
        return expr.clone();
    }
    renumber(expr, &|index| records[usize::from(index)].index)
}

/// Two geometries, the left child's first.
struct Geometries {
    left: Expr,
    right: Expr,
    exchanged: bool,
}

/// The geometries, if one is of the left child and one of the right.
fn geometries(first: &Expr, second: &Expr, records: &[Record]) -> Option<Geometries> {
    let exchanged = match (side_of(first, records)?, side_of(second, records)?) {
        (Side::Left, Side::Right) => false,
        (Side::Right, Side::Left) => true,
        _ => return None,
    };
    let (left, right) = if exchanged {
        (second, first)
    } else {
        (first, second)
    };
    Some(Geometries {
        left: stored(left, Side::Left, records),
        right: stored(right, Side::Right, records),
        exchanged,
    })
}

fn match_relation(leaf: &Expr, records: &[Record]) -> Option<Predicate> {
    let Expr::Function { name, args } = leaf else {
        return None;
    };
    let relation = relation_type(name)?;
    let found = geometries(args.first()?, args.get(1)?, records)?;
    Some(Predicate::Relation {
        relation: if found.exchanged {
            inverse(relation)
        } else {
            relation
        },
        left: found.left,
        right: found.right,
    })
}

fn match_distance(leaf: &Expr, records: &[Record]) -> Option<Predicate> {
    let (form, args, bound) = match leaf {
        Expr::Function { name, args } if name == b"st_dwithin" => (0, &args[..], args.get(2)?),
        Expr::Binary { op, .. } => {
            let (args, bound) = distance_call(leaf)?;
            (*op, args, bound)
        }
        _ => return None,
    };
    let found = geometries(args.first()?, args.get(1)?, records)?;
    let side = bound_side(bound, records)?;
    Some(Predicate::Distance {
        form,
        side,
        left: found.left,
        right: found.right,
        distance: stored(bound, side, records),
    })
}

/// Request 8 of document 02: a distance with at least one column needs side left or right.
fn bound_side(bound: &Expr, records: &[Record]) -> Option<Side> {
    let side = side_of(bound, records)?;
    let mut columns = 0;
    collect_columns(bound, &mut |_| columns += 1);
    (columns == 0 || side != Side::None).then_some(side)
}

/// Request 13 of document 02: a two-argument call takes the default k.
fn match_knn(leaf: &Expr, records: &[Record], default_k: u32) -> Option<Predicate> {
    let Expr::Function { name, args } = leaf else {
        return None;
    };
    if name != b"st_knn" || !(2..=5).contains(&args.len()) {
        return None;
    }
    let found = geometries(&args[0], &args[1], records)?;
    let flag = |position: usize| args.get(position).map(literal_bool);
    let k = args.get(2).map_or(Some(default_k), literal_k)?;
    let spheroid = flag(3).unwrap_or(Some(false))?;
    let ties = match flag(4) {
        Some(value) => Some(value?),
        None => None,
    };
    // The query geometry is stored first, whichever child it is of.
    let (probe, left, right) = if found.exchanged {
        (Side::Right, found.right, found.left)
    } else {
        (Side::Left, found.left, found.right)
    };
    Some(Predicate::Knn {
        k,
        spheroid,
        probe,
        ties,
        left,
        right,
    })
}

/// Request 5 of document 02: a 0 is no literal k.
fn literal_k(expr: &Expr) -> Option<u32> {
    literal_u32(expr).filter(|k| *k > 0)
}

fn literal_u32(expr: &Expr) -> Option<u32> {
    let Expr::Literal { kind, bytes } = expr else {
        return None;
    };
    match *kind {
        literal::INT32 | literal::INT64 => u32::try_from(i64::from_be_bytes(*bytes)).ok(),
        literal::UINT32 | literal::UINT64 => u32::try_from(u64::from_be_bytes(*bytes)).ok(),
        _ => None,
    }
}

fn literal_bool(expr: &Expr) -> Option<bool> {
    match expr {
        Expr::Literal { kind, bytes } if *kind == literal::BOOLEAN => Some(bytes[7] == 1),
        _ => None,
    }
}

/// A KNN leaf that matches under the settings.
pub(crate) fn allowed_knn(
    leaf: &Expr,
    records: &[Record],
    settings: Settings,
) -> Option<Predicate> {
    let found = match_knn(leaf, records, settings.default_k);
    found.filter(|predicate| settings.allow(predicate))
}

/// Any other that does.
fn allowed_other(leaf: &Expr, records: &[Record], settings: Settings) -> Option<Predicate> {
    let found = match_relation(leaf, records).or(match_distance(leaf, records));
    found.filter(|predicate| settings.allow(predicate))
}

/// The predicate that is taken from a frame, and what is left; `None` if no AND-leaf matches.
pub fn extract(frame: &Frame, settings: Settings) -> Option<Extraction> {
    let leaves = frame.expr.and_leaves();
    let first = |matcher: fn(&Expr, &[Record], Settings) -> Option<Predicate>| {
        let mut tries = leaves.iter().enumerate();
        tries
            .find_map(|(position, leaf)| Some((position, matcher(leaf, &frame.records, settings)?)))
    };
    let (position, predicate) = first(allowed_knn).or_else(|| first(allowed_other))?;
    let remainder = without_leaf(&frame.expr, position).map(|expr| prune(&expr, &frame.records));
    Some(Extraction {
        position: position as u16,
        predicate,
        remainder,
    })
}

/// The expression without the AND-leaf of this position and its parent And; `None` if the leaf is
/// all of it.
fn without_leaf(expr: &Expr, position: usize) -> Option<Expr> {
    let Expr::Binary { op, left, right } = expr else {
        return None;
    };
    if *op != operator::AND {
        return None;
    }
    let on_left = left.and_leaves().len();
    Some(if position < on_left {
        match without_leaf(left, position) {
            Some(rest) => Expr::binary(operator::AND, rest, (**right).clone()),
            None => (**right).clone(),
        }
    } else {
        match without_leaf(right, position - on_left) {
            Some(rest) => Expr::binary(operator::AND, (**left).clone(), rest),
            None => (**left).clone(),
        }
    })
}

/// Keeps the records that equal a referenced one in side and child index, and renumbers.
fn prune(expr: &Expr, records: &[Record]) -> Frame {
    let mut referenced = Vec::new();
    collect_columns(expr, &mut |index| {
        let record = records[usize::from(index)];
        referenced.push((record.side, record.index));
    });
    let mut kept = Vec::new();
    let mut new_index = vec![0; records.len()];
    for (old, record) in records.iter().enumerate() {
        if referenced.contains(&(record.side, record.index)) {
            new_index[old] = kept.len() as u16;
            kept.push(*record);
        }
    }
    Frame {
        records: kept,
        expr: renumber(expr, &|index| new_index[usize::from(index)]),
    }
}

/// The plan after its children are exchanged.
pub fn exchange(plan: &Plan) -> Plan {
    match plan {
        Plan::Frame(frame) => Plan::Frame(exchange_frame(frame)),
        Plan::Extraction(extraction) => Plan::Extraction(Extraction {
            position: extraction.position,
            predicate: exchange_predicate(&extraction.predicate),
            remainder: extraction.remainder.as_ref().map(exchange_frame),
        }),
    }
}

pub fn exchange_frame(frame: &Frame) -> Frame {
    let negated = |record: &Record| Record {
        side: record.side.negate(),
        ..*record
    };
    Frame {
        records: frame.records.iter().map(negated).collect(),
        expr: frame.expr.clone(),
    }
}

fn exchange_predicate(predicate: &Predicate) -> Predicate {
    let mut exchanged = predicate.clone();
    match &mut exchanged {
        Predicate::Relation {
            relation,
            left,
            right,
        } => {
            *relation = inverse(*relation);
            std::mem::swap(left, right);
        }
        Predicate::Distance {
            side, left, right, ..
        } => {
            *side = side.negate();
            std::mem::swap(left, right);
        }
        Predicate::Knn { probe, .. } => *probe = probe.negate(),
    }
    exchanged
}
