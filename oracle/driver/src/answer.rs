//! From what the original gives to the bytes of document 01.

use std::sync::Arc;

use datafusion_common::JoinSide;
use datafusion_physical_expr::expressions::{BinaryExpr, Column, Literal};
use datafusion_physical_expr::{PhysicalExpr, ScalarFunctionExpr};
use datafusion_physical_plan::joins::utils::JoinFilter;
use reading::frame::{DISTANCE, KNN, PHYSICAL, RELATION};
use sedona_query_planner::spatial_predicate::{SpatialPredicate, SpatialRelationType};

use crate::host::tag_and_leaf;
use crate::opaque::{Meaning, Opaque};
use crate::scalars::{literal_of, operator_number};

/// The bytes of an extraction, but for its position. The form byte of a distance is none of the
/// original's.
pub fn put_extraction(
    predicate: &SpatialPredicate,
    form: u8,
    remainder: Option<&JoinFilter>,
    out: &mut Vec<u8>,
) {
    put_predicate(predicate, form, out);
    match remainder {
        Some(filter) => put_filter(filter, out),
        None => out.push(0),
    }
}

/// The AND-leaf that a geometry was taken from, by the name of its first column.
pub fn taken_leaf(geometry: &Arc<dyn PhysicalExpr>) -> Option<u16> {
    match geometry.downcast_ref::<Column>() {
        Some(column) => Some(tag_and_leaf(column.name()).1),
        None => geometry.children().into_iter().find_map(taken_leaf),
    }
}

fn put_predicate(predicate: &SpatialPredicate, form: u8, out: &mut Vec<u8>) {
    match predicate {
        SpatialPredicate::Relation(relation) => {
            out.extend([RELATION, relation_number(relation.relation_type)]);
            put_expr(&relation.left, out);
            put_expr(&relation.right, out);
        }
        SpatialPredicate::Distance(distance) => {
            out.extend([DISTANCE, form, side_number(distance.distance_side)]);
            put_expr(&distance.left, out);
            put_expr(&distance.right, out);
            put_expr(&distance.distance, out);
        }
        SpatialPredicate::KNearestNeighbors(knn) => {
            out.push(KNN);
            out.extend(knn.k.to_be_bytes());
            let ties = knn.include_tie_breakers.map_or(2, u8::from);
            let probe = side_number(knn.probe_side);
            out.extend([u8::from(knn.use_spheroid), probe, ties]);
            put_expr(&knn.left, out);
            put_expr(&knn.right, out);
        }
    }
}

pub fn side_number(side: JoinSide) -> u8 {
    match side {
        JoinSide::Left => 0,
        JoinSide::Right => 1,
        JoinSide::None => 2,
    }
}

fn relation_number(relation: SpatialRelationType) -> u8 {
    match relation {
        SpatialRelationType::Intersects => 0,
        SpatialRelationType::Contains => 1,
        SpatialRelationType::Within => 2,
        SpatialRelationType::Covers => 3,
        SpatialRelationType::CoveredBy => 4,
        SpatialRelationType::Touches => 5,
        SpatialRelationType::Crosses => 6,
        SpatialRelationType::Overlaps => 7,
        SpatialRelationType::Equals => 8,
    }
}

pub fn put_filter(filter: &JoinFilter, out: &mut Vec<u8>) {
    out.push(PHYSICAL);
    let (columns, fields) = (filter.column_indices(), filter.schema().fields());
    assert_eq!(columns.len(), fields.len(), "a field for each column");
    put_two(columns.len(), out);
    for (column, field) in columns.iter().zip(fields.iter()) {
        out.push(side_number(column.side));
        put_two(column.index, out);
        let tag: u16 = field.name().parse().expect("the name came from a frame");
        out.extend(tag.to_be_bytes());
    }
    put_expr(filter.expression(), out);
}

fn put_two(number: usize, out: &mut Vec<u8>) {
    let number = u16::try_from(number).expect("frames have two bytes for it");
    out.extend(number.to_be_bytes());
}

fn put_expr(expr: &Arc<dyn PhysicalExpr>, out: &mut Vec<u8>) {
    if let Some(column) = expr.downcast_ref::<Column>() {
        out.push(0);
        put_two(column.index(), out);
        out.extend(tag_and_leaf(column.name()).0.to_be_bytes());
    } else if let Some(literal) = expr.downcast_ref::<Literal>() {
        let (kind, bytes) = literal_of(literal.value());
        out.extend([1, kind]);
        out.extend(bytes);
    } else if let Some(binary) = expr.downcast_ref::<BinaryExpr>() {
        out.extend([2, operator_number(binary.op())]);
        put_expr(binary.left(), out);
        put_expr(binary.right(), out);
    } else if let Some(function) = expr.downcast_ref::<ScalarFunctionExpr>() {
        let name = function.fun().name();
        out.extend([3, name.len() as u8]);
        out.extend(name.as_bytes());
        out.push(function.args().len() as u8);
        put_exprs(function.args(), out);
    } else if let Some(opaque) = expr.downcast_ref::<Opaque>() {
        put_opaque(opaque, out);
        put_exprs(&opaque.children, out);
    } else {
        panic!("a node that no frame makes: {expr}");
    }
}

fn put_exprs(exprs: &[Arc<dyn PhysicalExpr>], out: &mut Vec<u8>) {
    for expr in exprs {
        put_expr(expr, out);
    }
}

fn put_opaque(opaque: &Opaque, out: &mut Vec<u8>) {
    match opaque.meaning {
        Meaning::Other(tag) => {
            out.push(4);
            out.extend(tag.to_be_bytes());
            out.push(opaque.children.len() as u8);
        }
        Meaning::Operator(number) => out.extend([2, number]),
        Meaning::ZeroK(kind) => out.extend([1, kind, 0, 0, 0, 0, 0, 0, 0, 0]),
        Meaning::MarkedDwithin => {
            out.extend(b"\x03\x0ast_dwithin");
            out.push(opaque.children.len() as u8);
        }
    }
}

#[cfg(test)]
mod tests {
    use reading::{decode, program};

    use super::put_filter;
    use crate::host::{Hidden, join_filter};
    use crate::make;

    /// Nothing of a frame is lost in the join filter that is made from it.
    #[test]
    fn a_join_filter_turns_back_into_its_frame() {
        for number in 0..5_000 {
            for line in make::case(3, number).lines {
                let bytes = program::parse(&line).unwrap_or_default();
                if let Ok(frame) = decode::physical(&bytes) {
                    for hidden in [Hidden::NOTHING, Hidden::ALL] {
                        let mut out = Vec::new();
                        put_filter(&join_filter(&frame, hidden), &mut out);
                        assert_eq!(out, bytes);
                    }
                }
            }
        }
    }
}
