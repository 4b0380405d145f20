//! From values to the bytes of document 01.

use crate::conjuncts::Conjuncts;
use crate::frame::{
    DISTANCE, Expr, Extraction, Frame, KNN, LOGICAL, PHYSICAL, Plan, Predicate, RELATION,
};

pub fn physical(frame: &Frame) -> Vec<u8> {
    let mut out = Vec::new();
    put_frame(frame, &mut out);
    out
}

pub fn logical(expr: &Expr) -> Vec<u8> {
    let mut out = vec![LOGICAL];
    put_expr(expr, &mut out);
    out
}

pub fn plan(plan: &Plan) -> Vec<u8> {
    match plan {
        Plan::Frame(frame) => physical(frame),
        Plan::Extraction(extraction) => put_extraction(extraction),
    }
}

fn put_extraction(extraction: &Extraction) -> Vec<u8> {
    let mut out = Vec::new();
    put_predicate(extraction.position, &extraction.predicate, &mut out);
    put_remainder(extraction.remainder.as_ref(), &mut out);
    out
}

/// Request 14 of document 02: the predicates one after another, then `00` or the last remainder.
pub fn conjuncts(conjuncts: &Conjuncts) -> Vec<u8> {
    let mut out = Vec::new();
    for (position, predicate) in &conjuncts.taken {
        put_predicate(*position, predicate, &mut out);
    }
    put_remainder(conjuncts.rest.as_ref(), &mut out);
    out
}

fn put_predicate(position: u16, predicate: &Predicate, out: &mut Vec<u8>) {
    out.push(first_byte(predicate));
    out.extend(position.to_be_bytes());
    put_fields(predicate, out);
}

fn put_remainder(remainder: Option<&Frame>, out: &mut Vec<u8>) {
    match remainder {
        Some(frame) => put_frame(frame, out),
        None => out.push(0),
    }
}

fn put_frame(frame: &Frame, out: &mut Vec<u8>) {
    out.push(PHYSICAL);
    out.extend((frame.records.len() as u16).to_be_bytes());
    for record in &frame.records {
        out.push(record.side.byte());
        out.extend(record.index.to_be_bytes());
        out.extend(record.tag.to_be_bytes());
    }
    put_expr(&frame.expr, out);
}

pub fn first_byte(predicate: &Predicate) -> u8 {
    match predicate {
        Predicate::Relation { .. } => RELATION,
        Predicate::Distance { .. } => DISTANCE,
        Predicate::Knn { .. } => KNN,
    }
}

fn put_fields(predicate: &Predicate, out: &mut Vec<u8>) {
    match predicate {
        Predicate::Relation {
            relation,
            left,
            right,
        } => {
            out.push(*relation);
            put_exprs(&[left, right], out);
        }
        Predicate::Distance {
            form,
            side,
            left,
            right,
            distance,
        } => {
            out.extend([*form, side.byte()]);
            put_exprs(&[left, right, distance], out);
        }
        Predicate::Knn {
            k,
            spheroid,
            probe,
            ties,
            left,
            right,
        } => {
            out.extend(k.to_be_bytes());
            out.extend([u8::from(*spheroid), probe.byte(), ties.map_or(2, u8::from)]);
            put_exprs(&[left, right], out);
        }
    }
}

fn put_exprs(exprs: &[&Expr], out: &mut Vec<u8>) {
    for expr in exprs {
        put_expr(expr, out);
    }
}

fn put_expr(expr: &Expr, out: &mut Vec<u8>) {
    match expr {
        Expr::Column { index, tag } => {
            out.push(0);
            out.extend(index.to_be_bytes());
            out.extend(tag.to_be_bytes());
        }
        Expr::Literal { kind, bytes } => {
            out.extend([1, *kind]);
            out.extend(bytes);
        }
        Expr::Binary { op, .. } => out.extend([2, *op]),
        Expr::Function { name, args } => {
            out.extend([3, name.len() as u8]);
            out.extend(name);
            out.push(args.len() as u8);
        }
        Expr::Other { tag, children } => {
            out.push(4);
            out.extend(tag.to_be_bytes());
            out.push(children.len() as u8);
        }
        Expr::LogicalColumn { bits, tag } => {
            out.extend([5, *bits]);
            out.extend(tag.to_be_bytes());
        }
    }
    put_exprs(&expr.children(), out);
}
