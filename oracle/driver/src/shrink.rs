//! Makes a case with a difference smaller while some difference stays.

use std::io;
use std::path::Path;

use reading::frame::{Expr, Frame, literal};
use reading::program::{hex, parse};
use reading::{decode, encode};

use crate::compare::{Compared, compare_lines};
use crate::make::Case;

/// Each try runs the planner once.
const MOST_TRIES: usize = 3_000;

/// The smallest case found, with its lines compared.
pub fn shrink(planner: &Path, case: &Case) -> io::Result<Vec<Compared>> {
    let mut lines = case.lines.clone();
    let mut compared = compare_lines(planner, &lines)?;
    let mut tries = 0;
    'smaller: loop {
        for candidate in candidates(&lines) {
            tries += 1;
            if tries > MOST_TRIES {
                return Ok(compared);
            }
            let new = compare_lines(planner, &candidate)?;
            if !new.iter().all(Compared::agrees) {
                (lines, compared) = (candidate, new);
                continue 'smaller;
            }
        }
        return Ok(compared);
    }
}

/// Cases that are smaller in one place: shorter, or with more zeros.
fn candidates(lines: &[Vec<u8>]) -> Vec<Vec<Vec<u8>>> {
    let mut found = Vec::new();
    // Two at a time as well: a pair of exchanges can go only together.
    for count in [1, 2] {
        for at in 0..(lines.len() + 1).saturating_sub(count) {
            let mut fewer = lines.to_vec();
            fewer.drain(at..at + count);
            found.push(fewer);
        }
    }
    for (at, line) in lines.iter().enumerate() {
        for smaller in smaller_lines(line) {
            if size(&smaller) < size(line) {
                let mut changed = lines.to_vec();
                changed[at] = smaller;
                found.push(changed);
            }
        }
    }
    found
}

/// Length first, then the digits that are not zero.
fn size(line: &[u8]) -> (usize, usize) {
    let digits = line.iter().filter(|digit| **digit != b'0').count();
    (line.len(), digits)
}

fn smaller_lines(line: &[u8]) -> Vec<Vec<u8>> {
    let Ok(bytes) = parse(line) else {
        return smaller_texts(line);
    };
    if let Ok(frame) = decode::physical_shape(&bytes) {
        let frames = smaller_frames(&frame).into_iter();
        return frames.map(|frame| hex(&encode::physical(&frame))).collect();
    }
    if let Ok(expr) = decode::logical(&bytes) {
        let exprs = smaller_exprs(&expr).into_iter();
        return exprs.map(|expr| hex(&encode::logical(&expr))).collect();
    }
    smaller_texts(&bytes).iter().map(|text| hex(text)).collect()
}

/// A half, or all but one, of the bytes.
fn smaller_texts(bytes: &[u8]) -> Vec<Vec<u8>> {
    let mut found = vec![bytes[..bytes.len() / 2].to_vec()];
    for at in 0..bytes.len() {
        found.push([&bytes[..at], &bytes[at + 1..]].concat());
    }
    found
}

fn smaller_frames(frame: &Frame) -> Vec<Frame> {
    let mut found = Vec::new();
    for expr in smaller_exprs(&frame.expr) {
        found.push(Frame {
            records: frame.records.clone(),
            expr,
        });
    }
    for at in 0..frame.records.len() {
        let mut fewer = frame.clone();
        fewer.records.remove(at);
        drop_column(&mut fewer.expr, at as u16);
        found.push(fewer);
        let mut plain = frame.clone();
        plain.records[at].tag = 0;
        found.push(plain.clone());
        plain.records[at].index = 0;
        found.push(plain);
    }
    found
}

/// Columns after a record that is gone move down; its own become another's.
fn drop_column(expr: &mut Expr, gone: u16) {
    match expr {
        Expr::Column { index, .. } if *index >= gone => *index = index.saturating_sub(1),
        _ => (),
    }
    for child in children_mut(expr) {
        drop_column(child, gone);
    }
}

fn children_mut(expr: &mut Expr) -> Vec<&mut Expr> {
    match expr {
        Expr::Binary { left, right, .. } => vec![left, right],
        Expr::Function { args, .. } => args.iter_mut().collect(),
        Expr::Other { children, .. } => children.iter_mut().collect(),
        _ => Vec::new(),
    }
}

/// Every expression that is smaller in one node.
fn smaller_exprs(expr: &Expr) -> Vec<Expr> {
    let mut found: Vec<Expr> = expr.children().into_iter().cloned().collect();
    found.push(Expr::Other {
        tag: 0,
        children: Vec::new(),
    });
    found.extend(plainer(expr));
    for (at, child) in expr.children().into_iter().enumerate() {
        for smaller in smaller_exprs(child) {
            let mut changed = expr.clone();
            *children_mut(&mut changed)[at] = smaller;
            found.push(changed);
        }
    }
    found
}

/// The same node with one child fewer or with plainer fields.
fn plainer(expr: &Expr) -> Vec<Expr> {
    let mut found = Vec::new();
    for at in 0..expr.children().len() {
        let mut fewer = expr.clone();
        match &mut fewer {
            Expr::Function { args, .. } => drop(args.remove(at)),
            Expr::Other { children, .. } => drop(children.remove(at)),
            _ => continue,
        }
        found.push(fewer);
    }
    if let Expr::Column { .. } = expr {
        found.push(Expr::Column { index: 0, tag: 0 });
    }
    let mut plain = expr.clone();
    match &mut plain {
        Expr::Column { tag, .. } | Expr::Other { tag, .. } | Expr::LogicalColumn { tag, .. } => {
            *tag = 0;
        }
        Expr::Literal { kind, bytes } => (*kind, *bytes) = (literal::NULL, [0; 8]),
        Expr::Function { name, .. } => *name = b"f".to_vec(),
        Expr::Binary { .. } => (),
    }
    found.push(plain);
    found
}
