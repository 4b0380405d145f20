//! From a frame to what the original is given: a join filter, or a logical expression with the
//! schemas of both children.

use std::collections::HashSet;
use std::sync::Arc;

use datafusion_common::arrow::datatypes::{DataType, Field, Schema};
use datafusion_common::config::ConfigOptions;
use datafusion_common::{Column as LogicalColumn, DFSchema, JoinSide, ScalarValue};
use datafusion_expr::expr::{BinaryExpr as LogicalBinary, GroupingSet, ScalarFunction};
use datafusion_expr::{ColumnarValue, Expr as LogicalExpr, ScalarUDF, Volatility, create_udf};
use datafusion_physical_expr::expressions::{BinaryExpr, Column, Literal};
use datafusion_physical_expr::{PhysicalExpr, ScalarFunctionExpr};
use datafusion_physical_plan::joins::utils::{ColumnIndex, JoinFilter};
use reading::frame::{Expr, Frame, Record, Side, literal, operator};

use crate::opaque::{Meaning, Opaque};
use crate::scalars::{self, scalar};

/// A column's name carries its tag and the position of the AND-leaf where it stands. The original
/// keeps names as they are, so they tell in the end which leaf was taken. A name is eight letters,
/// four for each number: to make and to read it costs little, which matters where time is taken.
pub fn column_name(tag: u16, leaf: u16) -> String {
    let number = u32::from(tag) << 16 | u32::from(leaf);
    let letter = |place: u32| char::from(b'a' + (number >> (28 - 4 * place) & 15) as u8);
    (0..8).map(letter).collect()
}

pub fn tag_and_leaf(name: &str) -> (u16, u16) {
    let digit = |letter: u8| u32::from(letter - b'a');
    let number = name
        .bytes()
        .fold(0, |number, letter| number << 4 | digit(letter));
    ((number >> 16) as u16, number as u16)
}

/// Which AND-leaves the original gets with a node that it doesn't know, so that they do not match: those
/// that document 02 says do not, and the original takes.
#[derive(Clone, Copy)]
pub struct Hidden {
    /// A k of 0 (request 5).
    pub zero_k: bool,
    /// A distance whose bound has mark columns only (request 8).
    pub marks: bool,
}

impl Hidden {
    pub const ALL: Hidden = Hidden {
        zero_k: true,
        marks: true,
    };
    pub const NOTHING: Hidden = Hidden {
        zero_k: false,
        marks: false,
    };
}

/// The type of the literal 0 that stands for k in a leaf.
pub fn zero_k(leaf: &Expr) -> Option<u8> {
    match leaf {
        Expr::Function { name, args } if name == b"st_knn" && args.len() <= 5 => match args
            .get(2)?
        {
            Expr::Literal { kind, bytes } if *bytes == [0; 8] => (literal::INT32..=literal::UINT64)
                .contains(kind)
                .then_some(*kind),
            _ => None,
        },
        _ => None,
    }
}

/// Whether a leaf is a distance whose bound has columns, all of them mark columns.
pub fn marked_bound(leaf: &Expr, records: &[Record]) -> bool {
    let bound = match leaf {
        Expr::Function { name, args } if name == b"st_dwithin" => args.get(2),
        _ => match leaf.compared() {
            Some((Expr::Function { name, .. }, bound)) if name == b"st_distance" => Some(bound),
            _ => None,
        },
    };
    let mut sides = Vec::new();
    if let Some(bound) = bound {
        collect_sides(bound, records, &mut sides);
    }
    !sides.is_empty() && sides.iter().all(|side| *side == Side::None)
}

fn collect_sides(expr: &Expr, records: &[Record], sides: &mut Vec<Side>) {
    if let Expr::Column { index, .. } = expr {
        sides.push(records[usize::from(*index)].side);
    }
    for child in expr.children() {
        collect_sides(child, records, sides);
    }
}

pub fn join_filter(frame: &Frame, hidden: Hidden) -> JoinFilter {
    let field = |record: &Record| Field::new(record.tag.to_string(), DataType::Null, true);
    let fields: Vec<Field> = frame.records.iter().map(field).collect();
    let index = |record: &Record| ColumnIndex {
        index: usize::from(record.index),
        side: join_side(record.side),
    };
    JoinFilter::new(
        and_tree(&frame.expr, &frame.records, hidden, &mut 0),
        frame.records.iter().map(index).collect(),
        Arc::new(Schema::new(fields)),
    )
}

pub fn join_side(side: Side) -> JoinSide {
    match side {
        Side::Left => JoinSide::Left,
        Side::Right => JoinSide::Right,
        Side::None => JoinSide::None,
    }
}

/// The expression, its AND-leaves counted on the way.
fn and_tree(
    expr: &Expr,
    records: &[Record],
    hidden: Hidden,
    leaf: &mut u16,
) -> Arc<dyn PhysicalExpr> {
    match expr {
        Expr::Binary { op, left, right } if *op == operator::AND => {
            let left = and_tree(left, records, hidden, leaf);
            binary(*op, left, and_tree(right, records, hidden, leaf))
        }
        _ => {
            *leaf += 1;
            let leaf = *leaf - 1;
            match zero_k(expr) {
                Some(kind) if hidden.zero_k => without_k(expr, kind, leaf),
                _ if hidden.marks && marked_bound(expr, records) => without_match(expr, leaf),
                _ => physical(expr, leaf),
            }
        }
    }
}

/// The leaf with a node in the place of its k.
fn without_k(expr: &Expr, kind: u8, leaf: u16) -> Arc<dyn PhysicalExpr> {
    let Expr::Function { name, args } = expr else {
        panic!("only a call has a k");
    };
    let mut args: Vec<_> = args.iter().map(|arg| physical(arg, leaf)).collect();
    args[2] = opaque(Meaning::ZeroK(kind), Vec::new());
    function(name, args)
}

/// The distance as a node over its arguments, or over the two sides of its comparison.
fn without_match(expr: &Expr, leaf: u16) -> Arc<dyn PhysicalExpr> {
    let meaning = match expr {
        Expr::Binary { op, .. } => Meaning::Operator(*op),
        _ => Meaning::MarkedDwithin,
    };
    let children = expr.children().into_iter();
    opaque(
        meaning,
        children.map(|child| physical(child, leaf)).collect(),
    )
}

fn opaque(meaning: Meaning, children: Vec<Arc<dyn PhysicalExpr>>) -> Arc<dyn PhysicalExpr> {
    Arc::new(Opaque { meaning, children })
}

fn physical(expr: &Expr, leaf: u16) -> Arc<dyn PhysicalExpr> {
    let all = |exprs: &[Expr]| exprs.iter().map(|e| physical(e, leaf)).collect();
    match expr {
        Expr::Column { index, tag } => {
            Arc::new(Column::new(&column_name(*tag, leaf), usize::from(*index)))
        }
        Expr::Literal { kind, bytes } => Arc::new(Literal::new(scalar(*kind, *bytes))),
        Expr::Binary { op, left, right } => {
            binary(*op, physical(left, leaf), physical(right, leaf))
        }
        Expr::Function { name, args } => function(name, all(args)),
        Expr::Other { tag, children } => opaque(Meaning::Other(*tag), all(children)),
        Expr::LogicalColumn { .. } => panic!("a physical frame has no logical column"),
    }
}

pub fn binary(
    op: u8,
    left: Arc<dyn PhysicalExpr>,
    right: Arc<dyn PhysicalExpr>,
) -> Arc<dyn PhysicalExpr> {
    match scalars::operator(op) {
        Some(operator) => Arc::new(BinaryExpr::new(left, operator, right)),
        None => opaque(Meaning::Operator(op), vec![left, right]),
    }
}

fn function(name: &[u8], args: Vec<Arc<dyn PhysicalExpr>>) -> Arc<dyn PhysicalExpr> {
    let fun = udf(name);
    Arc::new(ScalarFunctionExpr::new(
        fun.name(),
        Arc::clone(&fun),
        args,
        Arc::new(Field::new("", DataType::Null, true)),
        Arc::new(ConfigOptions::default()),
    ))
}

pub fn udf(name: &[u8]) -> Arc<ScalarUDF> {
    let name = str::from_utf8(name).expect("names are ASCII");
    let never_called = Arc::new(|_: &[ColumnarValue]| Ok(ColumnarValue::Scalar(ScalarValue::Null)));
    Arc::new(create_udf(
        name,
        Vec::new(),
        DataType::Null,
        Volatility::Immutable,
        never_called,
    ))
}

/// A logical frame as the original sees it.
pub struct LogicalJoin {
    pub filter: LogicalExpr,
    pub left: DFSchema,
    pub right: DFSchema,
}

pub fn logical_join(expr: &Expr) -> LogicalJoin {
    let mut columns = HashSet::new();
    let filter = logical(expr, &mut columns);
    let schema = |bit: u8| {
        let there = columns.iter().filter(|(bits, _)| bits & bit != 0);
        let field = |&(bits, tag)| Field::new(logical_name(bits, tag), DataType::Null, true);
        DFSchema::try_from(Schema::new(there.map(field).collect::<Vec<_>>()))
            .expect("the names differ")
    };
    LogicalJoin {
        filter,
        left: schema(1),
        right: schema(2),
    }
}

/// Columns of different bits are different columns, even with one tag.
pub fn logical_name(bits: u8, tag: u16) -> String {
    column_name(tag, u16::from(bits))
}

fn logical(expr: &Expr, columns: &mut HashSet<(u8, u16)>) -> LogicalExpr {
    match expr {
        Expr::LogicalColumn { bits, tag } => {
            columns.insert((*bits, *tag));
            LogicalExpr::Column(LogicalColumn::from_name(logical_name(*bits, *tag)))
        }
        Expr::Literal { kind, bytes } => LogicalExpr::Literal(scalar(*kind, *bytes), None),
        Expr::Binary { op, left, right } => {
            let (left, right) = (logical(left, columns), logical(right, columns));
            logical_binary(*op, left, right)
        }
        Expr::Function { name, args } => {
            let args = args.iter().map(|arg| logical(arg, columns)).collect();
            LogicalExpr::ScalarFunction(ScalarFunction::new_udf(udf(name), args))
        }
        Expr::Other { children, .. } => {
            other(children.iter().map(|e| logical(e, columns)).collect())
        }
        Expr::Column { .. } => panic!("a logical frame has no physical column"),
    }
}

pub fn logical_binary(op: u8, left: LogicalExpr, right: LogicalExpr) -> LogicalExpr {
    match scalars::operator(op) {
        Some(operator) => {
            let (left, right) = (Box::new(left), Box::new(right));
            LogicalExpr::BinaryExpr(LogicalBinary::new(left, operator, right))
        }
        None => other(vec![left, right]),
    }
}

pub fn other(children: Vec<LogicalExpr>) -> LogicalExpr {
    LogicalExpr::GroupingSet(GroupingSet::Rollup(children))
}
