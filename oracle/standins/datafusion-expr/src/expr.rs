//! Logical expressions.
//! Stand-in for the crate's own: its names and signatures, with bodies of ours.

use std::collections::HashSet;
use std::sync::Arc;

use datafusion_common::metadata::FieldMetadata;
use datafusion_common::{Column, ScalarValue};

use crate::{Operator, ScalarUDF};

#[derive(Clone, Debug)]
pub enum Expr {
    Column(Column),
    Literal(ScalarValue, Option<FieldMetadata>),
    BinaryExpr(BinaryExpr),
    ScalarFunction(ScalarFunction),
    /// The driver's choice for "other": any number of children, and none of the files reads it.
    GroupingSet(GroupingSet),
}

#[derive(Clone, Debug)]
pub struct BinaryExpr {
    pub left: Box<Expr>,
    pub op: Operator,
    pub right: Box<Expr>,
}

impl BinaryExpr {
    pub fn new(left: Box<Expr>, op: Operator, right: Box<Expr>) -> Self {
        BinaryExpr { left, op, right }
    }
}

#[derive(Clone, Debug)]
pub struct ScalarFunction {
    pub func: Arc<ScalarUDF>,
    pub args: Vec<Expr>,
}

impl ScalarFunction {
    pub fn new_udf(func: Arc<ScalarUDF>, args: Vec<Expr>) -> Self {
        ScalarFunction { func, args }
    }
}

#[derive(Clone, Debug)]
pub enum GroupingSet {
    Rollup(Vec<Expr>),
}

impl Expr {
    /// Every column of the expression, equal ones once.
    pub fn column_refs(&self) -> HashSet<&Column> {
        let mut found = HashSet::new();
        self.add_column_refs(&mut found);
        found
    }

    pub fn add_column_refs<'a>(&'a self, found: &mut HashSet<&'a Column>) {
        match self {
            Expr::Column(column) => {
                found.insert(column);
            }
            Expr::Literal(..) => (),
            Expr::BinaryExpr(BinaryExpr { left, right, .. }) => {
                left.add_column_refs(found);
                right.add_column_refs(found);
            }
            Expr::ScalarFunction(ScalarFunction { args: children, .. })
            | Expr::GroupingSet(GroupingSet::Rollup(children)) => {
                for child in children {
                    child.add_column_refs(found);
                }
            }
        }
    }
}
