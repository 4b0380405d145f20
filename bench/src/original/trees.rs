//! What the original takes, straight from bytes, by the shortest way that we found.

use std::collections::HashMap;
use std::sync::Arc;

use datafusion_common::arrow::datatypes::{DataType, Field, FieldRef, Schema};
use datafusion_common::config::ConfigOptions;
use datafusion_common::{Column as LogicalColumn, JoinSide};
use datafusion_expr::expr::ScalarFunction;
use datafusion_expr::{Expr as LogicalExpr, ScalarUDF};
use datafusion_physical_expr::expressions::{Column, Literal};
use datafusion_physical_expr::{PhysicalExpr, ScalarFunctionExpr};
use datafusion_physical_plan::joins::utils::{ColumnIndex, JoinFilter};
use driver::host::{binary, column_name, join_side, logical_binary, logical_name, other, udf};
use driver::opaque::{Meaning, Opaque};
use driver::original::Extracted;
use driver::scalars::scalar;
use reading::frame::{
    DISTANCE, Expr, KNN, LOGICAL, MAX_RECORDS, PHYSICAL, RELATION, Side, operator,
};
use sedona_query_planner::spatial_predicate::{
    DistancePredicate, KNNPredicate, RelationPredicate, SpatialPredicate, SpatialRelationType,
};

use super::reader::{Reader, Tree};

type Node = Arc<dyn PhysicalExpr>;

/// A host's functions by their names, and what all calls of them share.
pub struct Functions {
    by_name: HashMap<String, Arc<ScalarUDF>>,
    field: FieldRef,
    options: Arc<ConfigOptions>,
}

impl Functions {
    /// Those that these expressions call.
    pub fn of<'e>(exprs: impl Iterator<Item = &'e Expr>) -> Self {
        let mut functions = Functions {
            by_name: HashMap::new(),
            field: Arc::new(Field::new("", DataType::Null, true)),
            options: Arc::new(ConfigOptions::default()),
        };
        exprs.for_each(|expr| functions.add(expr));
        functions
    }

    fn add(&mut self, expr: &Expr) {
        if let Expr::Function { name, .. } = expr {
            let fun = udf(name);
            self.by_name.insert(fun.name().to_owned(), fun);
        }
        for child in expr.children() {
            self.add(child);
        }
    }
}

/// Physical trees. A column's name is its tag and the form of the AND-leaf where it stands.
struct Physical<'f> {
    functions: &'f Functions,
    /// Indices are below it.
    columns: usize,
    form: u8,
}

impl Tree for Physical<'_> {
    type Node = Node;

    fn column(&mut self, kind: u8, reader: &mut Reader<'_>) -> Option<Node> {
        let (index, tag) = (usize::from(reader.two()?), reader.two()?);
        if kind != 0 || index >= self.columns {
            return None;
        }
        let name = column_name(tag, u16::from(self.form));
        Some(Arc::new(Column::new(&name, index)))
    }

    fn literal(&mut self, kind: u8, bytes: [u8; 8]) -> Node {
        Arc::new(Literal::new(scalar(kind, bytes)))
    }

    fn binary(&mut self, op: u8, left: Node, right: Node) -> Node {
        binary(op, left, right)
    }

    fn function(&mut self, name: &str, args: Vec<Node>) -> Option<Node> {
        let fun = self.functions.by_name.get(name)?;
        Some(Arc::new(ScalarFunctionExpr::new(
            name,
            Arc::clone(fun),
            args,
            Arc::clone(&self.functions.field),
            Arc::clone(&self.functions.options),
        )))
    }

    fn other(&mut self, tag: u16, children: Vec<Node>) -> Node {
        let meaning = Meaning::Other(tag);
        Arc::new(Opaque { meaning, children })
    }

    fn leaf(&mut self, operator: u8) {
        self.form = match operator {
            operator::LT..=operator::GT_EQ => operator,
            _ => 0,
        };
    }
}

pub fn join_filter(bytes: &[u8], functions: &Functions) -> Option<JoinFilter> {
    let mut reader = Reader::new(bytes)?;
    if reader.byte()? != PHYSICAL {
        return None;
    }
    let filter = filter(&mut reader, functions)?;
    reader.end()?;
    Some(filter)
}

/// A frame after its first byte.
fn filter(reader: &mut Reader<'_>, functions: &Functions) -> Option<JoinFilter> {
    let columns = usize::from(reader.two()?);
    if columns > MAX_RECORDS {
        return None;
    }
    let mut indices = Vec::with_capacity(columns);
    let mut fields = Vec::with_capacity(columns);
    for _ in 0..columns {
        let side = side(reader)?;
        let index = usize::from(reader.two()?);
        indices.push(ColumnIndex { index, side });
        let tag = reader.two()?;
        fields.push(Field::new(tag.to_string(), DataType::Null, true));
    }
    let mut tree = Physical {
        functions,
        columns,
        form: 0,
    };
    let expr = reader.expr(&mut tree)?;
    let schema = Arc::new(Schema::new(fields));
    Some(JoinFilter::new(expr, indices, schema))
}

fn side(reader: &mut Reader<'_>) -> Option<JoinSide> {
    Side::from_byte(reader.byte()?).map(join_side)
}

pub fn extraction(bytes: &[u8], functions: &Functions) -> Option<Extracted> {
    let mut reader = Reader::new(bytes)?;
    let mut form = 0;
    let predicate = match reader.byte()? {
        RELATION => relation(&mut reader, functions)?,
        DISTANCE => {
            form = reader.byte_up_to(operator::GT_EQ)?;
            distance(&mut reader, functions)?
        }
        KNN => knn(&mut reader, functions)?,
        _ => return None,
    };
    let remainder = match reader.byte()? {
        0 => None,
        PHYSICAL => Some(filter(&mut reader, functions)?),
        _ => return None,
    };
    reader.end()?;
    Some(Extracted {
        predicate,
        form,
        remainder,
    })
}

/// Outside a remainder columns have no bound.
fn argument(reader: &mut Reader<'_>, functions: &Functions) -> Option<Node> {
    let mut tree = Physical {
        functions,
        columns: usize::MAX,
        form: 0,
    };
    reader.expr(&mut tree)
}

fn relation(reader: &mut Reader<'_>, functions: &Functions) -> Option<SpatialPredicate> {
    const TYPES: [SpatialRelationType; 9] = [
        SpatialRelationType::Intersects,
        SpatialRelationType::Contains,
        SpatialRelationType::Within,
        SpatialRelationType::Covers,
        SpatialRelationType::CoveredBy,
        SpatialRelationType::Touches,
        SpatialRelationType::Crosses,
        SpatialRelationType::Overlaps,
        SpatialRelationType::Equals,
    ];
    let relation = TYPES.get(usize::from(reader.byte()?)).copied()?;
    let (left, right) = (argument(reader, functions)?, argument(reader, functions)?);
    let predicate = RelationPredicate::new(left, right, relation);
    Some(SpatialPredicate::Relation(predicate))
}

/// A distance after its form.
fn distance(reader: &mut Reader<'_>, functions: &Functions) -> Option<SpatialPredicate> {
    let side = side(reader)?;
    let (left, right) = (argument(reader, functions)?, argument(reader, functions)?);
    let distance = argument(reader, functions)?;
    let predicate = DistancePredicate::new(left, right, distance, side);
    Some(SpatialPredicate::Distance(predicate))
}

fn knn(reader: &mut Reader<'_>, functions: &Functions) -> Option<SpatialPredicate> {
    let k = reader.four()?;
    let spheroid = reader.byte_up_to(1)? == 1;
    let probe = [JoinSide::Left, JoinSide::Right][usize::from(reader.byte_up_to(1)?)];
    let ties = [Some(false), Some(true), None][usize::from(reader.byte_up_to(2)?)];
    let (left, right) = (argument(reader, functions)?, argument(reader, functions)?);
    let predicate = KNNPredicate::new(left, right, k, spheroid, probe);
    let predicate = predicate.with_include_tie_breakers(ties);
    Some(SpatialPredicate::KNearestNeighbors(predicate))
}

struct Logical<'f> {
    functions: &'f Functions,
}

impl Tree for Logical<'_> {
    type Node = LogicalExpr;

    fn column(&mut self, kind: u8, reader: &mut Reader<'_>) -> Option<LogicalExpr> {
        let (bits, tag) = (reader.byte_up_to(3)?, reader.two()?);
        let column = LogicalColumn::from_name(logical_name(bits, tag));
        (kind == 5).then_some(LogicalExpr::Column(column))
    }

    fn literal(&mut self, kind: u8, bytes: [u8; 8]) -> LogicalExpr {
        LogicalExpr::Literal(scalar(kind, bytes), None)
    }

    fn binary(&mut self, op: u8, left: LogicalExpr, right: LogicalExpr) -> LogicalExpr {
        logical_binary(op, left, right)
    }

    fn function(&mut self, name: &str, args: Vec<LogicalExpr>) -> Option<LogicalExpr> {
        let fun = self.functions.by_name.get(name)?;
        let call = ScalarFunction::new_udf(Arc::clone(fun), args);
        Some(LogicalExpr::ScalarFunction(call))
    }

    fn other(&mut self, _tag: u16, children: Vec<LogicalExpr>) -> LogicalExpr {
        other(children)
    }

    fn leaf(&mut self, _operator: u8) {}
}

pub fn logical_filter(bytes: &[u8], functions: &Functions) -> Option<LogicalExpr> {
    let mut reader = Reader::new(bytes)?;
    if reader.byte()? != LOGICAL {
        return None;
    }
    let expr = reader.expr(&mut Logical { functions })?;
    reader.end()?;
    Some(expr)
}
