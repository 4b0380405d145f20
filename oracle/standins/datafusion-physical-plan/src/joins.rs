//! Join filters.
//! Stand-in for the crate's own: its names and signatures, with bodies of ours.

pub mod utils {
    use std::sync::Arc;

    use datafusion_common::JoinSide;
    use datafusion_common::arrow::datatypes::SchemaRef;
    use datafusion_physical_expr::PhysicalExpr;

    #[derive(Clone, Debug, PartialEq, Eq)]
    pub struct ColumnIndex {
        pub index: usize,
        pub side: JoinSide,
    }

    #[derive(Clone, Debug)]
    pub struct JoinFilter {
        expression: Arc<dyn PhysicalExpr>,
        column_indices: Vec<ColumnIndex>,
        schema: SchemaRef,
    }

    impl JoinFilter {
        pub fn new(
            expression: Arc<dyn PhysicalExpr>,
            column_indices: Vec<ColumnIndex>,
            schema: SchemaRef,
        ) -> Self {
            JoinFilter {
                expression,
                column_indices,
                schema,
            }
        }

        pub fn expression(&self) -> &Arc<dyn PhysicalExpr> {
            &self.expression
        }

        pub fn column_indices(&self) -> &[ColumnIndex] {
            &self.column_indices
        }

        pub fn schema(&self) -> &SchemaRef {
            &self.schema
        }
    }
}
