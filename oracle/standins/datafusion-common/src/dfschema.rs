//! Whether a schema has a column.
//! Stand-in for the crate's own: its names and signatures, with bodies of ours.

use crate::arrow::datatypes::Schema;
use crate::{Column, DataFusionError};

#[derive(Clone, Debug)]
pub struct DFSchema {
    schema: Schema,
}

impl DFSchema {
    pub fn has_column(&self, column: &Column) -> bool {
        let mut fields = self.schema.fields().iter();
        fields.any(|field| *field.name() == column.name)
    }
}

impl TryFrom<Schema> for DFSchema {
    type Error = DataFusionError;

    fn try_from(schema: Schema) -> Result<Self, DataFusionError> {
        Ok(DFSchema { schema })
    }
}
