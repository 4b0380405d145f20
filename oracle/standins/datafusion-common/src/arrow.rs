//! Schemas and fields, of which a frame has the names only.
//! Stand-in for the crate's own: its names and signatures, with bodies of ours.

pub mod datatypes {
    use std::sync::Arc;

    use crate::Result;
    use crate::error::DataFusionError;

    #[derive(Clone, Debug, PartialEq, Eq)]
    pub enum DataType {
        Null,
    }

    #[derive(Clone, Debug)]
    pub struct Field {
        name: String,
    }

    pub type FieldRef = Arc<Field>;

    impl Field {
        pub fn new(name: impl Into<String>, _data_type: DataType, _nullable: bool) -> Self {
            Field { name: name.into() }
        }

        pub fn name(&self) -> &String {
            &self.name
        }
    }

    #[derive(Clone, Debug)]
    pub struct Schema {
        fields: Vec<FieldRef>,
    }

    pub type SchemaRef = Arc<Schema>;

    impl Schema {
        pub fn new(fields: Vec<Field>) -> Self {
            Schema {
                fields: fields.into_iter().map(Arc::new).collect(),
            }
        }

        pub fn fields(&self) -> &[FieldRef] {
            &self.fields
        }

        /// The fields of these positions, in their order.
        pub fn project(&self, indices: &[usize]) -> Result<Schema> {
            let field = |index: &usize| {
                let outside = || DataFusionError::Internal(format!("no field {index}"));
                self.fields.get(*index).cloned().ok_or_else(outside)
            };
            let fields = indices.iter().map(field).collect::<Result<_>>()?;
            Ok(Schema { fields })
        }
    }
}

pub mod record_batch {
    /// Nothing is evaluated here.
    #[derive(Clone, Debug)]
    pub enum RecordBatch {}
}
