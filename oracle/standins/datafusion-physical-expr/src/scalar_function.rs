//! Physical calls of functions.
//! Stand-in for the crate's own: its names and signatures, with bodies of ours.

use std::fmt;
use std::sync::Arc;

use datafusion_common::Result;
use datafusion_common::arrow::datatypes::FieldRef;
use datafusion_common::config::ConfigOptions;
use datafusion_expr::ScalarUDF;

use crate::PhysicalExpr;

#[derive(Clone, Debug)]
pub struct ScalarFunctionExpr {
    name: String,
    fun: Arc<ScalarUDF>,
    args: Vec<Arc<dyn PhysicalExpr>>,
}

impl ScalarFunctionExpr {
    pub fn new(
        name: &str,
        fun: Arc<ScalarUDF>,
        args: Vec<Arc<dyn PhysicalExpr>>,
        _return_field: FieldRef,
        _config_options: Arc<ConfigOptions>,
    ) -> Self {
        ScalarFunctionExpr {
            name: name.to_owned(),
            fun,
            args,
        }
    }

    pub fn fun(&self) -> &ScalarUDF {
        &self.fun
    }

    pub fn args(&self) -> &[Arc<dyn PhysicalExpr>] {
        &self.args
    }
}

impl fmt::Display for ScalarFunctionExpr {
    fn fmt(&self, f: &mut fmt::Formatter<'_>) -> fmt::Result {
        let args: Vec<String> = self.args.iter().map(ToString::to_string).collect();
        write!(f, "{}({})", self.name, args.join(", "))
    }
}

impl PhysicalExpr for ScalarFunctionExpr {
    fn children(&self) -> Vec<&Arc<dyn PhysicalExpr>> {
        self.args.iter().collect()
    }

    fn with_new_children(
        self: Arc<Self>,
        children: Vec<Arc<dyn PhysicalExpr>>,
    ) -> Result<Arc<dyn PhysicalExpr>> {
        Ok(Arc::new(ScalarFunctionExpr {
            name: self.name.clone(),
            fun: Arc::clone(&self.fun),
            args: children,
        }))
    }
}
