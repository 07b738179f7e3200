//! Stands in for serde_json: a package holds values that the clock pass never reads.
#[derive(Debug, Clone, PartialEq, Default)]
pub struct Value;
