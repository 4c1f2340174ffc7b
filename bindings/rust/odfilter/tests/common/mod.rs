//! A schema and its rows, for the tests.
use odfilter::{EntityType, Schema};

pub const DOCUMENT: &str = r#"{"$Version":"4.01","Mini":{"Item":{"$Kind":"EntityType","ID":{"$Type":"Edm.Int64"},
"Name":{"$Nullable":true},"Active":{"$Type":"Edm.Boolean"},"Changed":{"$Type":"Edm.DateTimeOffset"},
"Tags":{"$Collection":true}}}}"#;

pub fn item() -> EntityType {
    Schema::read(DOCUMENT).unwrap().entity_type("Mini.Item").unwrap()
}

/// An item, with a name as JSON.
pub fn row(id: usize, name: &str, active: bool) -> String {
    let rest = r#""Changed":"2026-01-01T00:00:00Z","Tags":["a","b","c"]"#;
    format!(r#"{{"ID":{id},"Name":{name},"Active":{active},{rest}}}"#)
}
