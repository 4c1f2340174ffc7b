//! OData `$filter`, checked against a CSDL JSON schema, and JSON rows judged by it: a safe crate over the C library.
//!
//! ```no_run
//! # fn main() -> Result<(), Box<dyn std::error::Error>> {
//! let schema = odfilter::Schema::read(std::fs::read("schema.json")?)?;
//! let product = schema.entity_type("Shop.Product")?;
//! let filter = product.check("Rating ge 3")?;
//! let mut judge = filter.judge()?.within(100_000);
//! let keep: Option<bool> = judge.verdict(r#"{"ID":1,"Rating":4}"#)?;
//! # Ok(())
//! # }
//! ```
//!
//! `Schema`, `EntityType` and `Filter` are `Send`, `Sync` and cheap to clone; a `Judge` is `Send` and takes `&mut
//! self`, so the compiler keeps it to one call at a time. All are freed when they are dropped, in any order.
//!
//! ```compile_fail
//! fn shared<T: Sync>(_: T) {}
//! fn judges(filter: odfilter::Filter) {
//!     shared(filter.judge().unwrap());
//! }
//! ```
//!
//! What was dropped cannot be used:
//!
//! ```compile_fail,E0382
//! fn dropped(filter: odfilter::Filter) {
//!     drop(filter);
//!     filter.node_count();
//! }
//! ```
#![warn(missing_docs)]

mod calls;
mod error;
mod filter;
mod judge;
mod sql;
mod types;

pub use error::{Error, Kind, QueryRefusal, Refusal, Result, RowFault, SchemaFault};
pub use filter::{EntityType, Filter, Schema};
pub use judge::{Judge, Keep, Kept};
pub use sql::{Conditions, Dialect, Parameter, Rows, Statement};
pub use types::{DeclaredProperty, DeclaredType};

/// The version of the C library.
pub fn version() -> Result<String> {
    calls::require_fit()?;
    calls::text(|to, answer| unsafe { odfilter_sys::odfilter_version(to, answer) })
}
