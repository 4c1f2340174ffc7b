//! What `bench/rows` measures the program against: each line is parsed to a `serde_json::Value`, and written where the
//! members named on the command line are equal to the JSON given for them. Nothing of a row is checked beyond that.
//!
//! `rows_by_value ROWS [NAME JSON]..`
#[path = "../lines.rs"]
mod lines;

use serde_json::Value;
use std::error::Error;

fn main() -> Result<(), Box<dyn Error>> {
    let mut words = std::env::args().skip(1);
    let rows = words.next().ok_or("no rows")?;
    let mut wanted = Vec::new();
    while let (Some(name), Some(json)) = (words.next(), words.next()) {
        wanted.push((name, serde_json::from_str::<Value>(&json)?));
    }
    lines::write_kept(&rows, |line| {
        let row: Value = serde_json::from_slice(line)?;
        Ok(wanted.iter().all(|(name, json)| row.get(name) == Some(json)))
    })
}
