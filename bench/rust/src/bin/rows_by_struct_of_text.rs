//! What `bench/rows` measures the program against: `rows_by_struct` over lines that are each seen to be UTF-8 as a whole
//! before they are read, so that `serde_json` does not look at each text in them again.
//!
//! `rows_by_struct_of_text Mini.Item|Shop.Product ROWS`
#[path = "../items.rs"]
mod items;
#[path = "../lines.rs"]
mod lines;
#[path = "../texts.rs"]
mod texts;

use items::{Item, Product};
use serde::de::Error as _;
use std::error::Error;

fn text(line: &[u8]) -> serde_json::Result<&str> {
    std::str::from_utf8(line).map_err(serde_json::Error::custom)
}

fn main() -> Result<(), Box<dyn Error>> {
    let words: Vec<String> = std::env::args().skip(1).collect();
    let [kind, rows] = words.as_slice() else {
        return Err("rows_by_struct_of_text KIND ROWS".into());
    };
    match kind.as_str() {
        "Mini.Item" => lines::write_kept(rows, |line| Ok(serde_json::from_str::<Item>(text(line)?)?.is_kept())),
        "Shop.Product" => lines::write_kept(rows, |line| Ok(serde_json::from_str::<Product>(text(line)?)?.is_kept())),
        _ => Err("no such kind of rows".into()),
    }
}
