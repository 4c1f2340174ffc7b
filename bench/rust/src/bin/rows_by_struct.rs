//! What `bench/rows` measures the program against: each line is read as a struct that was written for its type, whose
//! fields check what the program checks of a declared member, and written where a condition holds that was written with
//! it. Texts without an escape are borrowed from the line.
//!
//! `rows_by_struct Mini.Item|Shop.Product ROWS`
#[path = "../items.rs"]
mod items;
#[path = "../lines.rs"]
mod lines;
#[path = "../texts.rs"]
mod texts;

use items::{Item, Product};
use std::error::Error;

fn main() -> Result<(), Box<dyn Error>> {
    let words: Vec<String> = std::env::args().skip(1).collect();
    let [kind, rows] = words.as_slice() else {
        return Err("rows_by_struct KIND ROWS".into());
    };
    match kind.as_str() {
        "Mini.Item" => lines::write_kept(rows, |line| Ok(serde_json::from_slice::<Item>(line)?.is_kept())),
        "Shop.Product" => lines::write_kept(rows, |line| Ok(serde_json::from_slice::<Product>(line)?.is_kept())),
        _ => Err("no such kind of rows".into()),
    }
}
