//! A checker of odfilter's filters by hand, beside which bench/check measures odfilter's own: one pass, a typed list,
//! spans, the values of literals, names by a hash, faults in the same order.
//!
//!     anchor SCHEMA TYPE FILTER COUNT check|canonical
//!
//! FILTER is a file. Prints what `odfilter check` prints, and then checks the filter COUNT times more, or writes its
//! canonical text so often. Left out: all of an enumeration but its members' names, the canonical spelling of dates,
//! moments and Guids, and names past ASCII but for what Rust takes for letters and digits.
mod canonical;
mod check;
mod literal;
mod node;
mod operators;
mod paths;
mod scan;
mod schema;
mod types;

use check::check;
use schema::Schema;
use std::hint::black_box;
use types::Single;

fn main() {
    let words: Vec<String> = std::env::args().collect();
    let [_, schema, named, filter, count, what] = words.as_slice() else { panic!("five words") };
    let schema = Schema::read(&std::fs::read(schema).expect("the schema"));
    let Some(Single::Record(root)) = schema.named.get(named.as_str()).copied() else { panic!("no such type") };
    let text = std::fs::read_to_string(filter).expect("the filter");
    let count: usize = count.parse().expect("a count");
    let checked = check(&schema, root, &text);
    match &checked {
        Ok(checked) => println!("accepted\n{}", checked.canonical()),
        Err(fault) => println!("refused {:?} {}..{}", fault.reason, fault.start, fault.stop),
    }
    let mut sum = 0;
    for _ in 0..count {
        sum ^= match (what.as_str(), &checked) {
            ("canonical", Ok(checked)) => checked.canonical().len(),
            _ => check(&schema, root, black_box(&text)).map_or(1, |it| it.nodes.len() ^ it.values.len()),
        };
    }
    black_box(sum);
}
