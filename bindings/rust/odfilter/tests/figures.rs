//! What calls take of the processor and of a thread's stack.
mod common;

use common::{item, row};
use odfilter::Error;
use std::{fs, thread};

/// How many bytes of stack a thread has that takes the deepest filters.
const STACK: usize = 256 << 10;

#[test]
fn the_deepest_filters() {
    let open: String = (0..64).map(|number| format!("Tags/any(x{number}:")).collect();
    let deepest = [
        "- ".repeat(4090) + "ID eq 1",
        "not ".repeat(4090) + "Active",
        "Active in (true,false or true and true eq ".repeat(64) + "Active" + &")".repeat(64),
        open + "x0 eq Name" + &")".repeat(64),
    ];
    let judged = |text: &String| {
        let filter = item().check(text).unwrap();
        assert!(filter.canonical().unwrap().len() > 500);
        assert!(filter.explanation().unwrap().len() > 500);
        let mut judge = filter.judge().unwrap().within(1000);
        judge.verdict(row(1, "null", true)).map_err(|error| matches!(error, Error::TooCostly(_)))
    };
    let all = move || deepest.iter().map(judged).collect::<Vec<_>>();
    let found = thread::Builder::new().stack_size(STACK).spawn(all).unwrap().join().unwrap();
    let wanted = [Ok(Some(true)), Ok(Some(true)), Ok(Some(true)), Err(true)];
    assert_eq!(found, wanted);
    println!("figure: {} KiB of a thread's stack for the deepest filters", STACK >> 10);
}

#[test]
fn figures() {
    let of = item();
    let mut judge = of.check("Active and contains(Name,'a')").unwrap().judge().unwrap();
    let text = row(1, "\"abc\"", true);
    let name = format!("a row of {} bytes", text.len());
    figure(&name, 200_000, || assert_eq!(judge.verdict(&text).unwrap(), Some(true)));
    let filter = "Active and ID gt 1 and contains(Name,'abc') or ID in (1,2,3)";
    figure(&format!("a check of {} bytes", filter.len()), 20_000, || drop(of.check(filter).unwrap()));
}

fn figure(name: &str, times: u32, mut call: impl FnMut()) {
    let begun = nanoseconds();
    (0..times).for_each(|_| call());
    let took = (nanoseconds() - begun) / 1000.0 / f64::from(times);
    assert!(took < 100.0, "{name}: {took}");
    println!("figure: {name} takes {took:.2} us of the processor");
}

/// How long this thread has had a processor.
fn nanoseconds() -> f64 {
    let fields = fs::read_to_string("/proc/thread-self/schedstat").unwrap();
    fields.split(' ').next().unwrap().parse().unwrap()
}
