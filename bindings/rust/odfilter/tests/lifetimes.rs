//! Lines, dropping in any order, threads, and calls without end.
mod common;

use common::{item, row, DOCUMENT};
use odfilter::{EntityType, Error, Filter, Judge, Schema};
use std::io::BufReader;
use std::{fs, thread};

/// Lines of which one may be at fault, and those that are kept before it.
fn lines(count: usize, faulty: Option<usize>) -> (String, String) {
    let (mut all, mut kept) = (String::new(), String::new());
    for index in 0..count {
        let line = match index {
            index if faulty == Some(index) => "{}".to_owned(),
            index if index % 7 == 0 => " \t\r".to_owned(),
            index => row(index, "null", index % 3 == 0),
        };
        if index % 7 != 0 && index % 3 == 0 && faulty.map_or(true, |it| index < it) {
            kept += &format!("{line}\n");
        }
        all += &format!("{line}\n");
    }
    (all, kept)
}

#[test]
fn lines_of_a_block() {
    let mut judge = item().check("Active").unwrap().judge().unwrap();
    let (all, kept) = lines(100, None);
    let found = judge.filter_lines(all.as_bytes()).unwrap();
    assert_eq!((found.text, found.rows), (kept.clone().into_bytes(), 85));
    let (all, kept) = lines(100, Some(50));
    let Err(Error::Row(fault)) = judge.filter_lines(all.as_bytes()) else { panic!() };
    assert_eq!((fault.code.as_str(), fault.line, fault.kept), ("Missing", 51, kept.into_bytes()));
}

#[test]
fn lines_of_a_reader() {
    let mut judge = item().check("Active").unwrap().judge().unwrap();
    for size in [1, 7, 1 << 16] {
        for faulty in [None, Some(0), Some(1), Some(999)] {
            let (all, wanted) = lines(1000, faulty);
            let mut got = String::new();
            let mut error = None;
            for line in judge.keep(BufReader::with_capacity(size, all.as_bytes())) {
                match line {
                    Ok(line) => got += &format!("{}\n", String::from_utf8(line).unwrap()),
                    Err(it) => error = Some(it),
                }
            }
            assert_eq!(got, wanted);
            let line = error
                .map(|it| matches!(it, Error::Row(it) if it.line == faulty.unwrap() as u64 + 1));
            assert_eq!(line, faulty.map(|_| true));
        }
    }
    let long = format!("{}\n{}", row(3, "null", true), " ".repeat((1 << 20) + 5));
    let mut found = judge.keep(long.as_bytes());
    assert!(found.next().unwrap().is_ok());
    let Some(Err(Error::Row(fault))) = found.next() else { panic!() };
    assert_eq!((fault.code.as_str(), fault.line), ("LineTooLong", 2));
    assert!(found.next().is_none());
}

#[test]
fn a_line_that_costs_more_than_the_bound() {
    let filter = item().check("Tags/any(t:t eq 'b')").unwrap();
    let mut judge = filter.judge().unwrap().within(2);
    let first = format!("{}\n", row(3, "null", true));
    let costly = first.replace(r#""a","b""#, r#""y","z""#);
    let all = format!("{first} \n{first}{costly}{first}");
    let Err(Error::TooCostly(fault)) = judge.filter_lines(all.as_bytes()) else { panic!() };
    let kept = first.repeat(2).into_bytes();
    assert_eq!((fault.code.as_str(), fault.line, fault.kept), ("TooCostly", 4, kept));
    let mut found = judge.keep(all.as_bytes());
    for _ in 0..2 {
        assert_eq!(found.next().unwrap().unwrap(), first.trim_end().as_bytes());
    }
    let Some(Err(Error::TooCostly(fault))) = found.next() else { panic!() };
    assert_eq!((fault.line, fault.kept), (4, Vec::new()));
    assert!(found.next().is_none());
}

#[test]
fn dropped_in_any_order() {
    for order in permutations(4) {
        let schema = Schema::read(DOCUMENT).unwrap();
        let of = schema.entity_type("Mini.Item").unwrap();
        let filter = of.check("Active").unwrap();
        let judge = filter.judge().unwrap();
        let mut held = (Some(schema), Some(of), Some(filter), Some(judge));
        for dropped in order {
            if let Some(schema) = &held.0 {
                schema.entity_type("Mini.Item").unwrap();
            }
            if let Some(of) = &held.1 {
                of.check("Active").unwrap();
            }
            if let Some(filter) = &held.2 {
                assert_eq!(filter.canonical().unwrap(), "Active");
            }
            if let Some(judge) = &mut held.3 {
                assert_eq!(judge.filter_lines(row(1, "null", true).as_bytes()).unwrap().kept, 1);
            }
            match dropped {
                0 => held.0 = None,
                1 => held.1 = None,
                2 => held.2 = None,
                _ => held.3 = None,
            }
        }
    }
}

fn permutations(count: usize) -> Vec<Vec<usize>> {
    if count == 0 {
        return vec![Vec::new()];
    }
    let mut found = Vec::new();
    for rest in permutations(count - 1) {
        for at in 0..=rest.len() {
            let mut order = rest.clone();
            order.insert(at, count - 1);
            found.push(order);
        }
    }
    found
}

#[test]
fn threads() {
    fn is_shared<T: Send + Sync>() {}
    fn is_sent<T: Send>() {}
    is_shared::<Schema>();
    is_shared::<EntityType>();
    is_shared::<Filter>();
    is_sent::<Judge>();
    let of = item();
    let filter = of.check("Active and ID lt 500").unwrap();
    thread::scope(|scope| {
        for _ in 0..8 {
            scope.spawn(|| {
                let mut judge = filter.judge().unwrap();
                let own = of.clone();
                for id in 0..1000 {
                    let verdict = judge.verdict(row(id, "null", true)).unwrap();
                    assert_eq!(verdict, Some(id < 500));
                    let other = own.check("Active").unwrap();
                    assert_eq!(other.canonical().unwrap(), "Active");
                }
            });
        }
    });
    let judge = filter.judge().unwrap();
    let sent = thread::spawn(move || {
        let mut judge = judge;
        judge.verdict(row(1, "null", true)).unwrap()
    });
    assert_eq!(sent.join().unwrap(), Some(true));
}

#[test]
fn a_million_calls_keep_no_memory() {
    let of = item();
    let text = row(1, "null", true);
    let calls = |rounds: usize| {
        for _ in 0..rounds {
            let filter =
                of.check_url("$top=5&$filter=Active%20and%20ID%20lt%20500").unwrap().unwrap();
            assert_eq!(filter.canonical().unwrap(), "Active and ID lt 500");
            let judge = filter.judge().unwrap().at("2026-11-25T09:00:00Z").unwrap();
            let mut judge = judge.within(10);
            assert_eq!(judge.verdict(&text).unwrap(), Some(true));
            assert!(of.check("Foo").is_err() && judge.verdict("{}").is_err());
        }
    };
    calls(10_000);
    let before = resident_memory();
    calls(100_000);
    let after = resident_memory();
    assert!(after < before + (16 << 20), "{before} bytes became {after}");
    println!("figure: {} KiB more after a million calls", after.saturating_sub(before) >> 10);
}

/// How many bytes of memory the process has.
fn resident_memory() -> usize {
    let fields = fs::read_to_string("/proc/self/statm").unwrap();
    fields.split(' ').nth(1).unwrap().parse::<usize>().unwrap() * 4096
}
