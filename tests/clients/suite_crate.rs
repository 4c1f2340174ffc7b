//! Answers the questions of tests/library_cases.py by the crate odfilter: `suite_crate FILE`.
use odfilter::{EntityType, Error, Filter, Judge, Result, Schema};
use std::io::Write;
use std::ops::Range;
use std::{env, fs, io};

/// What is held from question to question; `None` where nothing could be made.
#[derive(Default)]
struct Client {
    schema: Option<Schema>,
    of_type: Option<EntityType>,
    filter: Option<Filter>,
}

/// The texts of the questions, one after another.
struct Wire<'a>(&'a [u8]);

impl<'a> Wire<'a> {
    fn next(&mut self) -> &'a [u8] {
        let colon = self.0.iter().position(|it| *it == b':').expect("a length");
        let length: usize = text(&self.0[..colon]).parse().expect("a number");
        let found = &self.0[colon + 1..colon + 1 + length];
        self.0 = &self.0[colon + length + 2..];
        found
    }
}

fn text(bytes: &[u8]) -> &str {
    std::str::from_utf8(bytes).expect("UTF-8")
}

fn main() -> io::Result<()> {
    let questions = fs::read(env::args().nth(1).expect("a file"))?;
    let (mut wire, mut client) = (Wire(&questions), Client::default());
    let mut out = io::BufWriter::new(io::stdout().lock());
    while !wire.0.is_empty() {
        let answer = client.answer(text(wire.next()), &mut wire);
        write!(out, "{}:", answer.len())?;
        out.write_all(&answer)?;
        out.write_all(b",")?;
    }
    out.flush()
}

impl Client {
    fn answer(&mut self, word: &str, wire: &mut Wire) -> Vec<u8> {
        match word {
            "schema" => self.read_schema(wire.next()).into_bytes(),
            "type" => self.find_type(text(wire.next())).into_bytes(),
            "filter" | "query" | "url" => self.check(word, wire.next()).into_bytes(),
            "canonical" => self.by_filter(Filter::canonical),
            "explain" => self.by_filter(Filter::explanation),
            _ => self.judged(word, wire.next(), text(wire.next())),
        }
    }

    fn by_filter(&self, call: impl Fn(&Filter) -> Result<String>) -> Vec<u8> {
        let found = self.filter.as_ref().map(|it| call(it).expect("a text"));
        found.unwrap_or_else(|| "nothing".to_owned()).into_bytes()
    }

    fn read_schema(&mut self, document: &[u8]) -> String {
        *self = Client::default();
        match Schema::read(document) {
            Ok(schema) => {
                self.schema = Some(schema);
                "accepted".to_owned()
            }
            Err(error) => report(&error),
        }
    }

    fn find_type(&mut self, name: &str) -> String {
        (self.of_type, self.filter) = (None, None);
        match self.schema.as_ref().map(|it| it.entity_type(name)) {
            None => "nothing".to_owned(),
            Some(Ok(found)) => {
                self.of_type = Some(found);
                "found".to_owned()
            }
            Some(Err(error)) => report(&error),
        }
    }

    fn check(&mut self, word: &str, given: &[u8]) -> String {
        let Some(of_type) = &self.of_type else { return "nothing".to_owned() };
        let found = match word {
            "filter" => of_type.check(text(given)).map(Some),
            "query" => of_type.check_query(given),
            _ => of_type.check_url(given),
        };
        let (answer, place) = match &found {
            Ok(None) => ("no filter".to_owned(), None),
            Ok(Some(it)) => ("accepted".to_owned(), Some((it.piece(), it.value(), it.text()))),
            Err(error @ Error::Refused(it)) => {
                (report(error), Some((it.piece.clone(), it.value.clone(), it.text.as_str())))
            }
            Err(error) => (report(error), None),
        };
        let answer = match place.filter(|_| word == "url") {
            Some((piece, value, text)) => answer + &shown(&piece, &value, text),
            None => answer,
        };
        self.filter = found.ok().flatten();
        answer
    }

    fn judged(&self, word: &str, rows: &[u8], moment: &str) -> Vec<u8> {
        let Some(filter) = &self.filter else { return b"nothing".to_vec() };
        let mut judge = filter.judge().expect("a judge");
        if !moment.is_empty() {
            judge = judge.at(moment).expect("a moment");
        }
        if word == "row" {
            verdict(&mut judge, rows)
        } else {
            kept_lines(&mut judge, rows)
        }
    }
}

fn shown(piece: &Range<usize>, value: &Range<usize>, text: &str) -> String {
    format!("\n{} {} {} {}\n{text}", piece.start, piece.end, value.start, value.end)
}

fn verdict(judge: &mut Judge, row: &[u8]) -> Vec<u8> {
    match judge.verdict(row) {
        Ok(verdict) => verdict.map_or("null".to_owned(), |it| it.to_string()).into_bytes(),
        Err(error) => report(&error).into_bytes(),
    }
}

fn kept_lines(judge: &mut Judge, rows: &[u8]) -> Vec<u8> {
    match judge.filter_lines(rows) {
        Ok(found) => [b"\n".as_slice(), &found.text].concat(),
        Err(ref error @ Error::Row(ref fault)) => {
            [format!("row {} {}\n", fault.line, report(error)).as_bytes(), &fault.kept].concat()
        }
        Err(other) => panic!("{other:?}"),
    }
}

/// An error as the program spells it.
fn report(error: &Error) -> String {
    match error {
        Error::Refused(it) => format!("refused {} {}..{}", it.code, it.span.start, it.span.end),
        Error::Query(it) => format!("refused query {} {}", it.code, it.number),
        Error::Schema(it) => {
            it.names.iter().fold(it.code.clone(), |said, name| format!("{said} {name}"))
        }
        Error::UnknownType(_) => "unknown".to_owned(),
        Error::Row(it) => format!("{} {}", it.code, it.path).trim_end().to_owned(),
        other => panic!("{other:?}"),
    }
}
