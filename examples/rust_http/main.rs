//! A service over plain HTTP that checks each $filter: `main SCHEMA TYPE PORT`. It answers a request by the query that
//! reaches its handler, and by the paths that the filter reads.
mod checked;

use checked::{checked, Refusal};
use odfilter::{EntityType, Filter, Schema};
use std::io::{BufRead, BufReader, Write};
use std::net::{TcpListener, TcpStream};
use std::{env, error, fs, io, thread};

const MOST_NODES: u64 = 100;

fn main() -> Result<(), Box<dyn error::Error>> {
    let words: Vec<String> = env::args().skip(1).collect();
    let entities = Schema::read(fs::read(&words[0])?)?.entity_type(&words[1])?;
    let listener = TcpListener::bind(("127.0.0.1", words[2].parse()?))?;
    println!("http://{}", listener.local_addr()?);
    for connection in listener.incoming() {
        let (connection, entities) = (connection?, entities.clone());
        thread::spawn(move || answer(connection, &entities));
    }
    Ok(())
}

fn answer(mut connection: TcpStream, entities: &EntityType) -> io::Result<()> {
    let mut lines = BufReader::new(connection.try_clone()?).lines();
    let first = lines.next().transpose()?.unwrap_or_default();
    while lines.next().transpose()?.is_some_and(|it| !it.is_empty()) {}
    let target = first.split(' ').nth(1).unwrap_or("/");
    let query = target.split_once('?').map_or("", |it| it.1);
    let (status, kind, body) = match checked(entities, query, MOST_NODES) {
        Ok((query, filter)) => (200, "text/plain", handled(&query, filter.as_ref())),
        Err(Refusal { status, body }) => (status, "application/json", body),
    };
    let head =
        format!("HTTP/1.1 {status} \r\nContent-Type: {kind}\r\nContent-Length: {}", body.len());
    connection.write_all(format!("{head}\r\nConnection: close\r\n\r\n{body}").as_bytes())
}

fn handled(query: &str, filter: Option<&Filter>) -> String {
    let paths = filter.and_then(|it| it.property_paths().ok()).unwrap_or_default();
    format!("{query}\n{}\n", paths.join(" "))
}
