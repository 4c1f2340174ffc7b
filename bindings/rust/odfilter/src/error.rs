//! Why a call gave nothing.
use crate::calls::message_of;
use odfilter_sys as c;
use std::ops::Range;
use std::{fmt, io};

/// What the calls of this crate return.
pub type Result<T> = std::result::Result<T, Error>;

/// Why a call gave nothing. `Display` is a sentence for people, which may change; codes stay from version to version.
#[derive(Debug)]
#[non_exhaustive]
pub enum Error {
    /// The filter is refused.
    Refused(Box<Refusal>),
    /// The query is refused.
    Query(QueryRefusal),
    /// The document is no schema.
    Schema(Box<SchemaFault>),
    /// The schema has no entity type of that name; the sentence says so.
    UnknownType(String),
    /// The row has no verdict.
    Row(Box<RowFault>),
    /// A literal or a column's name holds U+0000, which no engine takes.
    Nul,
    /// The filter, or its conditions, nest too deeply for the engine.
    TooDeep,
    /// A column is named for no property of the type.
    UnknownColumn,
    /// The text is not a moment; the sentence shows it.
    NotAMoment(String),
    /// The filter calls now(), and the judge has no moment.
    MomentNeeded,
    /// The filter costs more on the row than the judge's bound.
    TooCostly(Box<RowFault>),
    /// The text is not UTF-8.
    NotUtf8,
    /// An allocation of the library failed.
    OutOfMemory,
    /// The rows could not be read.
    Io(io::Error),
    /// A status that this version does not know.
    Status(u32),
}

/// What a refused filter lacks.
#[derive(Debug, Clone, Copy, PartialEq, Eq)]
pub enum Kind {
    /// Tokens.
    Text,
    /// A tree.
    Syntax,
    /// Types.
    Type,
}

/// Why and where a filter is refused: at `text[span]`.
#[derive(Debug, Clone, PartialEq, Eq)]
pub struct Refusal {
    /// What the filter lacks.
    pub kind: Kind,
    /// The name of the fault.
    pub code: String,
    /// The bytes of the text at fault.
    pub span: Range<usize>,
    /// The filter's text, decoded where it stood in a query.
    pub text: String,
    /// A sentence for people.
    pub message: String,
    /// Of `check_url`: the bytes of the query that the filter's option takes, name and value.
    pub piece: Range<usize>,
    /// Of `check_url`: the bytes of the query that the option's value takes.
    pub value: Range<usize>,
    /// The object that the program prints by `--format json`, with the edits that the type suggests.
    pub json: String,
}

impl Refusal {
    /// The text, and below it a caret under each character of the span, one at least.
    pub fn pointed(&self) -> String {
        let shown: String =
            self.text.chars().map(|it| if it.is_control() { '\u{FFFD}' } else { it }).collect();
        let before = self.text[..self.span.start].chars().count();
        let within = self.text[self.span.clone()].chars().count().max(1);
        format!("{shown}\n{}{}", " ".repeat(before), "^".repeat(within))
    }
}

/// Why a query is refused.
#[derive(Debug, Clone, PartialEq, Eq)]
pub struct QueryRefusal {
    /// The name of the fault.
    pub code: String,
    /// The byte of the `%` for the code BadEscape, and else the index of the option; both count from 0.
    pub number: u64,
    /// A sentence for people.
    pub message: String,
    /// The object that the program prints by `--format json`.
    pub json: String,
}

/// Why a document is no schema.
#[derive(Debug, Clone, PartialEq, Eq)]
pub struct SchemaFault {
    /// The name of the fault.
    pub code: String,
    /// The names that it carries, none to two.
    pub names: Vec<String>,
    /// A sentence for people.
    pub message: String,
    /// The object that the program prints by `--format json`.
    pub json: String,
}

/// Why a row has no verdict.
#[derive(Debug, Clone, PartialEq, Eq)]
pub struct RowFault {
    /// The name of the fault.
    pub code: String,
    /// The path from the row to the value at fault, as Parts/0/Qty; it may be empty.
    pub path: String,
    /// The line at fault, from 1.
    pub line: u64,
    /// The lines that are kept before it.
    pub kept: Vec<u8>,
    /// A sentence for people.
    pub message: String,
    /// The object that the program prints by `--format json`, without the line.
    pub json: String,
}

/// The library's sentence about a status that says everything but what it is about.
fn sentence_of(status: u32, about: &str) -> String {
    message_of(None, status, about.as_bytes(), &c::odfilter_answer::default())
}

/// The error of a status that says everything.
pub(crate) fn plain(status: u32) -> Error {
    plain_about(status, "")
}

/// The error of a status that says everything but what it is about.
pub(crate) fn plain_about(status: u32, about: &str) -> Error {
    match status {
        c::ODFILTER_NOT_UTF8 => Error::NotUtf8,
        c::ODFILTER_MEMORY => Error::OutOfMemory,
        c::ODFILTER_MOMENT_NEEDED => Error::MomentNeeded,
        c::ODFILTER_NOT_A_MOMENT => Error::NotAMoment(sentence_of(status, about)),
        c::ODFILTER_UNSAYABLE => Error::Nul,
        c::ODFILTER_TOO_DEEP => Error::TooDeep,
        c::ODFILTER_UNKNOWN_COLUMN => Error::UnknownColumn,
        other => Error::Status(other),
    }
}

impl fmt::Display for Error {
    fn fmt(&self, to: &mut fmt::Formatter<'_>) -> fmt::Result {
        match self {
            Error::Refused(it) => to.write_str(&it.message),
            Error::Query(it) => to.write_str(&it.message),
            Error::Schema(it) => to.write_str(&it.message),
            Error::UnknownType(message) | Error::NotAMoment(message) => to.write_str(message),
            Error::Row(it) | Error::TooCostly(it) => to.write_str(&it.message),
            Error::Nul => to.write_str(&sentence_of(c::ODFILTER_UNSAYABLE, "")),
            Error::TooDeep => to.write_str(&sentence_of(c::ODFILTER_TOO_DEEP, "")),
            Error::UnknownColumn => to.write_str(&sentence_of(c::ODFILTER_UNKNOWN_COLUMN, "")),
            Error::MomentNeeded => to.write_str(&sentence_of(c::ODFILTER_MOMENT_NEEDED, "")),
            Error::NotUtf8 => to.write_str("the text is not UTF-8"),
            Error::OutOfMemory => to.write_str("out of memory"),
            Error::Io(error) => error.fmt(to),
            Error::Status(status) => write!(to, "odfilter: status {status}"),
        }
    }
}

impl std::error::Error for Error {
    fn source(&self) -> Option<&(dyn std::error::Error + 'static)> {
        match self {
            Error::Io(error) => Some(error),
            _ => None,
        }
    }
}
