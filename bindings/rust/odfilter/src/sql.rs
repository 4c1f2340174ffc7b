//! A filter as conditions of SQL.
use crate::calls::{bytes, text, Handle};
use crate::error::{plain_about, Error, Result};
use crate::filter::Filter;
use odfilter_sys as c;

/// An engine that conditions of SQL are written for.
#[derive(Debug, Clone, Copy, PartialEq, Eq)]
pub enum Dialect {
    /// PostgreSQL.
    PostgreSql,
    /// SQLite.
    Sqlite,
}

/// How the rows of a table are stored.
#[derive(Debug, Clone, Copy, PartialEq, Eq)]
pub enum Rows<'a> {
    /// Each property has a column: the one that stands here beside it, else one of its name.
    Columns(&'a [(&'a str, &'a str)]),
    /// The column of this name has each row as JSON.
    Json(&'a str),
}

/// The value of a parameter.
#[derive(Debug, Clone, PartialEq, Eq)]
pub enum Parameter {
    /// A whole number.
    Int(i64),
    /// A text.
    Text(String),
}

/// An expression of SQL over a table `t`, whose parameters are numbered from 1.
#[derive(Debug, Clone, Default, PartialEq, Eq)]
pub struct Statement {
    /// The expression.
    pub text: String,
    /// The values of its parameters.
    pub parameters: Vec<Parameter>,
}

/// What a filter says of the rows of a table.
#[derive(Debug, Clone, Default, PartialEq, Eq)]
pub struct Conditions {
    /// A number: 0 for false, 1 for true, 2 for null, 3 for Overflow and 4 for DivideByZero.
    pub outcome: Statement,
    /// True where the filter is.
    pub keep: Statement,
    /// True where the filter has a fault; `None` where no row can have one.
    pub fault: Option<Statement>,
}

impl Filter {
    /// The filter as conditions of SQL; `now` is the moment that now() stands for.
    pub fn sql(&self, dialect: Dialect, rows: Rows<'_>, now: Option<&str>) -> Result<Conditions> {
        let form = match (dialect, rows) {
            (Dialect::PostgreSql, Rows::Columns(_)) => c::ODFILTER_POSTGRESQL_COLUMNS,
            (Dialect::PostgreSql, Rows::Json(_)) => c::ODFILTER_POSTGRESQL_JSON,
            (Dialect::Sqlite, Rows::Columns(_)) => c::ODFILTER_SQLITE_COLUMNS,
            (Dialect::Sqlite, Rows::Json(_)) => c::ODFILTER_SQLITE_JSON,
        };
        let how = how(rows, now.unwrap_or_default())?;
        let mut answer = c::odfilter_answer::default();
        // SAFETY: the handle is a filter, and all else is of this call.
        let made = Handle::made(|to| unsafe {
            c::odfilter_new_sql(self.handle.at(), form, bytes(how.as_bytes()), to, &mut answer)
        });
        let made = made.map_err(|status| plain_about(status, now.unwrap_or_default()))?;
        Ok(Conditions {
            outcome: statement(&made, c::ODFILTER_SQL_OUTCOME)?,
            keep: statement(&made, c::ODFILTER_SQL_KEEP)?,
            fault: match statement(&made, c::ODFILTER_SQL_FAULT) {
                Err(Error::Status(c::ODFILTER_UNKNOWN_NUMBER)) => None,
                found => Some(found?),
            },
        })
    }
}

/// A statement of conditions, with the values of its parameters.
fn statement(conditions: &Handle, which: u32) -> Result<Statement> {
    let mut count = 0;
    let text = text(|to, answer| {
        // SAFETY: the handle is conditions, and all else is of this call.
        let status = unsafe { c::odfilter_sql_text(conditions.at(), which, to, answer) };
        // SAFETY: the answer is that of this call.
        count = unsafe { (*answer).number } as u32;
        status
    })?;
    let parameters =
        (0..count).map(|index| value(conditions, which, index)).collect::<Result<_>>()?;
    Ok(Statement { text, parameters })
}

/// The value of a parameter.
fn value(conditions: &Handle, which: u32, index: u32) -> Result<Parameter> {
    let mut whole = None;
    let text = text(|to, answer| {
        // SAFETY: the handle is conditions, and all else is of this call.
        let status = unsafe { c::odfilter_sql_value(conditions.at(), which, index, to, answer) };
        // SAFETY: the answer is that of this call.
        let reported = unsafe { &*answer };
        whole = (reported.verdict == c::ODFILTER_VALUE_WHOLE).then_some(reported.number as i64);
        status
    })?;
    Ok(whole.map_or(Parameter::Text(text), Parameter::Int))
}

/// The lines that `odfilter_sql` takes.
fn how(rows: Rows<'_>, now: &str) -> Result<String> {
    if now.contains('\n') {
        return Err(plain_about(c::ODFILTER_NOT_A_MOMENT, now));
    }
    let mut lines = now.to_owned();
    match rows {
        Rows::Json(column) => lines.extend(["\n", column]),
        Rows::Columns(columns) => {
            for (name, column) in columns {
                if name.contains(['=', '\n']) || column.contains('\n') {
                    return Err(Error::UnknownColumn);
                }
                lines.extend(["\n", name, "=", column]);
            }
        }
    }
    Ok(lines)
}
