//! Schemas, entity types and filters.
use crate::calls::{buffer, bytes, code_of, json_of, message_of, require_fit, text, Handle};
use crate::error::{plain, Error, Kind, QueryRefusal, Refusal, Result, SchemaFault};
use crate::types::{declared_by, DeclaredProperty, DeclaredType};
use odfilter_sys as c;
use std::ops::Range;
use std::sync::Arc;

/// A schema, read from a CSDL JSON document.
#[derive(Debug, Clone)]
pub struct Schema(Arc<Handle>);

impl Schema {
    /// Reads a CSDL JSON 4.01 document.
    pub fn read(document: impl AsRef<[u8]>) -> Result<Schema> {
        require_fit()?;
        let document = document.as_ref();
        let mut names = vec![0; 256];
        let mut answer = c::odfilter_answer::default();
        loop {
            // SAFETY: the bytes, the buffer and the answer are of this call.
            let made = Handle::made(|to| unsafe {
                c::odfilter_read_schema(bytes(document), buffer(&mut names), to, &mut answer)
            });
            match made {
                Ok(handle) => return Ok(Schema(Arc::new(handle))),
                Err(c::ODFILTER_SCHEMA_FAULT) if answer.length > names.len() => {
                    names.resize(answer.length, 0);
                }
                Err(c::ODFILTER_SCHEMA_FAULT) => {
                    return Err(schema_fault(&names[..answer.length], &answer));
                }
                Err(status) => return Err(plain(status)),
            }
        }
    }

    /// The entity type of that name, with its namespace or the alias of that.
    pub fn entity_type(&self, name: &str) -> Result<EntityType> {
        // SAFETY: the handle is a schema, and the bytes are of this call.
        let made = Handle::made(|to| unsafe {
            c::odfilter_find_type(self.0.at(), bytes(name.as_bytes()), to)
        });
        match made {
            Ok(handle) => Ok(EntityType(Arc::new(handle))),
            Err(status @ c::ODFILTER_UNKNOWN_TYPE) => {
                let fault = c::odfilter_answer::default();
                Err(Error::UnknownType(message_of(None, status, name.as_bytes(), &fault)))
            }
            Err(status) => Err(plain(status)),
        }
    }

    /// The entity and complex types that it declares, in the byte order of their names.
    pub fn types(&self) -> Result<Vec<DeclaredType>> {
        declared_by(&self.0)
    }
}

fn schema_fault(names: &[u8], answer: &c::odfilter_answer) -> Error {
    let (first, second) = names.split_at(answer.first);
    let unknown = if names.is_empty() { 0 } else { 2 };
    let count = c::SCHEMA_NAMES.get(answer.fault as usize).copied().unwrap_or(unknown);
    let named = |it: &&[u8]| String::from_utf8_lossy(it).into_owned();
    let status = c::ODFILTER_SCHEMA_FAULT;
    Error::Schema(Box::new(SchemaFault {
        code: code_of(status, answer),
        names: [first, second].iter().take(count).map(named).collect(),
        message: message_of(None, status, names, answer),
        json: json_of(None, status, names, answer),
    }))
}

/// An entity type of a schema, for whose entities filters are checked.
#[derive(Debug, Clone)]
pub struct EntityType(Arc<Handle>);

impl EntityType {
    /// The properties of the type, those of its base first.
    pub fn properties(&self) -> Result<Vec<DeclaredProperty>> {
        Ok(declared_by(&self.0)?.pop().map(|it| it.properties).unwrap_or_default())
    }

    /// Checks the text of a filter.
    pub fn check(&self, text: &str) -> Result<Filter> {
        let mut answer = c::odfilter_answer::default();
        // SAFETY: the handle is a type, and all else is of this call.
        let made = Handle::made(|to| unsafe {
            c::odfilter_check(self.0.at(), bytes(text.as_bytes()), to, &mut answer)
        });
        self.filter(made, &answer, text.as_bytes(), || text.to_owned())
    }

    /// Checks the filter of a query string with no other option of the standard's; `None` where there is none.
    pub fn check_query(&self, query: impl AsRef<[u8]>) -> Result<Option<Filter>> {
        let query = query.as_ref();
        let mut answer = c::odfilter_answer::default();
        // SAFETY: the handle is a type, and all else is of this call.
        let made = Handle::made(|to| unsafe {
            c::odfilter_check_query(self.0.at(), bytes(query), to, &mut answer)
        });
        optional(made, |made| self.filter(made, &answer, query, || filter_text(query)))
    }

    /// Checks the filter among any options of a query string, as it stands in a URL after the `?`; `None` where there
    /// is none.
    pub fn check_url(&self, query: impl AsRef<[u8]>) -> Result<Option<Filter>> {
        let query = query.as_ref();
        let mut text = vec![0; query.len() + 1];
        let mut answer = c::odfilter_answer::default();
        // SAFETY: the handle is a type, and all else is of this call.
        let made = Handle::made(|to| unsafe {
            c::odfilter_check_url(self.0.at(), bytes(query), buffer(&mut text), to, &mut answer)
        });
        text.truncate(answer.length);
        let decoded = || String::from_utf8_lossy(&text).into_owned();
        optional(made, |made| self.filter(made, &answer, query, decoded))
    }

    fn filter(
        &self,
        made: std::result::Result<Handle, u32>,
        answer: &c::odfilter_answer,
        given: &[u8],
        text: impl FnOnce() -> String,
    ) -> Result<Filter> {
        let piece = answer.piece_start..answer.piece_stop;
        let value = answer.value_start..answer.value_stop;
        let status = match made {
            Ok(handle) => {
                return Ok(Filter { handle: Arc::new(handle), text: text(), piece, value })
            }
            Err(status) => status,
        };
        let kind = match status {
            c::ODFILTER_TEXT_FAULT => Kind::Text,
            c::ODFILTER_SYNTAX_FAULT => Kind::Syntax,
            c::ODFILTER_TYPE_FAULT => Kind::Type,
            c::ODFILTER_QUERY_FAULT => {
                let code = code_of(status, answer);
                let message = message_of(None, status, given, answer);
                let json = json_of(None, status, given, answer);
                let number = answer.number;
                return Err(Error::Query(QueryRefusal { code, number, message, json }));
            }
            other => return Err(plain(other)),
        };
        let (text, span) = (text(), answer.start..answer.stop);
        let code = code_of(status, answer);
        let message = message_of(Some(&self.0), status, text.as_bytes(), answer);
        let json = json_of(Some(&self.0), status, text.as_bytes(), answer);
        let refusal = Refusal { kind, code, span, text, message, piece, value, json };
        Err(Error::Refused(Box::new(refusal)))
    }
}

/// What a call made of a query, or nothing where that has no filter.
fn optional(
    made: std::result::Result<Handle, u32>,
    filter: impl FnOnce(std::result::Result<Handle, u32>) -> Result<Filter>,
) -> Result<Option<Filter>> {
    match made {
        Err(c::ODFILTER_NO_FILTER) => Ok(None),
        made => filter(made).map(Some),
    }
}

/// The decoded text of the option filter or $filter of a query that has one.
fn filter_text(query: &[u8]) -> String {
    for option in query.split(|it| *it == b'&') {
        let at = option.iter().position(|it| *it == b'=').unwrap_or(option.len());
        let name = unescaped(&option[..at]).to_ascii_lowercase();
        if name == b"filter" || name == b"$filter" {
            let value = unescaped(option.get(at + 1..).unwrap_or_default());
            return String::from_utf8_lossy(&value).into_owned();
        }
    }
    String::new()
}

/// What a text stands for, each `%` with two digits for the byte that these are.
fn unescaped(text: &[u8]) -> Vec<u8> {
    let digit = |at: usize| text.get(at).and_then(|it| char::from(*it).to_digit(16));
    let (mut bytes, mut at) = (Vec::with_capacity(text.len()), 0);
    while at < text.len() {
        match (text[at], digit(at + 1), digit(at + 2)) {
            (b'%', Some(high), Some(low)) => {
                bytes.push((high * 16 + low) as u8);
                at += 3;
            }
            (byte, ..) => {
                bytes.push(byte);
                at += 1;
            }
        }
    }
    bytes
}

/// A checked filter.
#[derive(Debug, Clone)]
pub struct Filter {
    pub(crate) handle: Arc<Handle>,
    text: String,
    piece: Range<usize>,
    value: Range<usize>,
}

impl Filter {
    /// The filter's text, decoded where it stood in a query.
    pub fn text(&self) -> &str {
        &self.text
    }

    /// Of `check_url`: the bytes of the query that the filter's option takes, name and value.
    pub fn piece(&self) -> Range<usize> {
        self.piece.clone()
    }

    /// Of `check_url`: the bytes of the query that the option's value takes, into which another may be put.
    pub fn value(&self) -> Range<usize> {
        self.value.clone()
    }

    /// One text for all filters that differ in spaces, parentheses and spelling alone.
    pub fn canonical(&self) -> Result<String> {
        // SAFETY: the handle is a filter, and all else is of this call.
        text(|to, answer| unsafe { c::odfilter_canonical(self.handle.at(), to, answer) })
    }

    /// A line for each node: its span, what it is, and its type.
    pub fn explanation(&self) -> Result<String> {
        // SAFETY: the handle is a filter, and all else is of this call.
        text(|to, answer| unsafe { c::odfilter_explain(self.handle.at(), to, answer) })
    }

    /// The paths of the properties that the filter reads, each once and in order, as Name, Home/City and Parts/Qty.
    pub fn property_paths(&self) -> Result<Vec<String>> {
        // SAFETY: the handle is a filter, and all else is of this call.
        let lines =
            text(|to, answer| unsafe { c::odfilter_property_paths(self.handle.at(), to, answer) })?;
        Ok(lines.lines().map(str::to_owned).collect())
    }

    /// Whether the filter calls now(), so that a judge needs a moment.
    pub fn needs_moment(&self) -> bool {
        self.number(c::odfilter_needs_moment) == 1
    }

    /// How many operators, calls, literals and names the filter has.
    pub fn node_count(&self) -> u64 {
        self.number(c::odfilter_node_count)
    }

    /// How many any() and all() stand in one another, at most.
    pub fn lambda_depth(&self) -> u64 {
        self.number(c::odfilter_lambda_depth)
    }

    fn number(
        &self,
        call: unsafe extern "C" fn(*const c::odfilter_handle, *mut c::odfilter_answer) -> u32,
    ) -> u64 {
        let mut answer = c::odfilter_answer::default();
        // SAFETY: the handle is a filter, of which these calls have no other status than OK.
        unsafe { call(self.handle.at(), &mut answer) };
        answer.number
    }
}
