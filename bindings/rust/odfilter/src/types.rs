//! The types of a schema, from the lines that `odfilter_types` writes.
use crate::calls::{text, Handle};
use crate::error::Result;
use odfilter_sys as c;

/// An entity or complex type as a schema declares it.
#[derive(Debug, Clone, PartialEq, Eq)]
pub struct DeclaredType {
    /// Its qualified name.
    pub name: String,
    /// `entity` or `complex`.
    pub kind: String,
    /// Its properties, those of its base first.
    pub properties: Vec<DeclaredProperty>,
}

/// A property as a schema declares it; of a collection, `type_name` and `nullable` are those of an item.
#[derive(Debug, Clone, PartialEq, Eq)]
pub struct DeclaredProperty {
    /// Its name.
    pub name: String,
    /// The name of its type; `None` where this is not read: neither filters nor rows can have the property.
    pub type_name: Option<String>,
    /// Whether it is a collection.
    pub collection: bool,
    /// Whether it may be null.
    pub nullable: bool,
    /// Whether it leads to other entities.
    pub navigation: bool,
}

/// The types of a handle that is a schema, or the one that it is.
pub(crate) fn declared_by(handle: &Handle) -> Result<Vec<DeclaredType>> {
    // SAFETY: the handle is a schema or a type, and all else is of this call.
    let lines = text(|to, answer| unsafe { c::odfilter_types(handle.at(), to, answer) })?;
    let mut found: Vec<DeclaredType> = Vec::new();
    for line in lines.lines() {
        let mut words = line.split_ascii_whitespace().map(str::to_owned);
        let (first, second) = (words.next().unwrap_or_default(), words.next().unwrap_or_default());
        match found.last_mut() {
            Some(last) if line.starts_with("  ") => {
                last.properties.push(property(first, &second, &words.collect::<Vec<_>>()));
            }
            _ => found.push(DeclaredType { name: second, kind: first, properties: Vec::new() }),
        }
    }
    Ok(found)
}

/// A property by its name, its type and the words about it.
fn property(name: String, type_name: &str, words: &[String]) -> DeclaredProperty {
    let item = type_name.strip_prefix("Collection(").and_then(|it| it.strip_suffix(')'));
    let said = |wanted: &str| words.iter().any(|it| it == wanted);
    DeclaredProperty {
        name,
        type_name: Some(item.unwrap_or(type_name)).filter(|it| *it != "?").map(str::to_owned),
        collection: item.is_some(),
        nullable: said("nullable"),
        navigation: said("navigation"),
    }
}
