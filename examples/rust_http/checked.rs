//! What stands before a handler of a service of OData, whatever its server is.
use odfilter::{EntityType, Error, Filter};

/// The answer to a request that is not passed on: its status and its body, the standard's error in JSON.
pub struct Refusal {
    pub status: u16,
    pub body: String,
}

/// The query that a request is passed on with, which has the canonical text of its filter, and that filter. A filter
/// that is refused, or has more than so many nodes, is answered by 400.
pub fn checked(
    entities: &EntityType,
    query: &str,
    most_nodes: u64,
) -> Result<(String, Option<Filter>), Refusal> {
    let Some(filter) = entities.check_url(query).map_err(|it| refusal(&it))? else {
        return Ok((query.to_owned(), None));
    };
    if filter.node_count() > most_nodes {
        return Err(refused("TooComplex", "The filter has too many nodes.", "null"));
    }
    let text = filter.canonical().map_err(|it| refusal(&it))?;
    let value = filter.value();
    let passed = format!("{}{}{}", &query[..value.start], escaped(&text), &query[value.end..]);
    Ok((passed, Some(filter)))
}

fn refusal(error: &Error) -> Refusal {
    match error {
        Error::Refused(it) => refused(&it.code, &it.message, &it.json),
        Error::Query(it) => refused(&it.code, &it.message, &it.json),
        other => Refusal { status: 500, body: other.to_string() },
    }
}

fn refused(code: &str, message: &str, inner: &str) -> Refusal {
    let escaped = message.chars().map(|it| match it {
        '"' | '\\' => format!("\\{it}"),
        it if it < ' ' => format!("\\u{:04x}", it as u32),
        it => it.to_string(),
    });
    let said = format!(r#""code":"{code}","message":"{}""#, escaped.collect::<String>());
    let rest = format!(r#""target":"$filter","innererror":{inner}"#);
    Refusal { status: 400, body: format!(r#"{{"error":{{{said},{rest}}}}}"#) }
}

/// A text as the value of an option.
fn escaped(text: &str) -> String {
    let plain = |it: &u8| it.is_ascii_alphanumeric() || b"-_.~".contains(it);
    text.bytes()
        .map(|it| if plain(&it) { char::from(it).to_string() } else { format!("%{it:02X}") })
        .collect()
}
