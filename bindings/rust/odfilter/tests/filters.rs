//! Filters, verdicts, conditions of SQL, and the error of each kind of mistake.
mod common;

use common::{item, row, DOCUMENT};
use odfilter::{DeclaredProperty, DeclaredType, Dialect, Error, Kind, Parameter, Rows, Schema};

/// Types with each kind of property.
const TYPES: &str = r#"{"$Version":"4.01","Mini":{"Base":{"$Kind":"EntityType","ID":{"$Type":"Edm.Int64"}},
"Part":{"$Kind":"ComplexType"},"Item":{"$Kind":"EntityType","$BaseType":"Mini.Base",
"Tags":{"$Collection":true,"$Nullable":true},"Weight":{"$Type":"Edm.Double","$Nullable":true},
"Parts":{"$Kind":"NavigationProperty","$Type":"Mini.Base","$Collection":true}}}}"#;

#[test]
fn a_filter() {
    let text = "((Active)) AND ID ge +01 and Tags/any(t:t eq 'b') and Changed lt now()";
    let filter = item().check(text).unwrap();
    let canonical = "Active and ID ge 1 and Tags/any(t:t eq 'b') and Changed lt now()";
    assert_eq!(filter.canonical().unwrap(), canonical);
    assert_eq!(filter.property_paths().unwrap(), ["Active", "ID", "Tags", "Changed"]);
    assert!(filter.node_count() > 10 && filter.lambda_depth() == 1 && filter.needs_moment());
    assert!(filter.explanation().unwrap().contains("Edm.Boolean"));
    let long = "ID eq 1 or ".repeat(200) + "Active";
    assert_eq!(item().check(&long).unwrap().canonical().unwrap(), long);
    assert_eq!(odfilter::version().unwrap().split('.').count(), 3);
    let found = item().check_url("$top=5&$filter=ID%20eq%201").unwrap().unwrap();
    assert_eq!((found.text(), found.piece(), found.value()), ("ID eq 1", 7..26, 15..26));
    assert!(item().check_url("$top=5").unwrap().is_none());
    assert!(item().check_query("").unwrap().is_none());
}

#[test]
fn verdicts() {
    let mut judge = item().check("Active and contains(Name,'a')").unwrap().judge().unwrap();
    assert_eq!(judge.verdict(row(1, "\"cab\"", true)).unwrap(), Some(true));
    assert_eq!(judge.verdict(row(1, "\"xy\"", true).as_bytes()).unwrap(), Some(false));
    assert_eq!(judge.verdict(row(1, "null", true)).unwrap(), None);
    let now = item().check("Changed lt now()").unwrap();
    for (moment, wanted) in [("2026-11-25T09:00:00Z", true), ("2025-11-25T09:00:00Z", false)] {
        let mut judge = now.judge().unwrap().at(moment).unwrap();
        assert_eq!(judge.verdict(row(1, "null", true)).unwrap(), Some(wanted));
    }
    let costly = item().check("Tags/any(t:t eq 'b')").unwrap();
    let mut judge = costly.judge().unwrap().within(2);
    assert_eq!(judge.verdict(row(1, "null", true)).unwrap(), Some(true));
}

#[test]
fn refusals() {
    let text = "Name eq '\u{1F98A}é' and Foo eq 1";
    let Err(Error::Refused(refused)) = item().check(text) else { panic!("not refused") };
    assert_eq!((refused.kind, refused.code.as_str()), (Kind::Type, "UnknownProperty"));
    assert_eq!(&refused.text[refused.span.clone()], "Foo");
    assert!(refused.message.ends_with('.'));
    is_object_of(&refused.json, "typing", &refused.code);
    assert_eq!(refused.pointed(), format!("{text}\n                 ^^^"));
    let Err(Error::Refused(empty)) = item().check("") else { panic!("not refused") };
    assert_eq!(empty.pointed(), "\n^");
    let Err(Error::Refused(found)) = item().check_url("$top=5&$filter=Foo%20eq%201") else {
        panic!("not refused")
    };
    assert_eq!((found.piece, found.value), (7..27, 15..27));
    let query = "x=1&%24Filter=Name%20eq%0A'é'&y=2";
    let Err(Error::Refused(asked)) = item().check_query(query) else { panic!("not refused") };
    assert_eq!((asked.text.as_str(), asked.span), ("Name eq\n'é'", 7..8));
    assert_eq!(asked.code, "BadCharacter");
}

/// Whether it is the object of a fault of that class and name.
fn is_object_of(json: &str, class: &str, name: &str) {
    let is_of = json.starts_with(&format!("{{\"class\":\"{class}\",\"code\":"));
    assert!(is_of && json.contains(&format!("\"name\":\"{name}\"")) && json.ends_with('}'));
}

#[test]
fn declared_types() {
    let named = |name: &str, type_name: Option<&str>| DeclaredProperty {
        name: name.to_owned(),
        type_name: type_name.map(str::to_owned),
        collection: false,
        nullable: false,
        navigation: false,
    };
    let parts = named("Parts", Some("Mini.Base"));
    let properties = [
        named("ID", Some("Edm.Int64")),
        DeclaredProperty { collection: true, navigation: true, ..parts },
        DeclaredProperty { collection: true, nullable: true, ..named("Tags", Some("Edm.String")) },
        DeclaredProperty { nullable: true, ..named("Weight", None) },
    ];
    let declared = |name: &str, kind: &str, properties: &[DeclaredProperty]| DeclaredType {
        name: name.to_owned(),
        kind: kind.to_owned(),
        properties: properties.to_vec(),
    };
    let wanted = [
        declared("Mini.Base", "entity", &properties[..1]),
        declared("Mini.Item", "entity", &properties),
        declared("Mini.Part", "complex", &[]),
    ];
    let schema = Schema::read(TYPES).unwrap();
    assert_eq!(schema.types().unwrap(), wanted);
    let item = schema.entity_type("Mini.Item").unwrap();
    assert_eq!(item.properties().unwrap(), properties);
    assert!(Schema::read(r#"{"$Version":"4.01"}"#).unwrap().types().unwrap().is_empty());
}

#[test]
fn other_errors() {
    let Err(Error::Query(query)) = item().check_url("a&x=1;$filter=Foo") else { panic!() };
    assert_eq!((query.code.as_str(), query.number), ("Disguised", 1));
    is_object_of(&query.json, "query", "Disguised");
    let name = "A".repeat(999);
    let document =
        format!(r#"{{"$Version":"4.01","N":{{"{name}":{{"$Kind":"EntityType","P":5}}}}}}"#);
    let Err(Error::Schema(schema)) = Schema::read(document) else { panic!() };
    assert_eq!(schema.code, "BadProperty");
    assert_eq!(schema.names, [format!("N.{name}"), "P".to_owned()]);
    is_object_of(&schema.json, "schema", "BadProperty");
    let unknown = Schema::read(DOCUMENT).unwrap().entity_type("Mini.No");
    assert!(matches!(unknown, Err(Error::UnknownType(message)) if message.contains("Mini.No")));
    let mut judge = item().check("Active").unwrap().judge().unwrap();
    let Err(Error::Row(fault)) = judge.verdict(row(7, "null", true).replace('7', "\"7\"")) else {
        panic!()
    };
    assert_eq!((fault.code.as_str(), fault.path.as_str(), fault.line), ("WrongKind", "ID", 1));
    is_object_of(&fault.json, "row", "WrongKind");
    let needs = item().check("Changed lt now()").unwrap();
    let text = row(1, "null", true);
    assert!(matches!(needs.judge().unwrap().verdict(&text), Err(Error::MomentNeeded)));
    let Err(Error::NotAMoment(said)) = needs.judge().unwrap().at("soon") else { panic!() };
    assert!(said.contains("\"soon\""));
    let mut costly = item().check("Tags/any(t:t eq 'z')").unwrap().judge().unwrap().within(2);
    let Err(Error::TooCostly(fault)) = costly.verdict(&text) else { panic!() };
    assert_eq!((fault.line, fault.code.as_str()), (1, "TooCostly"));
    assert!(fault.message.contains("costs more"));
    is_object_of(&fault.json, "too_costly", "TooCostly");
    // what is not UTF-8, as the bytes of a lone surrogate, cannot be a str; a query and a row may have it
    let surrogate = b"filter=Name eq '\xed\xa0\x80'";
    assert!(matches!(item().check_query(surrogate), Err(Error::Query(it)) if it.code == "NotUtf8"));
    let faulty = judge.verdict(b"{\"ID\":1,\"Name\":\"\xed\xa0\x80\",\"Active\":true}");
    assert!(matches!(faulty, Err(Error::Row(it)) if it.code == "Json"));
}

#[test]
fn sql() {
    let filter =
        item().check("ID eq 9007199254740993 and Name eq 'a''\"\\b' and ID ne -1").unwrap();
    let columns = Rows::Columns(&[("ID", "key")]);
    let found = filter.sql(Dialect::PostgreSql, columns, None).unwrap();
    let text = Parameter::Text("a'\"\\b".to_owned());
    let wanted = [Parameter::Int(9_007_199_254_740_993), text, Parameter::Int(-1)];
    assert_eq!(found.keep.parameters, wanted);
    assert!(found.keep.text.contains("t.\"key\"") && found.fault.is_none());
    let divided = item().check("1 div ID eq 1").unwrap();
    let divided = divided.sql(Dialect::Sqlite, Rows::Json("doc"), None).unwrap();
    assert!(divided.fault.is_some() && divided.outcome.text.contains("t.\"doc\""));
    let columns = Rows::Columns(&[]);
    let escaped = item().check("Name eq '\t\n\u{1}é'").unwrap();
    let escaped = escaped.sql(Dialect::Sqlite, columns, None).unwrap();
    assert_eq!(escaped.keep.parameters, [Parameter::Text("\t\n\u{1}é".to_owned())]);
    let typed =
        item().check("Name eq '7' and ID gt -7 and Changed ge 1970-01-01T00:00:00Z").unwrap();
    let text = |it: &str| Parameter::Text(it.to_owned());
    for (dialect, instant) in
        [(Dialect::Sqlite, "062135769600000000000"), (Dialect::PostgreSql, "0")]
    {
        let found = typed.sql(dialect, columns, None).unwrap().keep.parameters;
        assert_eq!(found, [text("7"), Parameter::Int(-7), text(instant)]);
    }
    let active = item().check("Active").unwrap();
    for name in ["No", "ID="] {
        let unknown = active.sql(Dialect::Sqlite, Rows::Columns(&[(name, "x")]), None);
        assert!(matches!(unknown, Err(Error::UnknownColumn)));
    }
    let nul = item().check("Name eq 'a\0'").unwrap();
    assert!(matches!(nul.sql(Dialect::Sqlite, columns, None), Err(Error::Nul)));
    let deep =
        item().check(&format!("{}ID{} eq 1", "(ID add ".repeat(60), ")".repeat(60))).unwrap();
    assert!(matches!(deep.sql(Dialect::Sqlite, columns, None), Err(Error::TooDeep)));
    let now = item().check("Changed lt now()").unwrap();
    assert!(matches!(now.sql(Dialect::Sqlite, columns, None), Err(Error::MomentNeeded)));
    let two_lines = Some("2026-01-01T00:00:00Z\nID=x");
    assert!(matches!(now.sql(Dialect::Sqlite, columns, two_lines), Err(Error::NotAMoment(_))));
}
