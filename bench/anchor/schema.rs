//! What filters need of a schema in plain CSDL JSON: properties and members, found by a hash of their names.
use crate::types::{Prim, Single, Type};
use std::collections::HashMap;
use std::hash::{BuildHasherDefault, Hasher};

/// Eight bytes at a time, each multiplied in.
#[derive(Clone, Copy, Default)]
pub struct WordHasher(u64);

impl WordHasher {
    fn add(&mut self, word: u64) {
        self.0 = (self.0.rotate_left(5) ^ word).wrapping_mul(0x9e37_79b9_7f4a_7c15);
    }
}

impl Hasher for WordHasher {
    fn write(&mut self, bytes: &[u8]) {
        let mut words = bytes.chunks_exact(8);
        for word in &mut words {
            self.add(u64::from_le_bytes(word.try_into().unwrap()));
        }
        self.add(words.remainder().iter().rev().fold(0, |word, byte| word << 8 | u64::from(*byte)));
    }

    /// The byte after a text, which means nothing here.
    fn write_u8(&mut self, _: u8) {}

    fn finish(&self) -> u64 {
        self.0 ^ self.0 >> 32
    }
}

pub type Names<T> = HashMap<String, T, BuildHasherDefault<WordHasher>>;

#[derive(Clone, Copy)]
pub struct Property {
    pub slot: u32,
    /// None where the type is left out.
    pub kind: Option<Type>,
}

#[derive(Default)]
pub struct Schema {
    pub records: Vec<Names<Property>>,
    pub enums: Vec<Names<i64>>,
    pub named: Names<Single>,
}

enum Json {
    Object(Vec<(String, Json)>),
    Text(String),
    Number(i64),
    True,
    Other,
}

struct Reader<'a> {
    bytes: &'a [u8],
    at: usize,
}

impl Reader<'_> {
    fn skip(&mut self) -> u8 {
        while matches!(self.bytes[self.at], b' ' | b'\t' | b'\r' | b'\n' | b',' | b':') {
            self.at += 1;
        }
        self.bytes[self.at]
    }

    fn text(&mut self) -> String {
        let start = self.at + 1;
        self.at = start + self.bytes[start..].iter().position(|byte| *byte == b'"').unwrap() + 1;
        String::from_utf8(self.bytes[start..self.at - 1].to_vec()).unwrap()
    }

    fn value(&mut self) -> Json {
        let end = match self.skip() {
            b'"' => return Json::Text(self.text()),
            b'{' => b'}',
            b'[' => b']',
            _ => return self.word(),
        };
        let mut members = Vec::new();
        self.at += 1;
        while self.skip() != end {
            let name = if end == b'}' { self.text() } else { String::new() };
            members.push((name, self.value()));
        }
        self.at += 1;
        Json::Object(members)
    }

    fn word(&mut self) -> Json {
        let start = self.at;
        while !b" \t\r\n,]}".contains(&self.bytes[self.at]) {
            self.at += 1;
        }
        let word = std::str::from_utf8(&self.bytes[start..self.at]).unwrap();
        match word.parse() {
            Ok(number) => Json::Number(number),
            Err(_) if word == "true" => Json::True,
            Err(_) => Json::Other,
        }
    }
}

impl Json {
    fn members(&self) -> &[(String, Json)] {
        match self {
            Json::Object(members) => members,
            _ => &[],
        }
    }

    fn member(&self, name: &str) -> Option<&Json> {
        self.members().iter().find(|it| it.0 == name).map(|it| &it.1)
    }

    fn text(&self, name: &str) -> Option<&str> {
        match self.member(name) {
            Some(Json::Text(text)) => Some(text),
            _ => None,
        }
    }
}

fn primitive(name: &str) -> Option<Prim> {
    Some(match name.strip_prefix("Edm.")? {
        "Boolean" => Prim::Boolean,
        "Int16" => Prim::Int16,
        "Int32" => Prim::Int32,
        "Int64" => Prim::Int64,
        "String" => Prim::Text,
        "Date" => Prim::Date,
        "DateTimeOffset" => Prim::Moment,
        "Guid" => Prim::Guid,
        _ => return None,
    })
}

impl Schema {
    pub fn read(bytes: &[u8]) -> Schema {
        let document = Reader { bytes, at: 0 }.value();
        let mut schema = Schema::default();
        let mut records = Vec::new();
        for (space, types) in document.members() {
            let alias = types.text("$Alias").unwrap_or(space);
            for (name, body) in types.members() {
                let Some(single) = schema.declare(body) else { continue };
                if let Single::Record(_) = single {
                    records.push((format!("{space}.{name}"), body));
                }
                schema.named.insert(format!("{space}.{name}"), single);
                schema.named.insert(format!("{alias}.{name}"), single);
            }
        }
        for (number, (name, _)) in records.iter().enumerate() {
            schema.records[number] = schema.properties(&records, name);
        }
        schema
    }

    fn declare(&mut self, body: &Json) -> Option<Single> {
        match body.text("$Kind")? {
            "EnumType" => {
                let numbers = body.members().iter().filter_map(|(name, value)| match value {
                    Json::Number(number) => Some((name.clone(), *number)),
                    _ => None,
                });
                self.enums.push(numbers.collect());
                Some(Single::Enum(self.enums.len() as u32 - 1))
            }
            "EntityType" | "ComplexType" => {
                self.records.push(Names::default());
                Some(Single::Record(self.records.len() as u32 - 1))
            }
            _ => None,
        }
    }

    /// The properties of a type, those of its base first.
    fn properties(&self, records: &[(String, &Json)], name: &str) -> Names<Property> {
        let body = records.iter().find(|it| it.0 == name).unwrap().1;
        let mut found = body.text("$BaseType").map_or_else(Names::default, |base| self.properties(records, base));
        for (name, given) in body.members().iter().filter(|it| !it.0.starts_with('$')) {
            let kind = given.text("$Type").unwrap_or("Edm.String");
            let single = primitive(kind).map(Single::Prim).or_else(|| self.named.get(kind).copied());
            let many = matches!(given.member("$Collection"), Some(Json::True));
            let kind = single.map(if many { Type::Many } else { Type::One });
            found.insert(name.clone(), Property { slot: found.len() as u32, kind });
        }
        found
    }
}
