//! The rows that `bench/rows` draws, as structs that were written for their types. Their fields check what the program
//! checks of a declared member; a member that is not declared is passed over, whatever its numbers are.
use crate::texts::{Color, Date, Guid, Moment, Text};
use serde::Deserialize;
use serde_json::Value;
use std::borrow::Cow;

#[derive(Deserialize)]
#[serde(rename_all = "PascalCase")]
pub struct Item<'a> {
    #[serde(rename = "ID")]
    id: i32,
    #[serde(borrow)]
    name: Cow<'a, str>,
    active: bool,
}

// Price is of a type that no filter may ask for: any JSON whose numbers have a value will do
#[derive(Deserialize)]
#[serde(rename_all = "PascalCase")]
#[allow(dead_code)]
pub struct Product<'a> {
    #[serde(rename = "ID")]
    id: i32,
    #[serde(borrow)]
    name: Cow<'a, str>,
    rating: Option<i16>,
    stock: i64,
    active: Option<bool>,
    released: Option<Date>,
    changed: Moment,
    color: Color,
    price: Value,
    code: Guid,
    #[serde(borrow)]
    tags: Vec<Text<'a>>,
    #[serde(borrow)]
    home: Option<Address<'a>>,
    #[serde(borrow)]
    parts: Vec<Part<'a>>,
}

#[derive(Deserialize)]
#[serde(rename_all = "PascalCase")]
#[allow(dead_code)]
struct Address<'a> {
    #[serde(borrow)]
    city: Cow<'a, str>,
    lines: Vec<Line>,
}

#[derive(Deserialize)]
#[serde(rename_all = "PascalCase")]
#[allow(dead_code)]
struct Line {
    qty: i32,
}

#[derive(Deserialize)]
#[serde(rename_all = "PascalCase")]
#[allow(dead_code)]
struct Part<'a> {
    #[serde(borrow)]
    name: Cow<'a, str>,
    qty: i32,
    sub: Vec<Part<'a>>,
}

impl Item<'_> {
    pub fn is_kept(&self) -> bool {
        self.active && self.id == 1 && self.name == "a"
    }
}

impl Product<'_> {
    pub fn is_kept(&self) -> bool {
        self.active == Some(true) && self.id == 1 && self.name == "a"
    }
}
