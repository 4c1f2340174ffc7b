//! The types of properties and expressions, and which of them go together.

#[derive(Clone, Copy, PartialEq, Eq)]
pub enum Prim {
    Boolean,
    Int16,
    Int32,
    Int64,
    Text,
    Date,
    Moment,
    Guid,
}

/// Of an enumeration and a structured type the number in the schema.
#[derive(Clone, Copy, PartialEq, Eq)]
pub enum Single {
    Prim(Prim),
    Enum(u32),
    Record(u32),
}

#[derive(Clone, Copy, PartialEq, Eq)]
pub enum Type {
    Null,
    One(Single),
    Many(Single),
}

pub const BOOLEAN: Type = Type::One(Single::Prim(Prim::Boolean));

impl Type {
    pub fn prim(prim: Prim) -> Type {
        Type::One(Single::Prim(prim))
    }

    pub fn is_truth(self) -> bool {
        matches!(self, Type::Null | BOOLEAN)
    }

    /// How wide a number is, null being the narrowest.
    pub fn width(self) -> Option<u8> {
        match self {
            Type::Null => Some(0),
            Type::One(Single::Prim(Prim::Int16)) => Some(1),
            Type::One(Single::Prim(Prim::Int32)) => Some(2),
            Type::One(Single::Prim(Prim::Int64)) => Some(3),
            _ => None,
        }
    }

    /// The type of a collection's members.
    pub fn members(self) -> Option<Single> {
        match self {
            Type::Many(single) => Some(single),
            _ => None,
        }
    }

    /// Whether `eq` takes both.
    pub fn equals(self, other: Type) -> bool {
        match (self, other) {
            (Type::Many(_), _) | (_, Type::Many(_)) => false,
            (Type::Null, _) | (_, Type::Null) => true,
            (Type::One(Single::Record(_)), _) => false,
            _ => self == other || (self.width().is_some() && other.width().is_some()),
        }
    }

    pub fn is_ordered(self) -> bool {
        match self {
            Type::Null => true,
            Type::One(Single::Prim(prim)) => prim != Prim::Guid,
            _ => false,
        }
    }
}

/// A function: its name, the kinds of its arguments, how many of them it needs, and what it returns.
pub struct Function {
    pub name: &'static str,
    takes: &'static [Kind],
    pub least: usize,
    pub gives: Type,
}

#[derive(Clone, Copy)]
enum Kind {
    Text,
    Number,
    Day,
    Moment,
}

impl Function {
    pub fn most(&self) -> usize {
        self.takes.len()
    }

    pub fn takes(&self, index: usize, given: Type) -> bool {
        let Type::One(Single::Prim(prim)) = given else { return given == Type::Null };
        match self.takes[index] {
            Kind::Text => prim == Prim::Text,
            Kind::Number => given.width().is_some(),
            Kind::Day => matches!(prim, Prim::Date | Prim::Moment),
            Kind::Moment => prim == Prim::Moment,
        }
    }
}

const fn row(name: &'static str, takes: &'static [Kind], least: usize, gives: Prim) -> Function {
    Function { name, takes, least, gives: Type::One(Single::Prim(gives)) }
}

const TWO_TEXTS: &[Kind] = &[Kind::Text, Kind::Text];

pub static FUNCTIONS: [Function; 19] = [
    row("contains", TWO_TEXTS, 2, Prim::Boolean),
    row("startswith", TWO_TEXTS, 2, Prim::Boolean),
    row("endswith", TWO_TEXTS, 2, Prim::Boolean),
    row("concat", TWO_TEXTS, 2, Prim::Text),
    row("indexof", TWO_TEXTS, 2, Prim::Int32),
    row("length", &[Kind::Text], 1, Prim::Int32),
    row("substring", &[Kind::Text, Kind::Number, Kind::Number], 2, Prim::Text),
    row("tolower", &[Kind::Text], 1, Prim::Text),
    row("toupper", &[Kind::Text], 1, Prim::Text),
    row("trim", &[Kind::Text], 1, Prim::Text),
    row("year", &[Kind::Day], 1, Prim::Int32),
    row("month", &[Kind::Day], 1, Prim::Int32),
    row("day", &[Kind::Day], 1, Prim::Int32),
    row("hour", &[Kind::Moment], 1, Prim::Int32),
    row("minute", &[Kind::Moment], 1, Prim::Int32),
    row("second", &[Kind::Moment], 1, Prim::Int32),
    row("totaloffsetminutes", &[Kind::Moment], 1, Prim::Int32),
    row("date", &[Kind::Moment], 1, Prim::Date),
    row("now", &[], 0, Prim::Moment),
];

/// The number of the function of a name, in any case.
pub fn function_of(name: &[u8]) -> Option<usize> {
    FUNCTIONS.iter().position(|it| it.name.len() == name.len() && it.name.as_bytes().eq_ignore_ascii_case(name))
}
