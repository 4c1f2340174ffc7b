//! One pass over the tokens by levels of binding, which puts each node with its type after those below it.
use crate::literal::{date_value, guid_value, int_value, moment_value, text_value, Value};
use crate::node::{Checked, Form, Node, Operator, BASE, LEVELS, PATH, PRIMARY, UNARY};
use crate::scan::{fault, Fault, Kind, Reason, Scanner, Token};
use crate::schema::{Property, Schema};
use crate::types::{Prim, Single, Type, BOOLEAN};

const MOST_OPEN: u32 = 64;
const MOST_BYTES: usize = 16_384;

/// A word that joins two operands.
enum Joint {
    Binary(Operator),
    Has,
    In,
}

pub struct Variable {
    pub name: (u32, u32),
    pub kind: Type,
}

pub struct Checker<'a> {
    pub scanner: Scanner<'a>,
    pub token: Token,
    pub schema: &'a Schema,
    pub root: u32,
    pub nodes: Vec<Node>,
    pub values: Vec<Value>,
    pub variables: Vec<Variable>,
    pub open: u32,
    pub fault: Option<Fault>,
}

/// The filter, or its first fault: those of the text come before those of its grammar, and these before those of types.
#[inline(never)]
pub fn check(schema: &Schema, root: u32, text: &str) -> Result<Checked, Fault> {
    if text.len() > MOST_BYTES {
        return Err(fault(Reason::TooLong, 0, text.len()));
    }
    let mut checker = Checker {
        scanner: Scanner { text, at: 0, count: 0 },
        token: Token { kind: Kind::End, start: 0, stop: 0 },
        schema,
        root,
        nodes: Vec::with_capacity(text.len() / 4 + 4),
        values: Vec::new(),
        variables: Vec::new(),
        open: 0,
        fault: None,
    };
    checker.whole()?;
    Ok(Checked { text: text.to_owned(), nodes: checker.nodes, values: checker.values })
}

impl Checker<'_> {
    fn whole(&mut self) -> Result<(), Fault> {
        let parsed = self.advance().and_then(|_| self.expression(1)).and_then(|root| match self.token.kind {
            Kind::End => Ok(root),
            _ => self.unexpected(),
        });
        let top = match parsed {
            Ok(root) => self.node(root),
            Err(found) => return Err(self.fault_of_text(found)),
        };
        if let Some(found) = self.fault {
            return Err(found);
        }
        match top.kind.is_truth() {
            true => Ok(()),
            false => Err(fault(Reason::NotBoolean, 0, self.scanner.text.len())),
        }
    }

    /// A fault of the text further on comes first.
    #[cold]
    fn fault_of_text(&mut self, found: Fault) -> Fault {
        if !matches!(found.reason, Reason::Unexpected | Reason::TooDeep) {
            return found;
        }
        loop {
            match self.scanner.next() {
                Ok(token) if token.kind == Kind::End => return found,
                Ok(_) => {}
                Err(further) => return further,
            }
        }
    }

    #[inline(always)]
    pub fn advance(&mut self) -> Result<Token, Fault> {
        let token = self.token;
        self.token = self.scanner.next()?;
        Ok(token)
    }

    #[cold]
    pub fn unexpected<T>(&self) -> Result<T, Fault> {
        Err(Fault { reason: Reason::Unexpected, start: self.token.start, stop: self.token.stop })
    }

    #[inline(always)]
    pub fn text(&self, range: (u32, u32)) -> &str {
        &self.scanner.text[range.0 as usize..range.1 as usize]
    }

    #[inline(always)]
    pub fn bytes(&self, token: Token) -> &[u8] {
        &self.scanner.text.as_bytes()[token.start as usize..token.stop as usize]
    }

    #[inline(always)]
    pub fn node(&self, index: u32) -> Node {
        self.nodes[index as usize]
    }

    /// Keeps the first fault. What is at fault goes on as null.
    #[cold]
    pub fn blame(&mut self, reason: Reason, start: u32, stop: u32) -> Type {
        self.fault.get_or_insert(Fault { reason, start, stop });
        Type::Null
    }

    #[inline(always)]
    pub fn put(&mut self, form: Form, kind: Type, span: (u32, u32), first: u32, text: (u32, u32)) -> u32 {
        self.nodes.push(Node { form, kind, start: span.0, stop: span.1, first, text });
        self.nodes.len() as u32 - 1
    }

    /// Of a leaf.
    #[inline(always)]
    fn put_leaf(&mut self, form: Form, kind: Type, token: Token) -> u32 {
        let span = (token.start, token.stop);
        self.put(form, kind, span, self.nodes.len() as u32, span)
    }

    #[inline(always)]
    fn put_literal(&mut self, kind: Type, value: Value) -> Result<u32, Fault> {
        let token = self.advance()?;
        self.values.push(value);
        Ok(self.put_leaf(Form::Literal(self.values.len() as u32 - 1), kind, token))
    }

    fn joint(&self) -> Option<(Joint, u8)> {
        if self.token.kind != Kind::Word {
            return None;
        }
        let word = self.bytes(self.token);
        let operator = match *word {
            [a, b] => match [a | 32, b | 32] {
                [b'o', b'r'] => Operator::Or,
                [b'e', b'q'] => Operator::Eq,
                [b'n', b'e'] => Operator::Ne,
                [b'g', b't'] => Operator::Gt,
                [b'g', b'e'] => Operator::Ge,
                [b'l', b't'] => Operator::Lt,
                [b'l', b'e'] => Operator::Le,
                [b'i', b'n'] => return Some((Joint::In, PRIMARY)),
                _ => return None,
            },
            [a, b, c] => match [a | 32, b | 32, c | 32] {
                [b'a', b'n', b'd'] => Operator::And,
                [b'a', b'd', b'd'] => Operator::Add,
                [b's', b'u', b'b'] => Operator::Sub,
                [b'm', b'u', b'l'] => Operator::Mul,
                [b'd', b'i', b'v'] => Operator::Div,
                [b'm', b'o', b'd'] => Operator::Mod,
                [b'h', b'a', b's'] => return Some((Joint::Has, PRIMARY)),
                _ => return None,
            },
            _ => return None,
        };
        Some((Joint::Binary(operator), LEVELS[operator as usize]))
    }

    /// An expression whose operators bind at least so tightly.
    pub fn expression(&mut self, least: u8) -> Result<u32, Fault> {
        let mut left = self.operand(least)?;
        while let Some((joint, level)) = self.joint() {
            if level < least {
                break;
            }
            self.advance()?;
            left = match joint {
                Joint::In if self.token.kind == Kind::Open => self.list(left)?,
                Joint::In => self.joined(left, Joint::In, PATH)?,
                Joint::Has => self.joined(left, Joint::Has, BASE)?,
                joint => self.joined(left, joint, level + 1)?,
            };
        }
        Ok(left)
    }

    #[inline(always)]
    fn joined(&mut self, left: u32, joint: Joint, level: u8) -> Result<u32, Fault> {
        let right = self.expression(level)?;
        let (left, right) = (self.node(left), self.node(right));
        let (form, kind) = match joint {
            Joint::Binary(operator) => self.binary(operator, &left, &right),
            Joint::Has => self.flags(&left, &right),
            Joint::In => (Form::InPath, self.membership(&left, &right)),
        };
        let kind = kind.unwrap_or_else(|| self.blame(Reason::OperandTypes, left.start, right.stop));
        Ok(self.put(form, kind, (left.start, right.stop), left.first, (0, 0)))
    }

    pub fn open(&mut self) -> Result<(), Fault> {
        if self.open == MOST_OPEN {
            return Err(Fault { reason: Reason::TooDeep, start: self.token.start, stop: self.token.stop });
        }
        self.open += 1;
        self.advance().map(|_| ())
    }

    /// Where the closing parenthesis stops.
    pub fn close(&mut self) -> Result<u32, Fault> {
        if self.token.kind != Kind::Close {
            return self.unexpected();
        }
        self.open -= 1;
        Ok(self.advance()?.stop)
    }

    /// Expressions with commas between them, up to the closing parenthesis: how many.
    pub fn several(&mut self) -> Result<usize, Fault> {
        if self.token.kind == Kind::Close {
            return Ok(0);
        }
        let mut count = 1;
        self.expression(1)?;
        while self.token.kind == Kind::Comma {
            self.advance()?;
            self.expression(1)?;
            count += 1;
        }
        Ok(count)
    }

    fn operand(&mut self, least: u8) -> Result<u32, Fault> {
        if least >= PATH && !matches!(self.token.kind, Kind::Word | Kind::Dollar) {
            return self.unexpected();
        }
        match self.token.kind {
            Kind::Word => self.word(least),
            Kind::Int => self.int(),
            Kind::Text => {
                let value = text_value(self.bytes(self.token));
                self.put_literal(Type::prim(Prim::Text), value)
            }
            Kind::Open => self.group(),
            Kind::Minus if least <= UNARY => self.sign(Form::Negation),
            Kind::Dollar if self.bytes(self.token).eq_ignore_ascii_case(b"$it") => {
                let token = self.advance()?;
                let base = self.put_leaf(Form::It, Type::One(Single::Record(self.root)), token);
                self.path(base)
            }
            Kind::Date => self.valued(Prim::Date, date_value),
            Kind::Moment => self.valued(Prim::Moment, moment_value),
            Kind::Guid => self.valued(Prim::Guid, guid_value),
            Kind::EnumText => self.enum_text(),
            _ => self.unexpected(),
        }
    }

    fn int(&mut self) -> Result<u32, Fault> {
        match int_value(self.bytes(self.token)) {
            Some(number) => {
                let prim = match number {
                    -0x8000..=0x7fff => Prim::Int16,
                    -0x8000_0000..=0x7fff_ffff => Prim::Int32,
                    _ => Prim::Int64,
                };
                self.put_literal(Type::prim(prim), Value::Int(number))
            }
            None => self.out_of_range(Reason::LiteralRange),
        }
    }

    fn valued(&mut self, prim: Prim, value: fn(&[u8]) -> Option<Value>) -> Result<u32, Fault> {
        match value(self.bytes(self.token)) {
            Some(value) => self.put_literal(Type::prim(prim), value),
            None => self.out_of_range(Reason::LiteralRange),
        }
    }

    fn enum_text(&mut self) -> Result<u32, Fault> {
        let (name, text) = self.text((self.token.start, self.token.stop - 1)).split_once('\'').unwrap();
        let Some(Single::Enum(number)) = self.schema.named.get(name).copied() else {
            return self.out_of_range(Reason::UnknownEnum);
        };
        match self.schema.enums[number as usize].get(text).copied() {
            Some(value) => self.put_literal(Type::One(Single::Enum(number)), Value::Int(value)),
            None => self.out_of_range(Reason::UnknownEnum),
        }
    }

    #[cold]
    fn out_of_range(&mut self, reason: Reason) -> Result<u32, Fault> {
        let kind = self.blame(reason, self.token.start, self.token.stop);
        self.put_literal(kind, Value::Null)
    }

    fn group(&mut self) -> Result<u32, Fault> {
        let start = self.token.start;
        self.open()?;
        let inner = self.expression(1)?;
        let stop = self.close()?;
        let node = &mut self.nodes[inner as usize];
        if let Some(found) = self.fault.as_mut().filter(|it| (it.start, it.stop) == (node.start, node.stop)) {
            (found.start, found.stop) = (start, stop);
        }
        (node.start, node.stop) = (start, stop);
        Ok(inner)
    }

    /// `-` or `not`, with its operand.
    fn sign(&mut self, form: Form) -> Result<u32, Fault> {
        let start = self.advance()?.start;
        let below = self.expression(UNARY)?;
        let operand = self.node(below);
        let kind = match form {
            Form::Not if operand.kind.is_truth() => BOOLEAN,
            Form::Negation if operand.kind.width().is_some() => operand.kind,
            _ => self.blame(Reason::OperandTypes, start, operand.stop),
        };
        Ok(self.put(form, kind, (start, operand.stop), operand.first, (0, 0)))
    }

    /// What begins with a word.
    fn word(&mut self, least: u8) -> Result<u32, Fault> {
        let word = self.bytes(self.token);
        if matches!(word.len(), 3..=5) {
            let is = |other: &[u8]| word.eq_ignore_ascii_case(other);
            match word[0] | 32 {
                b'n' if is(b"not") => return if least <= UNARY { self.sign(Form::Not) } else { self.unexpected() },
                b'n' | b't' | b'f' if least >= PATH && (is(b"true") || is(b"false") || is(b"null")) => {
                    return self.unexpected()
                }
                b't' if is(b"true") => return self.put_literal(BOOLEAN, Value::Bool(true)),
                b'f' if is(b"false") => return self.put_literal(BOOLEAN, Value::Bool(false)),
                b'n' if is(b"null") => return self.put_literal(Type::Null, Value::Null),
                _ => {}
            }
        }
        let token = self.advance()?;
        if self.token.kind == Kind::Open && least < PATH {
            return self.call(token);
        }
        let base = self.name(token);
        if self.token.kind == Kind::Slash {
            self.path(base)
        } else {
            Ok(base)
        }
    }

    #[inline(always)]
    fn name(&mut self, token: Token) -> u32 {
        let name = self.text((token.start, token.stop));
        if let Some(level) = self.variables.iter().rposition(|it| self.text(it.name) == name) {
            return self.put_leaf(Form::Variable(level as u32), self.variables[level].kind, token);
        }
        let found = self.schema.records[self.root as usize].get(name).copied();
        let (slot, kind) = self.found(found, token.start, token.stop);
        self.put_leaf(Form::Property(slot), kind, token)
    }

    #[inline(always)]
    pub fn found(&mut self, found: Option<Property>, start: u32, stop: u32) -> (u32, Type) {
        match found {
            Some(Property { slot, kind: Some(kind) }) => (slot, kind),
            Some(_) => (0, self.blame(Reason::TypeLeftOut, start, stop)),
            None => (0, self.blame(Reason::UnknownProperty, start, stop)),
        }
    }
}
