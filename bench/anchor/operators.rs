//! What operators and functions make of the types of their operands.
use crate::check::Checker;
use crate::literal::Value;
use crate::node::{Form, Node, Operator};
use crate::scan::{Fault, Reason, Token};
use crate::types::{function_of, Prim, Single, Type, BOOLEAN, FUNCTIONS};

impl Checker<'_> {
    /// The number of the member of an enumeration that a literal beside it names.
    fn named(&mut self, beside: Type, literal: &Node) -> Option<Option<u32>> {
        let Type::One(Single::Enum(number)) = beside else { return None };
        if !matches!(literal.form, Form::Literal(_)) || literal.kind != Type::prim(Prim::Text) {
            return None;
        }
        let text = self.text((literal.text.0 + 1, literal.text.1 - 1));
        let found = self.schema.enums[number as usize].get(text).copied();
        Some(found.map(|value| {
            self.values.push(Value::Int(value));
            self.values.len() as u32 - 1
        }))
    }

    pub fn binary(&mut self, operator: Operator, left: &Node, right: &Node) -> (Form, Option<Type>) {
        let form = Form::Binary(operator);
        let (a, b) = (left.kind, right.kind);
        let fits = match operator {
            Operator::Or | Operator::And => a.is_truth() && b.is_truth(),
            Operator::Eq | Operator::Ne => match self.named(a, right).or_else(|| self.named(b, left)) {
                Some(Some(value)) => return (Form::Named(operator, value), Some(BOOLEAN)),
                Some(None) => return (form, Some(self.blame(Reason::UnknownEnum, left.start, right.stop))),
                None => a.equals(b),
            },
            Operator::Gt | Operator::Ge | Operator::Lt | Operator::Le => {
                a.equals(b) && a.is_ordered() && b.is_ordered()
            }
            _ => match (a.width(), b.width()) {
                (Some(one), Some(other)) => return (form, Some(if one > other { a } else { b })),
                _ => false,
            },
        };
        (form, fits.then_some(BOOLEAN))
    }

    pub fn flags(&mut self, left: &Node, right: &Node) -> (Form, Option<Type>) {
        match self.named(left.kind, right) {
            Some(Some(value)) => return (Form::NamedHas(value), Some(BOOLEAN)),
            Some(None) => return (Form::Has, Some(self.blame(Reason::UnknownEnum, left.start, right.stop))),
            None => {}
        }
        let are_flags = |it: Type| matches!(it, Type::Null | Type::One(Single::Enum(_)));
        let fits = are_flags(left.kind) && are_flags(right.kind) && left.kind.equals(right.kind);
        (Form::Has, fits.then_some(BOOLEAN))
    }

    pub fn membership(&mut self, left: &Node, right: &Node) -> Option<Type> {
        match right.kind.members() {
            Some(member) => left.kind.equals(Type::One(member)).then_some(BOOLEAN),
            None => Some(self.blame(Reason::NotCollection, left.start, right.stop)),
        }
    }

    pub fn list(&mut self, left: u32) -> Result<u32, Fault> {
        self.open()?;
        let from = self.nodes.len() as u32;
        self.several()?;
        let end = self.nodes.len() as u32;
        let stop = self.close()?;
        let left = self.node(left);
        let is_enum = matches!(left.kind, Type::One(Single::Enum(_)));
        let form = if is_enum { Form::NamedList(self.values.len() as u32) } else { Form::InList };
        let (mut fits, mut known, mut next) = (left.kind.members().is_none(), true, end);
        while next > from {
            let item = self.node(next - 1);
            match self.named(left.kind, &item) {
                Some(found) => known &= found.is_some(),
                None => fits &= left.kind.equals(item.kind),
            }
            next = item.first;
        }
        let kind = match (fits, known) {
            (true, true) => BOOLEAN,
            (true, false) => self.blame(Reason::UnknownEnum, left.start, stop),
            _ => self.blame(Reason::OperandTypes, left.start, stop),
        };
        Ok(self.put(form, kind, (left.start, stop), left.first, (0, 0)))
    }

    pub fn call(&mut self, name: Token) -> Result<u32, Fault> {
        let first = self.nodes.len() as u32;
        self.open()?;
        let count = self.several()?;
        let end = self.nodes.len() as u32;
        let stop = self.close()?;
        let number = function_of(self.bytes(name));
        let refusal = match number {
            None => Some(Reason::UnknownFunction),
            Some(number) => self.refusal_of(number, count, end),
        };
        let kind = match refusal {
            None => FUNCTIONS[number.unwrap_or(0)].gives,
            Some(reason) => self.blame(reason, name.start, stop),
        };
        let form = Form::Call(number.unwrap_or(0) as u32);
        Ok(self.put(form, kind, (name.start, stop), first, (name.start, name.stop)))
    }

    /// Why a function does not take the last so many trees.
    fn refusal_of(&self, number: usize, count: usize, end: u32) -> Option<Reason> {
        let function = &FUNCTIONS[number];
        if count < function.least || count > function.most() {
            return Some(Reason::ArgumentCount);
        }
        let mut next = end;
        for index in (0..count).rev() {
            let argument = self.node(next - 1);
            if !function.takes(index, argument.kind) {
                return Some(Reason::ArgumentType);
            }
            next = argument.first;
        }
        None
    }
}
