//! Paths: steps to properties, `$count`, and lambda operators with their variables.
use crate::check::{Checker, Variable};
use crate::node::{Form, Node};
use crate::scan::{Fault, Kind, Reason, Token};
use crate::types::{Prim, Single, Type, BOOLEAN};

impl Checker<'_> {
    /// The steps that follow a name.
    pub fn path(&mut self, mut base: u32) -> Result<u32, Fault> {
        while self.token.kind == Kind::Slash {
            self.advance()?;
            let word = self.bytes(self.token);
            let is_count = self.token.kind == Kind::Dollar && word.eq_ignore_ascii_case(b"$count");
            let quantifier = if word.eq_ignore_ascii_case(b"any") {
                Some(Form::Any)
            } else {
                word.eq_ignore_ascii_case(b"all").then_some(Form::All)
            };
            if self.token.kind != Kind::Word && !is_count {
                return self.unexpected();
            }
            let step = self.advance()?;
            match quantifier {
                _ if is_count => return Ok(self.ended(base, Form::Count, Type::prim(Prim::Int64), step.stop)),
                Some(form) if self.token.kind == Kind::Open => return self.lambda(base, form),
                _ => base = self.member(base, step),
            }
        }
        Ok(base)
    }

    fn member(&mut self, base: u32, step: Token) -> u32 {
        let base = self.node(base);
        let found = match base.kind {
            Type::One(Single::Record(number)) => {
                self.schema.records[number as usize].get(self.text((step.start, step.stop))).copied()
            }
            _ => None,
        };
        let (slot, kind) = self.found(found, base.start, step.stop);
        self.put(Form::Member(slot), kind, (base.start, step.stop), base.first, (step.start, step.stop))
    }

    /// `/$count` or `/any()` after a collection.
    fn ended(&mut self, base: u32, form: Form, gives: Type, stop: u32) -> u32 {
        let base = self.node(base);
        let kind = match base.kind {
            Type::Many(_) => gives,
            _ => self.blame(Reason::NotCollection, base.start, stop),
        };
        self.put(form, kind, (base.start, stop), base.first, (0, 0))
    }

    fn lambda(&mut self, base: u32, form: Form) -> Result<u32, Fault> {
        self.open()?;
        if form == Form::Any && self.token.kind == Kind::Close {
            let stop = self.close()?;
            return Ok(self.ended(base, Form::AnyItem, BOOLEAN, stop));
        }
        let name = self.token;
        if name.kind != Kind::Word || self.bytes(name).contains(&b'.') {
            return self.unexpected();
        }
        self.advance()?;
        if self.token.kind != Kind::Colon {
            return self.unexpected();
        }
        self.advance()?;
        let base = self.node(base);
        let was_well = self.fault.is_none();
        let kind = self.variable_kind(&base, name);
        let blamed = was_well && self.fault.is_some();
        self.variables.push(Variable { name: (name.start, name.stop), kind });
        let body = self.expression(1)?;
        self.variables.pop();
        let stop = self.close()?;
        if let (true, Some(found)) = (blamed, &mut self.fault) {
            found.stop = stop;
        }
        let kind = match self.node(body).kind.is_truth() {
            true => BOOLEAN,
            false => self.blame(Reason::BodyNotBoolean, base.start, stop),
        };
        Ok(self.put(form, kind, (base.start, stop), base.first, (name.start, name.stop)))
    }

    /// The type of a lambda operator's variable. Where a fault of the operator ends is put there later.
    fn variable_kind(&mut self, base: &Node, name: Token) -> Type {
        let Some(member) = base.kind.members() else {
            return self.blame(Reason::NotCollection, base.start, 0);
        };
        let asked = self.text((name.start, name.stop));
        if self.variables.iter().any(|it| self.text(it.name) == asked) {
            self.blame(Reason::VariableTaken, base.start, 0);
        }
        Type::One(member)
    }
}
