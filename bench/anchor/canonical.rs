//! The canonical text of a checked filter.
use crate::literal::Value;
use crate::node::{Checked, Form, Node, LEVELS, PRIMARY, UNARY, WORDS};
use crate::types::FUNCTIONS;

impl Checked {
    pub fn canonical(&self) -> String {
        let mut out = String::with_capacity(self.text.len() + 32);
        self.write(&mut out, self.nodes.len() as u32 - 1, 0);
        out
    }

    fn text(&self, node: &Node) -> &str {
        &self.text[node.text.0 as usize..node.text.1 as usize]
    }

    /// The roots of a node's children, the first one first.
    fn children(&self, index: u32) -> Vec<u32> {
        let (first, mut next, mut roots) = (self.nodes[index as usize].first, index, Vec::new());
        while next > first {
            roots.push(next - 1);
            next = self.nodes[next as usize - 1].first;
        }
        roots.reverse();
        roots
    }

    /// A node, in parentheses where it binds less tightly than so.
    fn write(&self, out: &mut String, index: u32, least: u8) {
        let node = &self.nodes[index as usize];
        let level = match node.form {
            Form::Binary(operator) | Form::Named(operator, _) => LEVELS[operator as usize],
            Form::Negation | Form::Not => UNARY,
            Form::Has | Form::NamedHas(_) | Form::InList | Form::InPath | Form::NamedList(_) => PRIMARY,
            _ => u8::MAX,
        };
        if level < least {
            out.push('(');
        }
        self.write_form(out, index, node, level);
        if level < least {
            out.push(')');
        }
    }

    fn write_form(&self, out: &mut String, index: u32, node: &Node, level: u8) {
        match node.form {
            Form::Literal(value) => self.write_literal(out, node, value),
            Form::Property(_) | Form::Variable(_) => out.push_str(self.text(node)),
            Form::It => out.push_str("$it"),
            Form::Member(_) => self.write_after(out, index - 1, &["/", self.text(node)]),
            Form::Count => self.write_after(out, index - 1, &["/$count"]),
            Form::AnyItem => self.write_after(out, index - 1, &["/any()"]),
            Form::Negation => self.write_sign(out, "- ", index - 1),
            Form::Not => self.write_sign(out, "not ", index - 1),
            Form::Binary(operator) | Form::Named(operator, _) => {
                self.write_infix(out, index, WORDS[operator as usize], level, level + 1);
            }
            Form::Has | Form::NamedHas(_) => self.write_infix(out, index, "has", PRIMARY, PRIMARY + 1),
            Form::InPath => self.write_infix(out, index, "in", PRIMARY, PRIMARY + 1),
            Form::Any | Form::All => {
                let base = self.nodes[index as usize - 1].first - 1;
                let word = if node.form == Form::Any { "/any(" } else { "/all(" };
                self.write_after(out, base, &[word, self.text(node), ":"]);
                self.write(out, index - 1, 0);
                out.push(')');
            }
            Form::Call(number) => {
                out.push_str(FUNCTIONS[number as usize].name);
                self.write_several(out, &self.children(index));
            }
            Form::InList | Form::NamedList(_) => {
                let children = self.children(index);
                self.write(out, children[0], PRIMARY);
                out.push_str(" in ");
                self.write_several(out, &children[1..]);
            }
        }
    }

    fn write_literal(&self, out: &mut String, node: &Node, value: u32) {
        match self.values[value as usize] {
            Value::Int(number) if node.kind.width().is_some() => out.push_str(&number.to_string()),
            Value::Bool(truth) => out.push_str(if truth { "true" } else { "false" }),
            Value::Null => out.push_str("null"),
            _ => out.push_str(self.text(node)),
        }
    }

    fn write_after(&self, out: &mut String, base: u32, pieces: &[&str]) {
        self.write(out, base, 0);
        for piece in pieces {
            out.push_str(piece);
        }
    }

    fn write_sign(&self, out: &mut String, sign: &str, operand: u32) {
        out.push_str(sign);
        self.write(out, operand, UNARY);
    }

    fn write_infix(&self, out: &mut String, index: u32, word: &str, left: u8, right: u8) {
        self.write(out, self.nodes[index as usize - 1].first - 1, left);
        out.push(' ');
        out.push_str(word);
        out.push(' ');
        self.write(out, index - 1, right);
    }

    fn write_several(&self, out: &mut String, roots: &[u32]) {
        out.push('(');
        for (number, root) in roots.iter().enumerate() {
            if number > 0 {
                out.push(',');
            }
            self.write(out, *root, 0);
        }
        out.push(')');
    }
}
