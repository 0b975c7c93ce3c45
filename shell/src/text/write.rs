//! The text of a run file: numbers and no names, each clause and step with its number, one space between fields.

use super::fields::{opened, Field, Version, ATOM, WITH};
use std::fmt::Write;

/// The text of a file, or none where the file ends inside a field, goes on behind the last one, or has a byte that no text says.
pub fn text(file: &[u8]) -> Option<String> {
    let (version, left) = opened(file)?;
    let mut writer = Writer { version, arities: &[], left, text: String::new() };
    writer.head()?;
    for number in 1..=writer.byte()? {
        writer.clause(number)?;
    }
    for number in 1..=u16::from_le_bytes(writer.field()?) {
        writer.step(number)?;
    }
    writer.left.is_empty().then_some(writer.text)
}

struct Writer<'a> {
    version: &'static Version,
    arities: &'a [u8],
    /// The bytes not yet read
    left: &'a [u8],
    text: String,
}

impl<'a> Writer<'a> {
    fn field<const BYTES: usize>(&mut self) -> Option<[u8; BYTES]> {
        let (field, left) = self.left.split_first_chunk()?;
        self.left = left;
        Some(*field)
    }

    fn byte(&mut self) -> Option<u8> {
        self.field().map(|[byte]| byte)
    }

    fn bytes(&mut self, count: u8) -> Option<&'a [u8]> {
        let (bytes, left) = self.left.split_at_checked(count.into())?;
        self.left = left;
        Some(bytes)
    }

    fn head(&mut self) -> Option<()> {
        let constants = self.byte()?;
        let predicates = self.byte()?;
        self.arities = self.bytes(predicates)?;
        let version = self.version.number;
        write!(self.text, "drf {version}\nconstants {constants}\npredicates").ok()?;
        for arity in self.arities {
            write!(self.text, " {arity}").ok()?;
        }
        self.text.push('\n');
        Some(())
    }

    fn clause(&mut self, number: u8) -> Option<()> {
        let [variables, atoms, literals] = self.field()?;
        write!(self.text, "clause {number} {variables} [").ok()?;
        for atom in 0..atoms {
            self.text.push_str(if atom == 0 { "" } else { " " });
            self.atom()?;
        }
        self.text.push(']');
        for _ in 0..literals {
            self.text.push(' ');
            self.literal()?;
        }
        self.text.push('\n');
        Some(())
    }

    fn atom(&mut self) -> Option<()> {
        let [p, q] = self.field()?;
        let c = i32::from_le_bytes(self.field()?);
        write!(self.text, "{p}-{q}<={c}").ok()
    }

    fn literal(&mut self) -> Option<()> {
        self.sign("")?;
        let predicate = self.byte()?;
        write!(self.text, "P{predicate}").ok()?;
        let arity = *self.arities.get(usize::from(predicate).checked_sub(1)?)?;
        self.tuple(arity)
    }

    fn step(&mut self, number: u16) -> Option<()> {
        let rule = usize::from(self.byte()?).checked_sub(1)?;
        let rule = self.version.rules.get(rule)?;
        write!(self.text, "{number} {}", rule.name).ok()?;
        self.arguments(rule.fields)?;
        self.text.push('\n');
        Some(())
    }

    fn arguments(&mut self, fields: &[Field]) -> Option<()> {
        fields.iter().try_for_each(|field| self.argument(*field))
    }

    /// A space and the argument; nothing where a decision brings no atoms
    fn argument(&mut self, field: Field) -> Option<()> {
        match field {
            Field::Number(_) => {
                let number = self.byte()?;
                write!(self.text, " {number}").ok()
            }
            Field::Sign(_) => {
                self.text.push(' ');
                self.sign("+")
            }
            Field::Instance => {
                self.text.push(' ');
                let count = self.byte()?;
                self.tuple(count)
            }
            Field::Brought => self.brought(),
        }
    }

    /// ` with 2 1 + (1), 2 2 ~ (1)`
    fn brought(&mut self) -> Option<()> {
        for atom in 0..self.byte()? {
            match atom {
                0 => write!(self.text, " {WITH}").ok()?,
                _ => self.text.push(','),
            }
            self.arguments(ATOM)?;
        }
        Some(())
    }

    /// A sign, in the way that a positive one is written
    fn sign(&mut self, positive: &str) -> Option<()> {
        let sign = match self.byte()? {
            0 => "~",
            1 => positive,
            _ => return None,
        };
        self.text.push_str(sign);
        Some(())
    }

    fn tuple(&mut self, count: u8) -> Option<()> {
        self.text.push('(');
        for (index, number) in self.bytes(count)?.iter().enumerate() {
            self.text.push_str(if index == 0 { "" } else { "," });
            write!(self.text, "{number}").ok()?;
        }
        self.text.push(')');
        Some(())
    }
}
