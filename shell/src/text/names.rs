//! Constants and predicates: how many there are, and which names stand for them.

use super::fault::{cut, Fault};
use super::tokens::{in_word, is_name, is_number, Line, MOST_BYTE};
use std::collections::HashMap;

/// The numbers that names stand for
#[derive(Default)]
struct Names<'a>(HashMap<&'a str, u8>);

impl<'a> Names<'a> {
    /// Gives the next token to a number.
    fn give(&mut self, line: &mut Line<'a>, number: u8) -> Result<(), Fault> {
        if self.0.contains_key(line.token()) {
            return Err(line.fault("a name that is not yet given"));
        }
        self.0.insert(line.token(), number);
        line.pass();
        Ok(())
    }
}

/// A name as it is expected; of a word that is none, what it would have to be.
fn name_for(token: &str) -> &'static str {
    if token.starts_with(in_word) && !is_number(token) {
        "a name (a letter a to z or A to Z, then letters, digits and `_`)"
    } else {
        "a name"
    }
}

#[derive(Default)]
pub struct Constants<'a> {
    pub count: u8,
    names: Names<'a>,
}

impl<'a> Constants<'a> {
    /// How many, or a name for each
    pub fn read(mut line: Line<'a>) -> Result<Constants<'a>, Fault> {
        let mut constants = Constants::default();
        let token = line.token();
        if is_name(token) {
            constants.name_all(line)?;
        } else if is_number(token) {
            constants.count = line.byte("a number of constants")?;
            line.end("the end of the line")?;
        } else {
            let count = format!("a number of constants from 0 to {MOST_BYTE}");
            return Err(line.fault(format_args!("{count}, or {}", name_for(token))));
        }
        Ok(constants)
    }

    fn name_all(&mut self, mut line: Line<'a>) -> Result<(), Fault> {
        while is_name(line.token()) {
            line.room(self.count.into(), MOST_BYTE, "constants")?;
            self.count += 1;
            self.names.give(&mut line, self.count)?;
        }
        line.end(format_args!("{} or the end of the line", name_for(line.token())))
    }

    /// A constant, by its number or its name
    pub fn one(&self, line: &mut Line) -> Result<u8, Fault> {
        if let Some(&number) = self.names.0.get(line.token()) {
            line.pass();
            return Ok(number);
        }
        let or = if self.names.0.is_empty() { "" } else { ", or a name given above" };
        line.number(format_args!("a constant (a number from 0 to {MOST_BYTE}{or})"))
    }
}

#[derive(Default)]
pub struct Predicates<'a> {
    /// In turn, from predicate 1 on
    pub arities: Vec<u8>,
    names: Names<'a>,
}

impl<'a> Predicates<'a> {
    /// An arity for each, with its name before it where it has one
    pub fn read(mut line: Line<'a>) -> Result<Predicates<'a>, Fault> {
        let mut predicates = Predicates::default();
        while is_name(line.token()) || is_number(line.token()) {
            predicates.declare(&mut line)?;
        }
        let (name, or) = (name_for(line.token()), "or the end of the line");
        line.end(format_args!("an arity from 0 to {MOST_BYTE}, {name} with its arity, {or}"))?;
        Ok(predicates)
    }

    fn declare(&mut self, line: &mut Line<'a>) -> Result<(), Fault> {
        line.room(self.arities.len(), MOST_BYTE, "predicates")?;
        let name = line.token();
        if by_number(name).is_some() {
            let why = "as P and digits name a predicate by its number";
            return Err(line.fault(format_args!("a name other than {}, {why}", cut(name))));
        }
        if is_name(name) {
            self.names.give(line, self.arities.len() as u8 + 1)?;
            line.one("/", "`/` and an arity")?;
        }
        self.arities.push(line.byte("an arity")?);
        Ok(())
    }

    /// A predicate, by its name or as P and its number
    pub fn one(&self, line: &mut Line) -> Result<u8, Fault> {
        let word = line.token();
        let number = match (self.names.0.get(word), by_number(word)) {
            (Some(number), _) => *number,
            (None, Some(digits)) => {
                let expected = || format!("a predicate from P0 to P{MOST_BYTE}");
                digits.parse().map_err(|_| line.fault(expected()))?
            }
            (None, None) => return Err(line.fault("a predicate's name, or P and its number")),
        };
        line.pass();
        Ok(number)
    }

    /// The arity of a predicate that is declared
    pub fn arity(&self, predicate: u8) -> Option<usize> {
        let arity = self.arities.get(usize::from(predicate).checked_sub(1)?)?;
        Some((*arity).into())
    }
}

/// The digits of a word that names a predicate by its number
fn by_number(word: &str) -> Option<&str> {
    word.strip_prefix('P').filter(|digits| is_number(digits))
}
