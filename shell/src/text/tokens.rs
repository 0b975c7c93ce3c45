//! Lines and their tokens, each with its place.

use super::fault::{shown, Fault};
use std::fmt::Display;
use std::str::FromStr;

/// The largest number of one byte
pub const MOST_BYTE: usize = 255;

/// The lines of a text that have a token
pub struct Lines<'a> {
    /// What is behind the lines seen; none behind the last one
    rest: Option<&'a str>,
    /// The last line seen, and its number
    line: &'a str,
    number: usize,
}

impl<'a> Lines<'a> {
    pub fn of(text: &'a str) -> Lines<'a> {
        Lines { rest: Some(text), line: "", number: 0 }
    }

    /// The next line, which must begin with this word, from behind it.
    pub fn one(&mut self, word: &str, and: &str) -> Result<Line<'a>, Fault> {
        let expected = format!("`{word}` and {and}");
        match self.next() {
            Some(mut line) => line.one(word, expected).map(|()| line),
            None => Err(Fault {
                line: self.number,
                column: self.line.chars().count() + 1,
                expected,
                found: "the end of the text".to_string(),
            }),
        }
    }
}

impl<'a> Iterator for Lines<'a> {
    type Item = Line<'a>;

    fn next(&mut self) -> Option<Line<'a>> {
        while let Some(rest) = self.rest {
            self.number += 1;
            (self.line, self.rest) = match rest.split_once('\n') {
                Some((line, rest)) => (line.strip_suffix('\r').unwrap_or(line), Some(rest)),
                None => (rest, None),
            };
            let line = Line { number: self.number, column: 1, rest: self.line, comments: true };
            let line = line.at_token();
            if !line.rest.is_empty() {
                return Some(line);
            }
        }
        None
    }
}

/// What is left of a line
#[derive(Clone, Copy)]
pub struct Line<'a> {
    number: usize,
    /// Of the next token; at the line's end just behind the last one
    column: usize,
    /// From the next token on; empty at the line's end
    rest: &'a str,
    /// `#` and what follows it is a comment.
    comments: bool,
}

impl<'a> Line<'a> {
    /// A line without comments
    pub fn plain(number: usize, line: &'a str) -> Line<'a> {
        Line { number, column: 1, rest: line, comments: false }.at_token()
    }

    /// The line with blanks passed over, and the comment where nothing else is left.
    fn at_token(self) -> Line<'a> {
        let rest = self.rest.trim_start_matches([' ', '\t']);
        if rest.is_empty() || self.comments && rest.starts_with('#') {
            return Line { rest: "", ..self };
        }
        Line { column: self.column + self.rest.len() - rest.len(), rest, ..self }
    }

    /// The next token: a word, `<=` or one character; at the line's end it is empty.
    pub fn token(&self) -> &'a str {
        let word = self.rest.len() - self.rest.trim_start_matches(in_word).len();
        let length = match self.rest.chars().next() {
            _ if word > 0 => word,
            _ if self.rest.starts_with("<=") => 2,
            first => first.map_or(0, char::len_utf8),
        };
        &self.rest[..length]
    }

    /// Passes over the next token.
    pub fn pass(&mut self) {
        let token = self.token();
        let (column, rest) = (self.column + token.chars().count(), &self.rest[token.len()..]);
        *self = Line { column, rest, ..*self }.at_token();
    }

    /// Passes over the next token if it is this one.
    pub fn passes(&mut self, token: &str) -> bool {
        let there = self.token() == token;
        if there {
            self.pass();
        }
        there
    }

    /// Passes over the next token, which must be this one.
    pub fn one(&mut self, token: &str, expected: impl Display) -> Result<(), Fault> {
        if self.passes(token) {
            Ok(())
        } else {
            Err(self.fault(expected))
        }
    }

    /// A number that its type has room for
    pub fn number<N: FromStr>(&mut self, expected: impl Display) -> Result<N, Fault> {
        let token = self.token();
        let number = if is_number(token) { token.parse().ok() } else { None };
        let number = number.ok_or_else(|| self.fault(expected))?;
        self.pass();
        Ok(number)
    }

    /// A number of any length as it is written: digits, and a sign where one stands right before them
    pub fn written(&mut self, expected: impl Display) -> Result<&'a str, Fault> {
        let sign = usize::from(self.rest.starts_with(['+', '-']));
        let digits = Line { column: self.column + sign, rest: &self.rest[sign..], ..*self };
        if !is_number(digits.token()) {
            let of_sign = || digits.fault("the digits of a number");
            return Err(if sign == 0 { self.fault(expected) } else { of_sign() });
        }
        let number = &self.rest[..sign + digits.token().len()];
        *self = digits;
        self.pass();
        Ok(number)
    }

    /// A number of one byte
    pub fn byte(&mut self, what: &str) -> Result<u8, Fault> {
        self.number(format_args!("{what} from 0 to {MOST_BYTE}"))
    }

    /// A number that could be left out: where it stands it must be this one.
    pub fn given(&mut self, what: &str, number: usize) -> Result<(), Fault> {
        if self.token().parse() != Ok(number) {
            return Err(self.fault(format_args!("{what} {number}")));
        }
        self.pass();
        Ok(())
    }

    /// Room for one more where there are so many
    pub fn room(&self, count: usize, most: usize, what: &str) -> Result<(), Fault> {
        if count < most {
            Ok(())
        } else {
            Err(self.fault_of(format_args!("at most {most} {what}"), "one more"))
        }
    }

    /// The line's end
    pub fn end(&self, expected: impl Display) -> Result<(), Fault> {
        if self.rest.is_empty() {
            Ok(())
        } else {
            Err(self.fault(expected))
        }
    }

    /// The fault that the next token is not what was expected
    pub fn fault(&self, expected: impl Display) -> Fault {
        self.fault_of(expected, shown(self.token()))
    }

    pub fn fault_of(&self, expected: impl Display, found: impl Display) -> Fault {
        Fault {
            line: self.number,
            column: self.column,
            expected: expected.to_string(),
            found: found.to_string(),
        }
    }
}

/// Numbers and names are words, and so is what is nearly one: a fault shows it whole.
pub fn in_word(character: char) -> bool {
    character.is_alphanumeric() || character == '_'
}

pub fn is_number(token: &str) -> bool {
    !token.is_empty() && token.bytes().all(|byte| byte.is_ascii_digit())
}

/// A letter, then letters, digits and `_`
pub fn is_name(token: &str) -> bool {
    token.starts_with(|first: char| first.is_ascii_alphabetic())
        && token.bytes().all(|byte| byte.is_ascii_alphanumeric() || byte == b'_')
}
