//! What a text has that can't stand there, in words for the one who mends it.

use super::tokens::is_number;
use std::fmt;

/// The first place where a text can't be read on. Lines and columns count from 1, columns in characters; a byte order mark at the start
/// is not counted. What ends too early is told of just behind its last token, and a text that does at its very end.
#[derive(Clone, Debug, PartialEq, Eq)]
pub struct Fault {
    pub line: usize,
    pub column: usize,
    pub expected: String,
    pub found: String,
}

impl fmt::Display for Fault {
    fn fmt(&self, to: &mut fmt::Formatter) -> fmt::Result {
        let Fault { line, column, expected, found } = self;
        write!(to, "line {line}, column {column}: expected {expected}, found {found}")
    }
}

impl std::error::Error for Fault {}

/// The fault of a text as a whole
pub(super) fn of_all(expected: &str, found: &str) -> Fault {
    Fault { line: 1, column: 1, expected: expected.to_string(), found: found.to_string() }
}

/// The fault of a text whose first bytes, as many as told, are UTF-8 and the next one is not.
pub(super) fn not_utf8(text: &[u8], good: usize) -> Fault {
    let before = String::from_utf8_lossy(&text[..good]);
    let last = before.rsplit('\n').next().unwrap_or_default();
    Fault {
        line: before.matches('\n').count() + 1,
        column: last.chars().count() + 1,
        expected: "text in UTF-8".to_string(),
        found: format!("the byte 0x{:02X}", text[good]),
    }
}

/// A longer token is cut where it is shown.
const MOST_SHOWN: usize = 40;

/// A token or a number as a fault shows it; the empty token is a line's end.
pub(super) fn shown(token: &str) -> String {
    match token {
        "" => return "the end of the line".to_string(),
        "`" => return "a backquote".to_string(),
        _ => {}
    }
    if is_number(token.strip_prefix('-').unwrap_or(token)) {
        return cut(token);
    }
    format!("`{}`{}", cut(token), unusual(token))
}

/// A token, or the start of a long one
pub fn cut(token: &str) -> String {
    let mut start: String = token.chars().take(MOST_SHOWN).map(legible).collect();
    if token.chars().nth(MOST_SHOWN).is_some() {
        start.push_str("..");
    }
    start
}

/// The code of the first character that is seen and is not ASCII: it may look like another one.
fn unusual(token: &str) -> String {
    let mut characters = token.chars();
    let Some(unusual) = characters.find(|c| !c.is_ascii() && legible(*c) == c.to_string()) else {
        return String::new();
    };
    let code = format!("U+{:04X}", unusual as u32);
    if token.len() == unusual.len_utf8() {
        format!(" ({code})")
    } else {
        format!(" (`{unusual}` is {code})")
    }
}

/// A character, or its escape where it would not be seen
fn legible(character: char) -> String {
    match character {
        '\'' | '"' | '\\' => character.to_string(),
        _ => character.escape_debug().to_string(),
    }
}
