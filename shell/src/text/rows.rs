//! The rows of a lookup table: a line each, key, comma, result.

use super::fault::Fault;
use super::tokens::Line;
use drf::MOST_ROWS;

/// Key and result as they are written, each with its sign where it has one
#[derive(Clone, Copy, Debug, PartialEq, Eq)]
pub struct Row<'a> {
    pub key: &'a str,
    pub result: &'a str,
}

/// The rows that a text says, the first one on line 1. Every line is read, but where there are more rows than a table may have,
/// one too many is kept: the core refuses the table for it, and memory is bounded.
pub fn rows(text: &str) -> Result<Vec<Row<'_>>, Fault> {
    let mut rows = Vec::new();
    let mut lines = (1..).zip(text.lines()).peekable();
    while let Some((number, line)) = lines.next() {
        let line = Line::plain(number, line);
        // The last line alone may be empty.
        if lines.peek().is_some() || !line.token().is_empty() {
            let next = row(line)?;
            if rows.len() <= MOST_ROWS {
                rows.push(next);
            }
        }
    }
    Ok(rows)
}

/// `4100, 4120`
fn row(mut line: Line) -> Result<Row, Fault> {
    let key = written(&mut line, "a key")?;
    line.one(",", "`,` and a result")?;
    let result = written(&mut line, "a result")?;
    line.end("the end of the line")?;
    Ok(Row { key, result })
}

fn written<'a>(line: &mut Line<'a>, what: &str) -> Result<&'a str, Fault> {
    const FORM: &str = "a whole number: digits, which may have `+` or `-` right before them";
    line.written(format_args!("{what} ({FORM})"))
}
