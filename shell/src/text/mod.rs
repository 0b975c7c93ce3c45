//! The text forms of a run file and of a lookup table's rows: docs/FORMAT.md says what they are.
//!
//! [`text`] writes the text of a file, [`bytes`] the file of a text, [`rows`] reads a table. None judges: what has the form can be said, and
//! the proved core decides on it.

mod fault;
mod fields;
mod names;
mod read;
mod rows;
mod tokens;
mod write;

pub use fault::{cut, Fault};
pub use rows::Row;

/// A longer text is refused.
pub const MOST_TEXT: usize = 16 << 20;

/// The text of a run file, or none where no text says the file. Every valid file has one, and `bytes` of it is the file.
pub fn text(file: &[u8]) -> Option<String> {
    write::text(file)
}

/// The lines of so many input clauses, over one predicate of arity 2, as the text of a file with them has them.
pub fn clause_lines(count: u8, clauses: &[u8]) -> Option<String> {
    let text = text(&fields::clauses_alone(&[2], count, clauses))?;
    Some(text.split_inclusive('\n').filter(|line| line.starts_with("clause ")).collect())
}

/// The run file that a text says.
pub fn bytes(text: &[u8]) -> Result<Vec<u8>, Fault> {
    not_longer(text)?;
    if fields::begins_file(text) {
        return Err(fault::of_all("the text of a run file", "a run file, which is bytes already"));
    }
    read::file(characters(text)?)
}

/// The rows of the table that a text says, up to one more than a table may have.
pub fn rows(text: &[u8]) -> Result<Vec<Row<'_>>, Fault> {
    not_longer(text)?;
    if fields::begins_file(text) {
        return Err(fault::of_all("the rows of a lookup table", "a run file"));
    }
    rows::rows(characters(text)?)
}

fn not_longer(text: &[u8]) -> Result<(), Fault> {
    if text.len() > MOST_TEXT {
        return Err(fault::of_all("a text of at most 16 MiB", "a longer one"));
    }
    Ok(())
}

/// The text without a byte order mark
fn characters(text: &[u8]) -> Result<&str, Fault> {
    let text = text.strip_prefix(b"\xEF\xBB\xBF").unwrap_or(text);
    std::str::from_utf8(text).map_err(|error| fault::not_utf8(text, error.valid_up_to()))
}
