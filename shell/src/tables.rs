//! The command `table`: the clauses of a lookup table, or why it is refused.

use crate::commands::{read, Failed, Outcome, Printed};
use crate::status::Status;
use crate::streams::Source;
use drf::{refusal, Match, Refused, MOST_C, MOST_TABLE};
use shell::text::{self, cut, Row, MOST_TEXT};

/// What the clauses are printed as
#[derive(Clone, Copy)]
pub enum Form {
    Bytes,
    Text,
}

/// The proved core decides on every table; here it is only read, and what was refused is told.
pub fn table(source: &Source, kind: Match, form: Form) -> Outcome {
    let text = read(source, MOST_TEXT + 1)?;
    let rows = text::rows(&text)
        .map_err(|fault| Failed { status: Status::Usage, reason: fault.to_string() })?;
    let (keys, results): (Vec<i32>, Vec<i32>) =
        rows.iter().map(|row| (value(row.key), value(row.result))).unzip();
    let mut buffer = [0; MOST_TABLE];
    let clauses = drf::table(&keys, &results, kind, &mut buffer)
        .map_err(|refused| Failed { status: Status::Stopped, reason: told(refused, &rows) })?;
    let bytes = match form {
        Form::Bytes => clauses.to_vec(),
        Form::Text => {
            let lines = text::clause_lines(rows.len() as u8, clauses);
            lines.expect("the clauses of every table have a text").into_bytes()
        }
    };
    Ok(Printed { status: Status::Done, bytes })
}

/// The number that is written. For one beyond 32 bits the largest or least of 32 bits stands, on its side of 0, which the core refuses as
/// well.
fn value(written: &str) -> i32 {
    let end = if written.starts_with('-') { i32::MIN } else { i32::MAX };
    written.parse().unwrap_or(end)
}

/// The refusal. Of a table that is not in order the core names no row: the first one that is not is told by its line, which has its number,
/// since nothing but rows stands in a table.
fn told(refused: Refused, rows: &[Row]) -> String {
    let number = refused.number;
    let named = if number == refusal::NOT_IN_ORDER { first_wrong(rows) } else { None };
    match named {
        Some((line, wrong)) => format!("refused {number}: line {line}: {wrong}"),
        None => refused.to_string(),
    }
}

/// The line of the first row that is not in order, and what is wrong with it
fn first_wrong(rows: &[Row]) -> Option<(usize, String)> {
    let before = [None].into_iter().chain(rows.iter().map(Some));
    let mut lines = (1..).zip(rows.iter().zip(before));
    lines.find_map(|(line, (row, before))| Some((line, wrong_with(row, before)?)))
}

/// What is wrong with a row, if those before it are in order. A number outside its range may have any length and is told as it is written;
/// one within it is told by its value.
fn wrong_with(row: &Row, before: Option<&Row>) -> Option<String> {
    let outside = |what, number| {
        let outside = !(-MOST_C..=MOST_C).contains(&value(number));
        outside.then(|| format!("the {what} {} is not from -{MOST_C} to {MOST_C}", cut(number)))
    };
    let not_above = || {
        let (key, before) = (value(row.key), value(before?.key));
        (key <= before).then(|| format!("the key {key} is not above {before}, the key before it"))
    };
    outside("key", row.key).or_else(not_above).or_else(|| outside("result", row.result))
}
