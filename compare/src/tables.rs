//! A lookup table through the proved tool and through the independent checker: what the two tell differently.

use crate::beside::Buffer;
use checker::generate::Table;
use checker::listing::Verdict;
use checker::refusal::Refusal;
use checker::table::{self, clauses_from, run_file};

/// The clauses of a table as bytes, or its refusal
pub type Made = Result<Vec<u8>, Refusal>;

/// What the checker makes of a table; or, where the two don't tell the same, the first thing told differently: the bytes written, number and
/// place of a refusal, or a byte of the buffer, those past the clauses too.
pub fn compare(table: &Table) -> Result<Made, String> {
    let Table { keys, results, kind, out } = table;
    let [mut ours, mut theirs] = [out.clone(), out.clone()];
    let made = clauses_from(keys, results, *kind, &mut ours).map(|count| ours[..count].to_vec());
    let told = match drf::table(keys, results, of_the_library(*kind), &mut theirs) {
        Ok(bytes) => Ok(bytes.to_vec()),
        Err(refused) => Err(Refusal::new(refused.number, refused.place.into())),
    };
    if told != made {
        return Err(format!("{told:?}, not {made:?}"));
    }
    match (0..ours.len()).find(|&at| theirs[at] != ours[at]) {
        Some(at) => Err(format!("byte {at} of the buffer: {}, not {}", theirs[at], ours[at])),
        None => Ok(made),
    }
}

/// The clauses of a table, put into a run file: what the two tell of it must be the same, and that it is open.
pub fn compare_file(table: &Table, clauses: &[u8], buffer: &mut Buffer) -> Result<(), String> {
    let file = run_file(table.keys.len() as u8, clauses);
    match buffer.compare(&file)?.map(|run| run.verdict()) {
        Ok(Verdict::Open) => Ok(()),
        other => Err(format!("in a file: {other:?}, not open")),
    }
}

fn of_the_library(kind: table::Match) -> drf::Match {
    match kind {
        table::Match::Exact => drf::Match::Exact,
        table::Match::Approximate => drf::Match::Approximate,
    }
}
