//! Clauses from a lookup table, from the words of change request 1.
//!
//! "Make the input clauses from up to 48 rows of key and result, for exact or approximate match."

use crate::clause::{Atom, Clause, Literal};
use crate::file;
use crate::limits;
use crate::refusal::{demand, Refusal};

/// "for exact or approximate match"
#[derive(Clone, Copy, Debug, PartialEq, Eq)]
pub enum Match {
    Exact,
    Approximate,
}

/// "Gets being predicate 1"
pub const GETS: u8 = 1;
/// "Gets(x, y)"
pub const GETS_ARITY: u8 = 2;
/// "x is variable 1"
const X: u8 = 1;
const Y: u8 = 2;
/// That of a file of clauses alone, which says the same in every version.
const VERSION: u16 = 1;

/// Writes the clauses "as file clauses" to the front of the buffer and says how many bytes they take.
/// The "bytes past the last clause stay; a refusal leaves it as found".
///
/// There are as many rows as keys. Results past the keys belong to no row.
pub fn clauses_from(
    keys: &[i32],
    results: &[i32],
    kind: Match,
    out: &mut [u8],
) -> Result<usize, Refusal> {
    demand(keys.len() <= limits::ROWS, Refusal::at_zero(19))?;
    demand(in_order(keys, results), Refusal::at_zero(20))?;
    let bytes = file::clause_bytes(&clauses(keys, results, kind), &[GETS_ARITY]);
    let front = out.get_mut(..bytes.len()).ok_or(Refusal::at_zero(21))?;
    front.copy_from_slice(&bytes);
    Ok(bytes.len())
}

/// What the table returns at x: the result in "the row of the largest key not above x, or the equal
/// key".
pub fn returned(keys: &[i32], results: &[i32], kind: Match, x: i32) -> Option<i32> {
    let mut rows = keys.iter().zip(results);
    let row = match kind {
        Match::Exact => rows.find(|(&key, _)| key == x),
        Match::Approximate => rows.filter(|(&key, _)| key <= x).max_by_key(|(&key, _)| key),
    };
    row.map(|(_, &result)| result)
}

/// A run file of a table's clauses, as they were written: Gets is its only predicate, and it has no
/// constants and no steps.
pub fn run_file(rows: u8, clauses: &[u8]) -> Vec<u8> {
    let before_clauses = [0, 1, GETS_ARITY, rows];
    let steps = [0, 0];
    [&file::MARK[..], &VERSION.to_le_bytes(), &before_clauses, clauses, &steps].concat()
}

/// Not 20: "keys not strictly rising, or a key or result outside ±1,000,000". A row without a result is
/// not in order either.
fn in_order(keys: &[i32], results: &[i32]) -> bool {
    let within = |number: &i32| (-limits::C..=limits::C).contains(number);
    let Some(results) = results.get(..keys.len()) else { return false };
    keys.windows(2).all(|pair| pair[0] < pair[1]) && keys.iter().chain(results).all(within)
}

/// "Gets(x, y) has one clause per row", "rows in order".
fn clauses(keys: &[i32], results: &[i32], kind: Match) -> Vec<Clause> {
    let clause = |row: usize| {
        // "exact, x equals the key and y the result; approximate, x runs from the key to one below the
        // next key, without upper end for the last row"
        let end = match kind {
            Match::Exact => Some(keys[row]),
            Match::Approximate => keys.get(row + 1).map(|next| next - 1),
        };
        row_clause(keys[row], end, results[row])
    };
    (0..keys.len()).map(clause).collect()
}

/// "x, then y, bounded below, then above"
fn row_clause(key: i32, end: Option<i32>, result: i32) -> Clause {
    let mut atoms = vec![at_least(X, key)];
    atoms.extend(end.map(|end| at_most(X, end)));
    atoms.extend([at_least(Y, result), at_most(Y, result)]);
    let gets = Literal { positive: true, predicate: GETS, arguments: [X, Y, 0] };
    Clause { variables: 2, atoms, literals: vec![gets] }
}

fn at_least(variable: u8, number: i32) -> Atom {
    Atom { p: 0, q: variable, c: -number }
}

fn at_most(variable: u8, number: i32) -> Atom {
    Atom { p: variable, q: 0, c: number }
}
