//! Clauses from a lookup table, on random tables: the proved tool and the independent checker write the same, or refuse by the same number
//! and place, and leave the same bytes as they were.

use checker::generate::{random_table, Table};
use checker::table::Match;
use compare::beside::Buffer;
use compare::tables::{compare, compare_file};

const TABLES: u64 = 20_000;
const KINDS: [Match; 2] = [Match::Exact, Match::Approximate];
/// Accepted, and the refusals of a table
const ANSWERS: [u8; 4] = [0, 19, 20, 21];

/// The number by which a table is answered: 0 where it is accepted, and its clauses put into a file then.
fn answer(table: &Table, buffer: &mut Buffer) -> Result<u8, String> {
    match compare(table)? {
        Ok(clauses) => compare_file(table, &clauses, buffer).map(|()| 0),
        Err(refusal) => Ok(refusal.number),
    }
}

#[test]
fn same_on_random_tables() {
    let mut buffer = Buffer::default();
    let mut seen = Vec::new();
    for seed in 1..=TABLES {
        let table = random_table(seed);
        match answer(&table, &mut buffer) {
            Ok(number) => seen.push((table.kind, number)),
            Err(difference) => panic!("seed {seed}: {difference}\n{table:?}"),
        }
    }
    for pair in KINDS.iter().flat_map(|&kind| ANSWERS.map(|number| (kind, number))) {
        let count = seen.iter().filter(|&&other| other == pair).count();
        println!("{pair:?}: {count}");
        assert!(count > 0, "{pair:?} is at zero");
    }
}
