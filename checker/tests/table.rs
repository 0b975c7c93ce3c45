//! Clauses from a lookup table: their bytes, the refusals and their order, and what Gets says.

mod common;

use checker::clause::{Atom, Clause};
use checker::file::read;
use checker::generate::{random_point, random_table, Point, Table};
use checker::listing::listing;
use checker::refusal::Refusal;
use checker::table::Match::{self, Approximate, Exact};
use checker::table::{clauses_from, returned, run_file, GETS};
use common::*;

const KINDS: [Match; 2] = [Exact, Approximate];
/// A byte that stands in a buffer before.
const FOUND: u8 = 0xA5;

/// The bytes written to a buffer that is longer, whose other bytes must stay.
fn written(keys: &[i32], results: &[i32], kind: Match) -> Vec<u8> {
    let mut out = vec![FOUND; 2_000];
    let count = clauses_from(keys, results, kind, &mut out).expect("a table in order");
    assert!(out[count..].iter().all(|&byte| byte == FOUND));
    out.truncate(count);
    out
}

/// A table must be refused by that number, place 0, and leave the buffer as found.
fn refuse(keys: &[i32], results: &[i32], kind: Match, room: usize, number: u8) {
    let mut out = vec![FOUND; room];
    let answer = clauses_from(keys, results, kind, &mut out);
    assert_eq!(answer, Err(Refusal { number, place: 0 }), "{keys:?} {results:?}");
    assert!(out.iter().all(|&byte| byte == FOUND));
}

/// Refused by 20 for both kinds, with room and without.
fn not_in_order(keys: &[i32], results: &[i32]) {
    for kind in KINDS {
        refuse(keys, results, kind, 2_000, 20);
        refuse(keys, results, kind, 0, 20);
    }
}

/// The clauses that a run file of a table has.
fn read_back(keys: &[i32], results: &[i32], kind: Match) -> Vec<Clause> {
    let bytes = run_file(keys.len() as u8, &written(keys, results, kind));
    assert_eq!(listing(&bytes), "open\n");
    read(&bytes).expect("a good file").clauses
}

#[test]
fn bytes_of_exact_rows() {
    #[rustfmt::skip]
    let one = [
        2, 4, 1,
        0, 1, 0xFD, 0xFF, 0xFF, 0xFF, // 0 − x ≤ −3
        1, 0, 3, 0, 0, 0, // x − 0 ≤ 3
        0, 2, 0x38, 0xFF, 0xFF, 0xFF, // 0 − y ≤ −200
        2, 0, 200, 0, 0, 0, // y − 0 ≤ 200
        1, 1, 1, 2, // Gets(x, y)
    ];
    assert_eq!(written(&[3], &[200], Exact), one);
    #[rustfmt::skip]
    let two = [
        2, 4, 1,
        0, 1, 0x40, 0x42, 0x0F, 0, // 0 − x ≤ 1,000,000
        1, 0, 0xC0, 0xBD, 0xF0, 0xFF, // x − 0 ≤ −1,000,000
        0, 2, 0xC0, 0xBD, 0xF0, 0xFF, // 0 − y ≤ −1,000,000
        2, 0, 0x40, 0x42, 0x0F, 0, // y − 0 ≤ 1,000,000
        1, 1, 1, 2,
        2, 4, 1,
        0, 1, 0, 0, 0, 0,
        1, 0, 0, 0, 0, 0,
        0, 2, 1, 0, 0, 0,
        2, 0, 0xFF, 0xFF, 0xFF, 0xFF,
        1, 1, 1, 2,
    ];
    assert_eq!(written(&[-1_000_000, 0], &[1_000_000, -1], Exact), two);
}

#[test]
fn bytes_of_approximate_rows() {
    #[rustfmt::skip]
    let one = [
        2, 3, 1,
        0, 1, 0xFD, 0xFF, 0xFF, 0xFF, // 0 − x ≤ −3
        0, 2, 0x38, 0xFF, 0xFF, 0xFF, // 0 − y ≤ −200
        2, 0, 200, 0, 0, 0, // y − 0 ≤ 200
        1, 1, 1, 2, // Gets(x, y)
    ];
    assert_eq!(written(&[3], &[200], Approximate), one);
    #[rustfmt::skip]
    let three = [
        2, 4, 1,
        0, 1, 2, 0, 0, 0, // 0 − x ≤ 2
        1, 0, 9, 0, 0, 0, // x − 0 ≤ 9
        0, 2, 0xFB, 0xFF, 0xFF, 0xFF,
        2, 0, 5, 0, 0, 0,
        1, 1, 1, 2,
        2, 4, 1,
        0, 1, 0xF6, 0xFF, 0xFF, 0xFF, // 0 − x ≤ −10
        1, 0, 10, 0, 0, 0, // x − 0 ≤ 10: the next key is the next number
        0, 2, 0, 0, 0, 0,
        2, 0, 0, 0, 0, 0,
        1, 1, 1, 2,
        2, 3, 1,
        0, 1, 0xF5, 0xFF, 0xFF, 0xFF, // 0 − x ≤ −11
        0, 2, 1, 0, 0, 0,
        2, 0, 0xFF, 0xFF, 0xFF, 0xFF,
        1, 1, 1, 2,
    ];
    assert_eq!(written(&[-2, 10, 11], &[5, 0, -1], Approximate), three);
}

#[test]
fn no_rows_take_no_bytes() {
    for kind in KINDS {
        assert_eq!(clauses_from(&[], &[], kind, &mut []), Ok(0));
        assert_eq!(written(&[], &[], kind), []);
        // The results belong to no row.
        assert_eq!(written(&[], &[i32::MIN, 7], kind), []);
        assert_eq!(read_back(&[], &[], kind), []);
    }
}

#[test]
fn up_to_48_rows() {
    let keys: Vec<i32> = (0..49).collect();
    let results = vec![7; 49];
    assert_eq!(written(&keys[..48], &results, Exact).len(), 1_488);
    assert_eq!(written(&keys[..48], &results, Approximate).len(), 1_482);
    for kind in KINDS {
        refuse(&keys, &results, kind, 2_000, 19);
        // More rows come before rows not in order, and before a short buffer.
        refuse(&keys, &results, kind, 0, 19);
        refuse(&keys, &[], kind, 2_000, 19);
        refuse(&[5; 49], &results, kind, 0, 19);
        refuse(&[i32::MIN; 60], &[i32::MAX; 60], kind, 2_000, 19);
        // 48 keys and more results are 48 rows.
        let answer = clauses_from(&keys[..48], &results, kind, &mut []);
        assert_eq!(answer, Err(Refusal { number: 21, place: 0 }));
    }
}

#[test]
fn keys_rise_strictly() {
    not_in_order(&[4, 4], &[1, 2]);
    not_in_order(&[4, 3], &[1, 2]);
    not_in_order(&[1, 2, 3, 3], &[1, 2, 3, 4]);
    not_in_order(&[1, 5, 4, 6], &[1, 2, 3, 4]);
    not_in_order(&[0, -1], &[0, 0]);
    let mut keys: Vec<i32> = (0..48).collect();
    keys[47] = 46;
    not_in_order(&keys, &[0; 48]);
}

#[test]
fn every_row_has_a_result() {
    not_in_order(&[1], &[]);
    not_in_order(&[1, 2, 3], &[1, 2]);
    for kind in KINDS {
        // Results past the keys are not looked at.
        let more = [1, 2, 1_000_001, i32::MIN];
        assert_eq!(written(&[1, 2], &more, kind), written(&[1, 2], &[1, 2], kind));
    }
}

#[test]
fn keys_and_results_within_the_range() {
    for kind in KINDS {
        let bytes = written(&[-1_000_000, 1_000_000], &[1_000_000, -1_000_000], kind);
        assert!(read(&run_file(2, &bytes)).is_ok());
    }
    for beyond in [-1_000_001, 1_000_001, i32::MIN, i32::MAX, i32::MIN + 1] {
        not_in_order(&[beyond], &[0]);
        not_in_order(&[0], &[beyond]);
        not_in_order(&[1, 2, 3], &[0, 0, beyond]);
        not_in_order(&[1, 2, 3], &[beyond, 0, 0]);
        let mut keys = [beyond, 0];
        keys.sort();
        not_in_order(&keys, &[0, 0]);
    }
}

#[test]
fn the_buffer() {
    for (kind, takes) in [(Exact, 62), (Approximate, 56)] {
        let bytes = written(&[1, 9], &[5, 6], kind);
        assert_eq!(bytes.len(), takes);
        for room in 0..takes {
            refuse(&[1, 9], &[5, 6], kind, room, 21);
        }
        let mut fits = vec![FOUND; takes];
        assert_eq!(clauses_from(&[1, 9], &[5, 6], kind, &mut fits), Ok(takes));
        assert_eq!(fits, bytes);
        let mut longer = vec![FOUND; takes + 1];
        assert_eq!(clauses_from(&[1, 9], &[5, 6], kind, &mut longer), Ok(takes));
        assert_eq!(longer[..takes], bytes);
        assert_eq!(longer[takes], FOUND);
    }
}

#[test]
fn read_back_as_the_clauses_meant() {
    let gets = [literal(1, &[1, 2])];
    let rows = [
        clause(2, &[at_least(1, -5), at_most(1, -5), at_least(2, 30), at_most(2, 30)], &gets),
        clause(2, &[at_least(1, 8), at_most(1, 8), at_least(2, -4), at_most(2, -4)], &gets),
    ];
    assert_eq!(read_back(&[-5, 8], &[30, -4], Exact), rows);
    let rows = [
        clause(2, &[at_least(1, -5), at_most(1, 7), at_least(2, 30), at_most(2, 30)], &gets),
        clause(2, &[at_least(1, 8), at_least(2, -4), at_most(2, -4)], &gets),
    ];
    assert_eq!(read_back(&[-5, 8], &[30, -4], Approximate), rows);
}

#[test]
fn what_a_table_returns() {
    let (keys, results) = ([-5, 8, 9], [30, -4, 30]);
    let at = |kind, x| returned(&keys, &results, kind, x);
    for (x, result) in [(-5, 30), (8, -4), (9, 30)] {
        assert_eq!(at(Exact, x), Some(result));
    }
    for x in [-6, -4, 0, 7, 10, i32::MIN, i32::MAX] {
        assert_eq!(at(Exact, x), None);
    }
    for (x, result) in [(-5, 30), (-4, 30), (7, 30), (8, -4), (9, 30), (10, 30), (i32::MAX, 30)] {
        assert_eq!(at(Approximate, x), Some(result));
    }
    assert_eq!(at(Approximate, -6), None);
    assert_eq!(at(Approximate, i32::MIN), None);
    for kind in KINDS {
        assert_eq!(returned(&[], &[], kind, 0), None);
    }
}

/// "An atom (p, q, c) means p − q ≤ c": in whole numbers for variables 1, 2, ..
fn holds(atom: &Atom, numbers: [i32; 2]) -> bool {
    let at = |place: u8| match place {
        0 => 0,
        _ => i64::from(numbers[place as usize - 1]),
    };
    at(atom.p) - at(atom.q) <= i64::from(atom.c)
}

/// Whether Gets(x, y) is true in every reading that satisfies the clauses. Each has Gets(x, y) as its
/// only literal, so there is a least reading: Gets is true where the atoms of some clause hold.
fn gets(clauses: &[Clause], x: i32, y: i32) -> bool {
    let only = [literal(GETS as i8, &[1, 2])];
    assert!(clauses.iter().all(|clause| clause.literals == only));
    clauses.iter().any(|clause| clause.atoms.iter().all(|atom| holds(atom, [x, y])))
}

#[test]
fn gets_is_true_exactly_where_the_table_returns() {
    // By kind: how often the table returned y at x, and how often not
    let mut answers = [[0, 0], [0, 0]];
    for seed in 1..=5_000 {
        let Point { table: Table { keys, results, kind, .. }, x, y } = random_point(seed);
        let clauses = read_back(&keys, &results, kind);
        let returns = returned(&keys, &results, kind, x) == Some(y);
        assert_eq!(gets(&clauses, x, y), returns, "seed {seed}");
        answers[(kind == Approximate) as usize][returns as usize] += 1;
        // All that is returned near the point
        for x in x - 3..=x + 3 {
            let near = returned(&keys, &results, kind, x);
            assert_eq!(near.is_some_and(|y| gets(&clauses, x, y)), near.is_some(), "seed {seed}");
            assert_eq!(gets(&clauses, x, y), near == Some(y), "seed {seed}");
        }
    }
    assert!(answers.iter().flatten().all(|&count| count > 500), "{answers:?}");
}

#[test]
fn points_asked_of_a_solver() {
    let mut answers = [[0, 0], [0, 0]];
    for seed in 1..=200 {
        let Point { table: Table { keys, results, kind, .. }, x, y } = random_point(seed);
        let returns = returned(&keys, &results, kind, x) == Some(y);
        answers[(kind == Approximate) as usize][returns as usize] += 1;
    }
    assert!(answers.iter().flatten().all(|&count| count > 20), "{answers:?}");
}

/// What is said of generated tables must be said of each kind often.
#[test]
fn generated_tables_come_to_every_answer() {
    let mut answers = [[0; 22], [0; 22]];
    let [mut fitting, mut neighbours, mut results_past] = [0; 3];
    for seed in 1..=20_000 {
        let Table { keys, results, kind, mut out } = random_table(seed);
        let found = out.clone();
        let answer = clauses_from(&keys, &results, kind, &mut out);
        let number = answer.map_or_else(|refusal| refusal.number, |_| 0);
        answers[(kind == Approximate) as usize][number as usize] += 1;
        let count = answer.unwrap_or(0);
        assert_eq!(out[count..], found[count..], "seed {seed}");
        if number == 0 && count > 0 {
            fitting += (count == out.len()) as usize;
            neighbours += keys.windows(2).any(|pair| pair[1] == pair[0] + 1) as usize;
            results_past += (results.len() > keys.len()) as usize;
        }
    }
    for number in [0, 19, 20, 21] {
        assert!(answers.iter().all(|answers| answers[number] > 800), "{answers:?}");
    }
    assert!([fitting, neighbours, results_past].iter().all(|&count| count > 500));
}
