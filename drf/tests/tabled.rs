//! The clauses of lookup tables: which bytes are written, which tables are refused, and what the buffer holds afterwards.

use drf::Match::{Approximate, Exact};
use drf::{refusal, table, Match, Refused, MOST_C, MOST_ROWS, MOST_TABLE};

/// What a buffer holds before the call
const BLANK: u8 = 0xA5;

/// What is written of a table into a buffer that is longer than it, or its refusal; the rest of the buffer stays, and all of it if refused.
fn made(keys: &[i32], results: &[i32], kind: Match) -> Result<Vec<u8>, u8> {
    let mut out = vec![BLANK; MOST_TABLE + 1];
    let made = table(keys, results, kind, &mut out).map(<[u8]>::to_vec);
    let count = made.as_ref().map_or(0, Vec::len);
    assert!(out[count..].iter().all(|&byte| byte == BLANK), "{keys:?} {results:?}");
    made.map_err(|Refused { number, place }| {
        assert_eq!(place, 0, "{keys:?} {results:?}");
        number
    })
}

/// A clause of so many atoms, p - q <= c each, over x and y: Gets(x, y)
fn clause(atoms: &[(u8, u8, i32)]) -> Vec<u8> {
    let mut clause = vec![2, atoms.len() as u8, 1];
    for (p, q, c) in atoms {
        clause.extend([*p, *q]);
        clause.extend(c.to_le_bytes());
    }
    clause.extend([1, 1, 1, 2]);
    clause
}

/// Keys and results on both sides of zero
const KEYS: [i32; 3] = [-4100, 4120, 4200];
const RESULTS: [i32; 3] = [7, 0, -7];

#[test]
fn exact() {
    let clauses = [
        clause(&[(0, 1, 4100), (1, 0, -4100), (0, 2, -7), (2, 0, 7)]),
        clause(&[(0, 1, -4120), (1, 0, 4120), (0, 2, 0), (2, 0, 0)]),
        clause(&[(0, 1, -4200), (1, 0, 4200), (0, 2, 7), (2, 0, -7)]),
    ];
    assert_eq!(made(&KEYS, &RESULTS, Exact), Ok(clauses.concat()));
}

/// A row ends one below the next key, and the last one has no end.
#[test]
fn approximate() {
    let clauses = [
        clause(&[(0, 1, 4100), (1, 0, 4119), (0, 2, -7), (2, 0, 7)]),
        clause(&[(0, 1, -4120), (1, 0, 4199), (0, 2, 0), (2, 0, 0)]),
        clause(&[(0, 1, -4200), (0, 2, 7), (2, 0, -7)]),
    ];
    assert_eq!(made(&KEYS, &RESULTS, Approximate), Ok(clauses.concat()));
}

#[test]
fn no_rows() {
    for kind in [Exact, Approximate] {
        assert_eq!(made(&[], &[], kind), Ok(Vec::new()));
        assert_eq!(table(&[], &[], kind, &mut []), Ok(&[][..]));
    }
}

#[test]
fn rows_up_to_the_most() {
    let keys: Vec<i32> = (0..=MOST_ROWS as i32).collect();
    let few = &keys[..MOST_ROWS];
    assert_eq!(made(few, few, Exact).map(|bytes| bytes.len()), Ok(MOST_TABLE));
    assert_eq!(made(few, few, Approximate).map(|bytes| bytes.len()), Ok(MOST_TABLE - 6));
    assert_eq!(made(&keys, &keys, Exact), Err(refusal::TOO_MANY_ROWS));
}

#[test]
fn numbers_up_to_the_most() {
    let clauses = clause(&[(0, 1, MOST_C), (1, 0, MOST_C - 1), (0, 2, -MOST_C), (2, 0, MOST_C)]);
    let last = clause(&[(0, 1, -MOST_C), (0, 2, MOST_C), (2, 0, -MOST_C)]);
    let both = [clauses, last].concat();
    assert_eq!(made(&[-MOST_C, MOST_C], &[MOST_C, -MOST_C], Approximate), Ok(both));
    for beyond in [MOST_C + 1, -MOST_C - 1, i32::MAX, i32::MIN] {
        for kind in [Exact, Approximate] {
            assert_eq!(made(&[beyond], &[0], kind), Err(refusal::NOT_IN_ORDER));
            assert_eq!(made(&[0], &[beyond], kind), Err(refusal::NOT_IN_ORDER));
            assert_eq!(made(&[0, 1], &[0, beyond], kind), Err(refusal::NOT_IN_ORDER));
        }
    }
}

#[test]
fn keys_that_do_not_rise() {
    for keys in [[0, 0], [1, 0], [MOST_C, -MOST_C], [i32::MAX, i32::MIN]] {
        assert_eq!(made(&keys, &[5, 6], Exact), Err(refusal::NOT_IN_ORDER), "{keys:?}");
        assert_eq!(made(&keys, &[5, 6], Approximate), Err(refusal::NOT_IN_ORDER), "{keys:?}");
    }
}

/// There are as many rows as keys.
#[test]
fn results_without_keys_and_keys_without_results() {
    let more = [RESULTS.as_slice(), &[i32::MAX]].concat();
    assert_eq!(made(&KEYS, &more, Exact), made(&KEYS, &RESULTS, Exact));
    assert_eq!(made(&[], &more, Exact), Ok(Vec::new()));
    assert_eq!(made(&KEYS, &RESULTS[1..], Exact), Err(refusal::NOT_IN_ORDER));
}

/// 19 before 20 before 21
#[test]
fn order_of_refusals() {
    let falling: Vec<i32> = (0..=MOST_ROWS as i32).map(|key| -key).collect();
    let refused =
        |keys: &[i32]| table(keys, keys, Exact, &mut []).map_err(|refused| refused.number);
    assert_eq!(refused(&falling), Err(refusal::TOO_MANY_ROWS));
    assert_eq!(refused(&falling[1..]), Err(refusal::NOT_IN_ORDER));
    assert_eq!(refused(&[0, 1, 2, 3, 4, 4]), Err(refusal::NOT_IN_ORDER));
    assert_eq!(refused(&[0]), Err(refusal::BUFFER_SHORT));
}

/// As many bytes as the clauses have are enough, and one less is refused, whatever it would have had room for.
#[test]
fn short_buffers() {
    for kind in [Exact, Approximate] {
        let clauses = made(&KEYS, &RESULTS, kind).expect("a table in order");
        let mut out = vec![BLANK; clauses.len()];
        for room in 0..clauses.len() {
            let refused = table(&KEYS, &RESULTS, kind, &mut out[..room]);
            assert_eq!(refused, Err(Refused { number: refusal::BUFFER_SHORT, place: 0 }));
            assert!(out.iter().all(|&byte| byte == BLANK), "{room}");
        }
        assert_eq!(table(&KEYS, &RESULTS, kind, &mut out), Ok(&clauses[..]));
    }
}
