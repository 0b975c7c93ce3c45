//! The run file: exact refusals and places.

mod common;

use checker::clause::Clause;
use checker::file::{read, write, RunFile};
use checker::limits;
use checker::listing::listing;
use checker::step::Step;
use common::*;

/// The example with one byte set.
fn set(place: usize, byte: u8) -> Vec<u8> {
    let mut bytes = EXAMPLE.to_vec();
    bytes[place] = byte;
    bytes
}

fn assert_bad(bytes: &[u8], number: u8, place: usize) {
    assert_eq!(listing(bytes), format!("bad file {number} {place}\n"));
}

#[test]
fn every_cut_of_the_example() {
    // The byte where the field begins that a cut to so many bytes ends inside of.
    let begins = |length: usize| match length {
        0..=2 => 0,
        3..=4 => 3,
        14..=17 => 14,
        26..=29 => 26,
        33..=34 => 33,
        _ => length,
    };
    for length in 0..EXAMPLE.len() {
        assert_bad(&EXAMPLE[..length], 1, begins(length));
    }
}

#[test]
fn mark_and_version() {
    assert_bad(&[0x58, 0x59], 1, 0);
    assert_bad(&[0x58, 0x59, 0x5A], 2, 0);
    assert_bad(b"DRG", 2, 0);
    assert_bad(&set(3, 3), 2, 3);
    assert_bad(&set(3, 0), 2, 3);
    assert_bad(&set(4, 1), 2, 3);
    assert_bad(b"DRF\x03", 1, 3);
    // Without decisions a file says the same in both versions.
    assert_eq!(listing(&set(3, 2)), listing(&EXAMPLE));
}

#[test]
fn counts_above_their_limits() {
    for (place, limit) in [(5, 16), (6, 8), (7, 3), (8, 48), (9, 12), (10, 24), (11, 8)] {
        assert_bad(&set(place, limit + 1), 3, place);
        assert_bad(&set(place, 255), 3, place);
    }
    // 2,001 steps
    let mut bytes = set(33, 0xD1);
    bytes[34] = 0x07;
    assert_bad(&bytes, 3, 33);
    // an instance of 13 constants
    assert_bad(&set(38, 13), 3, 38);
}

#[test]
fn a_field_is_judged_before_the_next_is_asked_for() {
    let mut bytes = EXAMPLE[..11].to_vec();
    bytes[10] = 25;
    assert_bad(&bytes, 3, 10);
}

#[test]
fn numbers_out_of_range_in_an_atom() {
    assert_bad(&set(12, 2), 4, 12); // p
    assert_bad(&set(13, 2), 4, 13); // q
    assert_bad(&set(12, 0), 4, 13); // both 0
    for (c, good) in
        [(1_000_000, true), (-1_000_000, true), (1_000_001, false), (-1_000_001, false)]
    {
        for version in [1, 2] {
            let mut bytes = set(3, version);
            bytes[14..18].copy_from_slice(&i32::to_le_bytes(c));
            if good {
                assert!(read(&bytes).is_ok());
            } else {
                assert_bad(&bytes, 4, 14);
            }
        }
    }
}

#[test]
fn numbers_out_of_range_in_a_literal() {
    assert_bad(&set(18, 2), 4, 18); // sign
    assert_bad(&set(19, 0), 4, 19); // predicate
    assert_bad(&set(19, 2), 4, 19);
    assert_bad(&set(20, 0), 4, 20); // argument
    assert_bad(&set(20, 2), 4, 20);
}

fn file(clause: Clause, steps: &[Step]) -> Vec<u8> {
    let (arities, clauses, steps) = (vec![1], vec![clause], steps.to_vec());
    write(&RunFile { version: 1, constants: 1, arities, clauses, steps }).bytes
}

#[test]
fn a_clause_outside_the_class() {
    // The clause begins at byte 9.
    assert_bad(&file(clause(2, &[], &[literal(1, &[1])]), &[]), 5, 9);
    let both = [atom(1, 2, 0), at_most(1, 5), at_least(1, 0), at_most(2, 5), at_least(2, 0)];
    assert_eq!(listing(&file(clause(2, &both, &[]), &[])), "open\n");
    for lacking in 1..5 {
        let mut atoms = both.to_vec();
        atoms.remove(lacking);
        assert_bad(&file(clause(2, &atoms, &[]), &[]), 6, 9);
    }
    // a variable with itself
    assert_bad(&file(clause(1, &[atom(1, 1, 0)], &[]), &[]), 6, 9);
    // 5 for any variable before 6 for one
    assert_bad(&file(clause(2, &[atom(1, 1, 0)], &[]), &[]), 5, 9);
}

#[test]
fn steps() {
    for rule in [0, 9, 255] {
        assert_bad(&set(35, rule), 7, 35);
    }
    let unit = clause(1, &[], &[literal(1, &[1])]);
    let decision = file(unit.clone(), &[decide(1, 1, true, &[1])]);
    let sign = decision.len() - 3;
    let mut bytes = decision.clone();
    bytes[sign] = 2;
    assert_bad(&bytes, 4, sign);
    // "fields in order, so a sign of 2 is 4 at the sign even where the count behind it is 13"
    bytes[sign + 1] = 13;
    assert_bad(&bytes, 4, sign);
    bytes[sign] = 1;
    assert_bad(&bytes, 3, sign + 1);
    // Clause, literal and constant numbers of a step are not judged in the file.
    assert_eq!(listing(&set(36, 255)), "1 propagate refused 10\nstopped\n");
    assert_eq!(listing(&set(37, 0)), "1 propagate refused 10\nstopped\n");
    assert_eq!(listing(&set(39, 2)), "1 propagate refused 10\nstopped\n");
}

#[test]
fn the_whole_file_is_judged_before_the_first_step() {
    assert_bad(&set(45, 9), 7, 45);
}

#[test]
fn bytes_after_the_last_step() {
    let bytes = [&EXAMPLE[..], &[0]].concat();
    assert_bad(&bytes, 8, 47);
    assert_bad(&set(33, 3), 8, 45);
    assert_bad(&set(33, 0), 8, 35);
}

#[test]
fn a_refused_step_is_listed_without_a_place_and_ends_the_run() {
    // Conflict on the second clause comes first: P(a) is not on the trail.
    let unit = clause(1, &[], &[literal(1, &[1])]);
    let bytes = file(unit, &[grow(1), conflict(1, &[1]), grow(1)]);
    assert_eq!(listing(&bytes), "1 grow 0 0\n2 conflict refused 12\nstopped\n");
}

#[test]
fn files_without_clauses_or_steps() {
    assert_eq!(listing(b"DRF\x01\x00\x00\x00\x00\x00\x00"), "open\n");
    assert_eq!(listing(b"DRF\x01\x00\x00\x00\x00\x01\x00\x06"), "1 skip refused 9\nstopped\n");
}

#[test]
fn the_longest_valid_file() {
    let literals = [literal(1, &[1, 2, 3]); limits::LITERALS];
    let atoms: Vec<_> = (1..=12).flat_map(|x| [at_most(x, 9), at_least(x, 0)]).collect();
    let file = RunFile {
        version: 1,
        constants: 16,
        arities: vec![3; limits::PREDICATES],
        clauses: vec![clause(12, &atoms, &literals); limits::INPUT_CLAUSES],
        steps: vec![decide(1, 1, true, &[1; 12]); limits::STEPS],
    };
    let bytes = write(&file).bytes;
    assert_eq!(bytes.len(), 42_994);
    assert_eq!(read(&bytes), Ok(file));
    assert_eq!(listing(&bytes), "1 decide 1 1\n2 decide refused 11\nstopped\n");
}
