//! What the programs of cases must print is what this checker makes of the same cases.

use checker::cases::{
    answers, damaged_files, inspections, listings, packed, packed_records, run_files,
};
use checker::limits::READ_BYTES;
use checker::listing::listing;
use std::fs;

const RECORDS: &[u8] = include_bytes!("../cases/records.txt");
const DAMAGES: &[u8] = include_bytes!("../cases/damages.txt");
const RUNS: &[u8] = include_bytes!("../cases/runs.txt");
const FOLDER: &str = concat!(env!("CARGO_MANIFEST_DIR"), "/../crates/file_cases");

fn held(name: &str) -> Vec<u8> {
    fs::read(format!("{FOLDER}/{name}")).expect("a file of crates/file_cases")
}

#[test]
fn the_records_come_to_what_rule_cases_must_print() {
    let expected = include_str!("../../crates/rule_cases/stdout");
    assert_eq!(answers(RECORDS), expected);
}

#[test]
fn the_records_are_what_rule_cases_reads() {
    let read = include_bytes!("../../crates/rule_cases/stdin");
    assert_eq!(packed_records(RECORDS), read);
}

#[test]
fn the_damages_and_runs_are_the_packed_files() {
    assert_eq!(packed(&damaged_files(DAMAGES)), held("stdin"));
    assert_eq!(packed(&run_files(RUNS)), held("data/runs"));
}

#[test]
fn the_files_come_to_what_file_cases_must_print() {
    let args = String::from_utf8(held("args")).expect("words");
    let mut names = args.lines();
    assert_eq!(names.next(), Some("runs"));
    let mut text = listings(&damaged_files(DAMAGES)) + &inspections(&run_files(RUNS));
    for name in names {
        let bytes = held(&format!("data/{name}"));
        text += &format!("{name}\n{}", listing(&bytes[..bytes.len().min(READ_BYTES)]));
    }
    assert_eq!(text, String::from_utf8(held("stdout")).expect("lines"));
}
