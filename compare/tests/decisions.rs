//! Decisions that bring atoms, and files as long as may be, on files made for them: the proved tool and the independent checker say the same.

use checker::cases::{damaged_files, run_files};
use checker::clause::{Atom, Clause, Literal};
use checker::file::{write, RunFile, VERSIONS};
use checker::generate::long_file;
use checker::limits;
use checker::refusal::Refusal;
use checker::step::{Source, Step};
use compare::beside::Buffer;

const RUNS: &[u8] = include_bytes!("../../checker/cases/runs.txt");
const DAMAGES: &[u8] = include_bytes!("../../checker/cases/damages.txt");

#[test]
fn same_on_the_cases() {
    let mut buffer = Buffer::default();
    for file in run_files(RUNS).iter().chain(&damaged_files(DAMAGES)) {
        assert_eq!(buffer.compare_replayed(&file.bytes).err(), None, "{}", file.name);
    }
}

/// 22 above 65,536 bytes and not before, of files that are in order else
#[test]
fn as_long_as_a_file_may_be() {
    let most = limits::FILE_BYTES;
    for length in [most - 1, most, most + 1, most + 2, 70_000] {
        let file = long_file(length).expect("a file of that length");
        match Buffer::default().compare(&file).expect("no difference") {
            Ok(run) => {
                assert!(length <= most && run.tried.iter().all(|tried| tried.answer.is_ok()));
            }
            Err(bad) => assert!(length > most && bad.refusal == Refusal::new(22, most)),
        }
    }
}

/// and of others: zeros, files with more behind them, of each version and of one that there is not
#[test]
fn longer_than_a_file_may_be() {
    let most = limits::FILE_BYTES;
    let mut buffer = Buffer::default();
    let (arities, clauses, steps) = (Vec::new(), Vec::new(), vec![Step::Grow { count: 1 }]);
    let mut file = RunFile { version: 0, constants: 0, arities, clauses, steps };
    let mut begins = vec![Vec::new(), b"DRF".to_vec()];
    for version in [&VERSIONS[..], &[3]].concat() {
        file.version = version;
        begins.push(write(&file).bytes);
    }
    for begin in begins {
        for length in [most - 1, most, most + 1, most + 2, 2 * most, 2 * most + 1, 200_000] {
            let mut bytes = begin.clone();
            bytes.resize(length, 0);
            let bad = buffer.compare(&bytes).expect("no difference").expect_err("a bad file");
            assert_eq!(bad.refusal.number == 22, length > most, "{begin:?} {length}");
        }
    }
}

/// x ≤ c and x ≥ −c of each of twelve variables
fn bounds(c: i32) -> Clause {
    let variables = limits::VARIABLES as u8;
    let bounds = |x: u8| [Atom { p: x, q: 0, c }, Atom { p: 0, q: x, c }];
    let literal = Literal { positive: true, predicate: 1, arguments: [1, 2, 3] };
    Clause { variables, atoms: (1..=variables).flat_map(bounds).collect(), literals: vec![literal] }
}

/// As many atoms on the trail as may be, with the longest instances: six decisions that bring 24 and one that brings 9
#[test]
fn a_trail_full_of_atoms() {
    let clauses: Vec<Clause> = (0..7).map(|k| bounds(limits::C - k)).collect();
    let mut steps = Vec::new();
    for clause in 1..=7 {
        let instance: Vec<u8> = (0..12).map(|x| 16 - (x + clause) % 12).collect();
        let count = if clause == 7 { 9 } else { 24 };
        let source = |number| Source { clause, number, stands: true, instance: instance.clone() };
        let atoms = (1..=count).map(source).collect();
        steps.push(Step::Decide { clause, literal: 1, positive: false, instance, atoms });
    }
    let arities = vec![3];
    let file = write(&RunFile { version: 2, constants: 16, arities, clauses, steps }).bytes;
    let told = Buffer::default().compare_replayed(&file);
    let run = told.expect("no difference").expect("a file in order");
    assert!(run.tried.iter().all(|tried| tried.answer.is_ok()), "{:?}", run.tried);
    assert_eq!(run.state.trail.len(), limits::TRAIL);
}
