//! Listings, whole final states, the numbers behind each yes and the places of refusals, on generated files of each version, and on those of the
//! steps behind their trails: the proved tool and the independent checker say the same.

use checker::coverage::Coverage;
use checker::file::VERSIONS;
use checker::generate::generate_version;
use compare::beside::{Buffer, Seen};
use drf::{inspect, inspect_numbers, judge, MOST_INSPECTION, MOST_LISTING, MOST_WITH_NUMBERS};
use std::ops::Range;
use std::thread;

/// Of each version
const FILES: u64 = 20_000;
const WORKERS: u64 = 2;

fn differences(version: u16, seeds: Range<u64>) -> (Vec<String>, Seen) {
    let (mut buffer, mut seen) = (Buffer::default(), Seen::default());
    let mut found = Vec::new();
    for seed in seeds {
        match buffer.compare_replayed(&generate_version(version, seed)) {
            Ok(made) => seen.note(&made),
            Err(text) => found.push(format!("version {version}, seed {seed}: {text}")),
        }
    }
    (found, seen)
}

fn same_on_generated_files(version: u16) {
    let part = FILES / WORKERS;
    let workers: Vec<_> = (0..WORKERS)
        .map(|k| thread::spawn(move || differences(version, 1 + k * part..1 + (k + 1) * part)))
        .collect();
    let (mut found, mut seen) = (Vec::new(), Seen::default());
    for worker in workers {
        let (differences, of_worker) = worker.join().expect("a worker ends");
        found.extend(differences);
        seen.add(&of_worker);
    }
    assert!(found.is_empty(), "{} differences, the first:\n{}", found.len(), found[0]);
    println!("lines of numbers: {:?}", seen.numbers());
    let rules: Vec<&str> = seen.numbers().into_iter().map(|(rule, _)| rule).collect();
    let all = ["propagate", "decide", "conflict", "backtrack"];
    assert_eq!(rules, all, "rules with lines of numbers");
}

#[test]
fn same_on_generated_files_of_version_1() {
    same_on_generated_files(1);
}

#[test]
fn same_on_generated_files_of_version_2() {
    same_on_generated_files(2);
}

#[test]
fn every_rule_and_answer_occurs() {
    for version in VERSIONS {
        let mut coverage = Coverage::of(version);
        for seed in 1..=FILES {
            coverage.run(&generate_version(version, seed));
        }
        println!("{}", coverage.report());
        assert!(coverage.is_complete(), "something reachable is at zero:\n{}", coverage.report());
    }
}

/// What stands in the buffer past the text stays, whatever it is, and a short buffer stays as it was.
#[test]
fn lent_bytes() {
    let mut buffers = [Buffer::of(0x00), Buffer::of(0xA5)];
    let all = VERSIONS.iter().flat_map(|&version| (1..=200).map(move |seed| (version, seed)));
    for (version, seed) in all {
        let file = generate_version(version, seed);
        for buffer in &mut buffers {
            assert_eq!(buffer.compare(&file).err(), None, "version {version}, seed {seed}");
        }
        for room in [0, 1, 26, 1_000, MOST_LISTING - 1] {
            let mut out = vec![0xA5; room];
            for told in [judge, inspect, inspect_numbers] {
                assert!(told(&file, &mut out).is_err(), "seed {seed}");
            }
            assert!(out.iter().all(|&b| b == 0xA5), "seed {seed}");
        }
        assert!(inspect(&file, &mut vec![0; MOST_INSPECTION - 1]).is_err(), "seed {seed}");
        let mut out = vec![0xA5; MOST_WITH_NUMBERS - 1];
        assert!(inspect_numbers(&file, &mut out).is_err(), "seed {seed}");
        assert!(out.iter().all(|&b| b == 0xA5), "seed {seed}");
    }
}
