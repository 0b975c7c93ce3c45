//! `check`: reads a run file from standard input and prints the listing; with the word `inspect` the
//! listing and then the final state, and with `numbers` behind it also the numbers that steps hand on. With the word
//! `records`, `runs` or `damages` it reads cases of that kind and prints what they come to. With `pack-damages` or `pack-runs` it reads such cases and prints them as files, packed for
//! `crates/file_cases`; with `pack-records` it reads records and prints them packed for `crates/rule_cases`. With
//! `long` and a number of bytes it reads nothing and prints a file of that length.

use checker::cases::{
    answers, damaged_files, inspections, listings, packed, packed_records, run_files,
};
use checker::generate::long_file;
use checker::limits;
use checker::listing::{inspection, inspection_with_numbers, listing};
use std::io::{self, Read, Write};
use std::process::ExitCode;

const USAGE: &str = "\
usage: check [inspect [numbers]] < file
       check records | runs | damages | pack-records | pack-runs | pack-damages < cases
       check long BYTES";

/// What is printed of what is read.
type Print = fn(&[u8]) -> Vec<u8>;

fn main() -> ExitCode {
    let words: Vec<String> = std::env::args().skip(1).collect();
    let words: Vec<&str> = words.iter().map(String::as_str).collect();
    // "of any file the program reads one byte more and no further"
    let file = limits::READ_BYTES as u64;
    let done = match words[..] {
        [] => read(file, |bytes| listing(bytes).into()),
        ["inspect"] => read(file, |bytes| inspection(bytes).into()),
        ["inspect", "numbers"] => read(file, |bytes| inspection_with_numbers(bytes).into()),
        ["records"] => read(u64::MAX, |text| answers(text).into()),
        ["runs"] => read(u64::MAX, |text| inspections(&run_files(text)).into()),
        ["damages"] => read(u64::MAX, |text| listings(&damaged_files(text)).into()),
        ["pack-damages"] => read(u64::MAX, |text| packed(&damaged_files(text))),
        ["pack-runs"] => read(u64::MAX, |text| packed(&run_files(text))),
        ["pack-records"] => read(u64::MAX, packed_records),
        ["long", bytes] => long(bytes),
        _ => Err(io::Error::other(USAGE)),
    };
    match done {
        Ok(()) => ExitCode::SUCCESS,
        Err(error) => {
            eprintln!("check: {error}");
            ExitCode::FAILURE
        }
    }
}

/// Reads at most so many bytes and prints what is to be printed of them.
fn read(most: u64, print: Print) -> io::Result<()> {
    let mut bytes = Vec::new();
    io::stdin().lock().take(most).read_to_end(&mut bytes)?;
    io::stdout().lock().write_all(&print(&bytes))
}

fn long(bytes: &str) -> io::Result<()> {
    let file = bytes.parse().ok().and_then(long_file);
    let file = file.ok_or_else(|| io::Error::other(format!("no file of {bytes} bytes")))?;
    io::stdout().lock().write_all(&file)
}
