//! The seeded generator of run files.
//!
//! A file comes of a kind: what its input looks like ([`problem`]) and how it is played ([`player`]).
//! [`kinds`] differ in what they reach: many conflicts on few constants, bounds that lie close, constants
//! that lie far apart, wide clauses, full trails, many learned clauses, long runs, the longest file. In version 2
//! decisions bring atoms, and further kinds are about these. One file of five is damaged ([`damage`]), and now and then
//! one is longer than a file may be.
//!
//! Beside files there are sets of atoms ([`sets`]) and lookup tables ([`tables`]).

mod damage;
mod kinds;
mod length;
mod player;
mod problem;
mod sets;
mod tables;

use crate::file::write;
use crate::random::Random;
pub use kinds::onward;
pub use length::long_file;
pub use sets::random_set;
pub use tables::{random_point, random_table, Point, Table};

/// The run file of version 1 and of that seed.
pub fn generate(seed: u64) -> Vec<u8> {
    generate_version(1, seed)
}

/// The run file of that version and seed.
pub fn generate_version(version: u16, seed: u64) -> Vec<u8> {
    let mut random = Random::new(seed);
    let file = kinds::run_file(&mut random, version);
    let bytes =
        if random.percent(20) { damage::damaged(&mut random, &file) } else { write(&file).bytes };
    if random.below(200) == 0 {
        damage::stretched(&mut random, bytes)
    } else {
        bytes
    }
}
