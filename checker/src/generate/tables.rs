//! Random lookup tables with the buffers lent for their clauses, and points to ask of one.

use crate::limits;
use crate::random::Random;
use crate::table::{clauses_from, Match};

/// A table as it is offered, and the buffer.
#[derive(Clone, Debug)]
pub struct Table {
    pub keys: Vec<i32>,
    pub results: Vec<i32>,
    pub kind: Match,
    pub out: Vec<u8>,
}

/// A table in order, its buffer long enough, and numbers x and y: is Gets(x, y) true?
#[derive(Clone, Debug)]
pub struct Point {
    pub table: Table,
    pub x: i32,
    pub y: i32,
}

/// As many rows are offered at most.
const MOST_OFFERED: usize = 60;
/// More bytes than the clauses of any table take.
const LONG: usize = 2_000;

/// A table of that seed: up to 60 rows, in order or not, and a buffer long enough or not.
pub fn random_table(seed: u64) -> Table {
    let random = &mut Random::new(seed);
    let rows = match random.below(10) {
        0 => 0,
        1..=3 => random.within(1..=4),
        4..=6 => random.within(5..=limits::ROWS),
        7 => limits::ROWS,
        8 => limits::ROWS + 1,
        _ => random.within(limits::ROWS + 2..=MOST_OFFERED),
    };
    let mut table = in_order(random, rows);
    if random.percent(20) {
        let more = random.within(1..=5);
        table.results.extend((0..more).map(|_| beyond(random)));
    }
    if random.percent(35) {
        for _ in 0..random.pick(&[1, 1, 1, 2, 5]) {
            spoil(random, &mut table);
        }
    }
    table.out = buffer(random, &table);
    table
}

/// A table in order of that seed and a point. Often the table returns y at x, and often it does not.
pub fn random_point(seed: u64) -> Point {
    let random = &mut Random::new(seed);
    let rows = match random.below(10) {
        0 => random.within(0..=1),
        1..=5 => random.within(2..=6),
        6..=8 => random.within(7..=limits::ROWS),
        _ => limits::ROWS,
    };
    let mut table = in_order(random, rows);
    table.out = bytes(random, LONG);
    let (x, y) = match rows {
        0 => (number(random, 3), number(random, 3)),
        _ => point(random, &table),
    };
    Point { table, x, y }
}

/// A table in order, without a buffer.
fn in_order(random: &mut Random, rows: usize) -> Table {
    let keys = rising(random, rows);
    let reach = random.pick(&[3, 1_000, limits::C]);
    let results = (0..rows).map(|_| number(random, reach)).collect();
    let kind = random.pick(&[Match::Exact, Match::Approximate]);
    Table { keys, results, kind, out: Vec::new() }
}

/// Strictly rising keys: neighbours, close together or far apart; from the lower end of the range on, up
/// to its upper end, about 0, or anywhere.
fn rising(random: &mut Random, rows: usize) -> Vec<i32> {
    // 60 keys so far apart fit into the range.
    let most = random.pick(&[1, 1, 3, 100, 30_000]);
    let mut apart = vec![0; rows];
    for row in 1..rows {
        let more = if random.percent(30) { 1 } else { random.whole(1..=most) };
        apart[row] = apart[row - 1] + more;
    }
    let whole = apart.last().copied().unwrap_or(0);
    let first = match random.below(4) {
        0 => -limits::C,
        1 => limits::C - whole,
        2 => -whole / 2 + random.whole(-3..=3),
        _ => random.whole(-limits::C..=limits::C - whole),
    };
    apart.iter().map(|apart| first + apart).collect()
}

/// A number from −reach to reach; now and then an end of the range.
fn number(random: &mut Random, reach: i32) -> i32 {
    if random.percent(10) {
        random.pick(&[-limits::C, limits::C])
    } else {
        random.whole(-reach..=reach)
    }
}

/// A number outside ±1,000,000.
fn beyond(random: &mut Random) -> i32 {
    let above = match random.below(3) {
        0 => limits::C + 1,
        1 => i32::MAX,
        _ => random.whole(limits::C + 1..=i32::MAX),
    };
    match random.below(5) {
        0 | 1 => above,
        2 | 3 => -above,
        _ => i32::MIN,
    }
}

/// Puts one fault into a table, where it has the rows for it.
fn spoil(random: &mut Random, Table { keys, results, .. }: &mut Table) {
    if keys.is_empty() || results.is_empty() {
        return;
    }
    let row = random.below(keys.len());
    let later = (row + 1).min(keys.len() - 1);
    let with_result = row.min(results.len() - 1);
    match random.below(8) {
        // equal keys, and falling ones
        0 => keys[later] = keys[row],
        1 => keys[later] = keys[row].saturating_sub(random.pick(&[1, 1, 100])),
        2 => keys.swap(row, later),
        3 => keys[row] = beyond(random),
        // The keys still rise.
        4 => keys[0] = random.pick(&[-limits::C - 1, i32::MIN]),
        5 => *keys.last_mut().expect("a row") = random.pick(&[limits::C + 1, i32::MAX]),
        6 => results[with_result] = beyond(random),
        // results are missing
        _ => results.truncate(random.pick(&[0, keys.len() - 1, row])),
    }
}

/// A buffer of random bytes: none, as many as the clauses take, one less, any number below, or more.
fn buffer(random: &mut Random, table: &Table) -> Vec<u8> {
    let Table { keys, results, kind, .. } = table;
    let taken = clauses_from(keys, results, *kind, &mut [0; LONG]);
    // A table that is refused takes none.
    let taken = taken.unwrap_or_else(|_| random.below(LONG));
    let length = match random.below(10) {
        0 => 0,
        1 => taken.saturating_sub(1),
        2 => random.within(0..=taken),
        3..=5 => taken,
        6 => taken + 1,
        _ => taken + random.within(1..=200),
    };
    bytes(random, length)
}

fn bytes(random: &mut Random, length: usize) -> Vec<u8> {
    (0..length).map(|_| random.byte()).collect()
}

/// x at the ends of a row or next to them, or past all rows; y the row's result, that of a row beside it,
/// or one more or less.
fn point(random: &mut Random, Table { keys, results, .. }: &Table) -> (i32, i32) {
    let last = keys.len() - 1;
    let row = match random.below(4) {
        0 => 0,
        1 => last,
        _ => random.below(keys.len()),
    };
    let beside = if random.percent(50) { row.saturating_sub(1) } else { last.min(row + 1) };
    let x = match random.below(10) {
        0..=3 => keys[row],
        4 => keys[row] - 1,
        5 => keys[row] + 1,
        6 => keys.get(row + 1).map_or(keys[row] + limits::C, |next| next - 1),
        7 => keys[beside],
        8 => keys[last] + random.whole(1..=limits::C),
        _ => keys[0] - random.whole(1..=limits::C),
    };
    let y = match random.below(8) {
        0..=4 => results[row],
        5 => results[beside],
        6 => results[row] - 1,
        _ => results[row] + 1,
    };
    (x, y)
}
