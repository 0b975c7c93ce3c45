//! Times the constraint test against a straightforward Floyd-Warshall on the same sets of atoms, and sees that both answer alike, and give the same
//! numbers with a yes.

mod sets;

use sets::{Row, Set, CONSTANTS, PLACES};
use std::hint::black_box;
use std::time::{Duration, Instant};

#[link(name = "constraint_export", kind = "static")]
extern "C" {
    // A slice is handed over as its start and its length.
    fn drf_possible(constants: u8, count: u8, places: *const u8, places_len: usize, bounds: *const i32, bounds_len: usize) -> u32;
    fn drf_numbers(constants: u8, count: u8, places: *const u8, places_len: usize, bounds: *const i32, bounds_len: usize, numbers: *mut i32, numbers_len: usize) -> u32;
}

const EACH: Duration = Duration::from_millis(400);

fn ours(set: &Set) -> bool {
    let answer = unsafe {
        drf_possible(CONSTANTS as u8, set.bounds.len() as u8, set.places.as_ptr(), set.places.len(), set.bounds.as_ptr(), set.bounds.len())
    };
    assert!(answer <= 1, "refused: {answer}");
    answer == 1
}

/// The numbers behind a yes
fn our_numbers(set: &Set) -> Option<Vec<i64>> {
    let mut numbers = [0; CONSTANTS];
    let (places, bounds) = (&set.places, &set.bounds);
    let answer = unsafe {
        drf_numbers(CONSTANTS as u8, bounds.len() as u8, places.as_ptr(), places.len(), bounds.as_ptr(), bounds.len(), numbers.as_mut_ptr(), numbers.len())
    };
    (answer == 1).then(|| numbers.map(i64::from).to_vec())
}

type Square = [[i64; PLACES]; PLACES];

fn floyd_warshall(set: &Set) -> bool {
    is_possible(&closed(set))
}

fn is_possible(d: &Square) -> bool {
    (0..PLACES).all(|i| d[i][i] >= 0)
}

/// The same numbers: at each place the largest that no bound, and not 0, forbids, less that of zero
fn their_numbers(set: &Set) -> Option<Vec<i64>> {
    let d = closed(set);
    let largest = |i: usize| d[i].into_iter().fold(0, i64::min);
    is_possible(&d).then(|| (1..PLACES).map(|i| largest(i) - largest(0)).collect())
}

#[inline(always)]
fn closed(set: &Set) -> Square {
    const NONE: i64 = i64::MAX / 4;
    let mut d = [[NONE; PLACES]; PLACES];
    for i in 0..PLACES {
        d[i][i] = 0;
    }
    for i in 1..CONSTANTS {
        d[i][i + 1] = -1;
    }
    for (k, c) in set.bounds.iter().enumerate() {
        let (p, q, c) = (set.places[2 * k] as usize, set.places[2 * k + 1] as usize, *c as i64);
        if c < d[p][q] {
            d[p][q] = c;
        }
    }
    for k in 0..PLACES {
        for i in 0..PLACES {
            for j in 0..PLACES {
                let through = d[i][k] + d[k][j];
                if through < d[i][j] {
                    d[i][j] = through;
                }
            }
        }
    }
    d
}

/// Nanoseconds for a test, over all the sets.
fn time(sets: &[Set], test: fn(&Set) -> bool) -> f64 {
    let start = Instant::now();
    let mut tests = 0;
    while start.elapsed() < EACH {
        for s in sets {
            black_box(test(black_box(s)));
        }
        tests += sets.len();
    }
    start.elapsed().as_nanos() as f64 / tests as f64
}

fn main() {
    let mut worst: f64 = 0.0;
    println!("{CONSTANTS} constants     atoms  ns ours  ns Floyd-Warshall  ratio");
    for Row { possible, count, sets } in sets::rows() {
        for s in &sets {
            assert_eq!(floyd_warshall(s), possible);
            assert_eq!(ours(s), possible);
            assert_eq!(our_numbers(s), their_numbers(s));
        }
        let (a, b) = (time(&sets, ours), time(&sets, floyd_warshall));
        worst = worst.max(a / b);
        println!("{:<15} {:>6} {:>8.0} {:>18.0} {:>6.2}", if possible { "possible" } else { "impossible" }, count, a, b, a / b);
    }
    println!("largest ratio {worst:.2} (bar: 10)");
}
