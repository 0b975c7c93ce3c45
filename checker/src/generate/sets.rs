//! Random sets of ground atoms for the constraint test.

use crate::clause::Atom;
use crate::limits;
use crate::random::Random;

/// A set of that seed: up to 16 constants and 184 atoms; about as often possible as not.
pub fn random_set(seed: u64) -> (usize, Vec<Atom>) {
    let mut random = Random::new(seed);
    let constants = random.within(0..=limits::CONSTANTS);
    let most = random.pick(&[2, 6, 20, 60, limits::TEST_ATOMS]);
    // With no constants there are no atoms.
    let count = if constants == 0 { 0 } else { random.within(0..=most) };
    let numbers = hidden_numbers(&mut random, constants);
    let slack = random.pick(&[0, 2, 30, 10_000]);
    let faults = random.pick(&[0, 1, 1, 3, count]);
    let fault = random.pick(&[1, 1, 5, 1_000]);
    let mut atoms = Vec::new();
    for index in 0..count {
        let (p, q) = two_places(&mut random, &numbers);
        let mut c = numbers[p] - numbers[q] + random.whole(0..=slack);
        if index < faults {
            c -= slack + random.whole(1..=fault);
        }
        // A bound that is cut off at the ends of c's range is another one; it is true where it is no fault.
        let c = c.clamp(limits::LEAST_GROUND_C, limits::C);
        atoms.push(Atom { p: p as u8, q: q as u8, c });
    }
    random.shuffle(&mut atoms);
    (constants, atoms)
}

/// Numbers for zero and the constants that keep the order; now and then so far apart that chains of bounds alone lead
/// from one to the other.
fn hidden_numbers(random: &mut Random, constants: usize) -> Vec<i32> {
    let step = random.pick(&[1, 1, 3, 100, 60_000, limits::C]);
    let mut numbers = vec![0];
    let mut next = random.whole(-step * 8..=step * 2);
    for _ in 0..constants {
        numbers.push(next);
        next += if random.percent(20) { step } else { random.whole(1..=step) };
    }
    numbers
}

/// Two places, not both 0, whose difference a bound can say; now and then the same one twice.
fn two_places(random: &mut Random, numbers: &[i32]) -> (usize, usize) {
    loop {
        let (p, q) = (random.below(numbers.len()), random.below(numbers.len()));
        let in_range = numbers[p] - numbers[q] <= limits::C;
        if (p, q) != (0, 0) && in_range && (p != q || random.percent(20)) {
            return (p, q);
        }
    }
}
