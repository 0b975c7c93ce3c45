//! The constraint test. It stands by itself beneath the rules.

use crate::clause::Atom;
use crate::limits;
use crate::refusal::{demand, Refusal};
use std::collections::VecDeque;
use std::iter::successors;

/// A number for each constant, b1's first.
pub type Numbers = Vec<i32>;

/// "A set of ground atoms is possible if whole numbers exist for the constants that keep this order
/// and make every atom true. The test says yes exactly then."
///
/// "Handed more than 16 constants or 184 atoms it refuses by 3, place 0; then an atom with a place
/// above the constants, both places 0 or c out of range by 4, the place being the atom's number."
///
/// "The constraint test shall give, with its yes, numbers for the constants" (change request 2): a yes is these
/// numbers, a no is none. c is out of range below −1,000,001 and above 1,000,000: "so trail constants, and the test's,
/// reach −1,000,001" (the request "Decisions that bring bounds").
pub fn test(constants: usize, atoms: &[Atom]) -> Result<Option<Numbers>, Refusal> {
    let counts_fit = constants <= limits::CONSTANTS && atoms.len() <= limits::TEST_ATOMS;
    demand(counts_fit, Refusal::new(3, 0))?;
    for (index, atom) in atoms.iter().enumerate() {
        demand(is_sound(constants, atom), Refusal::new(4, index + 1))?;
    }
    Ok(numbers(constants, atoms))
}

fn is_sound(constants: usize, atom: &Atom) -> bool {
    atom.p as usize <= constants
        && atom.q as usize <= constants
        && (atom.p != 0 || atom.q != 0)
        && (limits::LEAST_GROUND_C..=limits::C).contains(&atom.c)
}

/// Whether a set is possible.
pub fn possible(constants: usize, atoms: &[Atom]) -> bool {
    largest_choice(constants, atoms).is_some()
}

/// "of all choices for constants and zero in which nothing exceeds 0, the order holds and every atom holds as a
/// difference, take the one largest at each place, then subtract zero's number from all." Zero's own, which is 0
/// then, is not listed. None where the set is not possible.
pub fn numbers(constants: usize, atoms: &[Atom]) -> Option<Numbers> {
    let choice = largest_choice(constants, atoms)?;
    let zero = choice[0];
    Some(choice[1..=constants].iter().map(|number| number - zero).collect())
}

/// Zero and the constants.
const PLACES: usize = limits::CONSTANTS + 1;

/// Of each place a number.
type Choice = [i32; PLACES];

/// The largest choice, by a line in which places wait. Every place begins at 0 and waits once. The one whose turn
/// it is, q, pulls each p down that a bound p − q ≤ c has above q + c, and p waits again.
///
/// When no place waits every bound holds, since its q had a turn after it was last pulled down: this is a choice.
/// It is the largest: no choice is above 0, where all places begin, and one that is not above what stands at q is
/// not above q + c at p, so no pull brings a place below any choice.
///
/// What stands at a place is the sum of a chain of bounds, one for each pull. A chain of more bounds than there are
/// constants passes some place twice. That place was pulled down in between, so the closed chain from it to itself
/// has a negative sum, and nothing makes its bounds true. Where there is no such closed chain the pulls come to an
/// end: each brings a lower sum, of one of the chains that pass no place twice.
fn largest_choice(constants: usize, atoms: &[Atom]) -> Option<Choice> {
    let mut choice: Choice = [0; PLACES];
    // How many bounds the chain has by which a place came to its number.
    let mut links = [0; PLACES];
    // From the last constant on, since the order pulls each down by the next one.
    let mut line: VecDeque<usize> = (0..=constants).rev().collect();
    let mut waits = [true; PLACES];
    // The atoms of each q: the last one, and of each atom the one before it.
    let mut last = [None; PLACES];
    let before: Vec<Option<usize>> =
        (0..atoms.len()).map(|index| last[atoms[index].q as usize].replace(index)).collect();
    while let Some(q) = line.pop_front() {
        waits[q] = false;
        // "The constants b1, b2, .. are ordered: b1 < b2 < .. ": b1 − b2 ≤ −1 and so on.
        let order = (q > 1).then(|| (q - 1, -1));
        let of_q = successors(last[q], |&index| before[index]).map(|index| &atoms[index]);
        for (p, c) in order.into_iter().chain(of_q.map(|atom| (atom.p as usize, atom.c))) {
            if choice[p] <= choice[q] + c {
                continue;
            }
            choice[p] = choice[q] + c;
            links[p] = links[q] + 1;
            if links[p] > constants {
                return None;
            }
            if !waits[p] {
                waits[p] = true;
                line.push_back(p);
            }
        }
    }
    Some(choice)
}
