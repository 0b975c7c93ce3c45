//! The constraint test: what it refuses, and its answer with its numbers beside other methods.

mod common;

use checker::clause::Atom;
use checker::constraint::{test, Numbers};
use checker::generate::random_set;
use checker::limits;
use checker::random::Random;
use checker::refusal::Refusal;
use common::*;

#[test]
fn refusals() {
    let refused = |number, place| Err(Refusal { number, place });
    let good = at_most(1, 0);
    assert_eq!(test(17, &[]), refused(3, 0));
    assert_eq!(test(16, &vec![good; 185]), refused(3, 0));
    assert_eq!(test(16, &vec![good; 184]), Ok(Some((-15..=0).collect())));
    // Counts come first, then the first atom with a fault.
    assert_eq!(test(17, &[atom(0, 0, 0)]), refused(3, 0));
    assert_eq!(test(1, &[good, atom(0, 0, 0), atom(2, 0, 0)]), refused(4, 2));
    assert_eq!(test(1, &[good, good, atom(0, 2, 0)]), refused(4, 3));
    assert_eq!(test(1, &[atom(2, 0, 0)]), refused(4, 1));
    assert_eq!(test(1, &[at_most(1, 1_000_001)]), refused(4, 1));
    assert_eq!(test(1, &[at_most(1, -1_000_001)]), yes(&[-1_000_001]));
    assert_eq!(test(1, &[at_least(1, 1_000_001)]), yes(&[1_000_001]));
    assert_eq!(test(1, &[at_most(1, -1_000_002)]), refused(4, 1));
    assert_eq!(test(1, &[at_most(1, i32::MIN)]), refused(4, 1));
    // With no constants every atom is 4.
    assert_eq!(test(0, &[good]), refused(4, 1));
}

#[test]
fn long_chains_at_the_ends_of_the_range() {
    // b1 ≤ b2 − 1,000,000 and so on up to b16, and b16 ≤ −1,000,000
    let mut atoms: Vec<Atom> = (1..16).map(|x| atom(x, x + 1, -1_000_000)).collect();
    atoms.push(at_most(16, -1_000_000));
    let down: Numbers = (-16..=-1).map(|millions| millions * 1_000_000).collect();
    assert_eq!(test(16, &atoms), Ok(Some(down)));
    // b1 can't be above −16,000,000, which is far below what c can say
    atoms.push(at_least(1, -1_000_000));
    assert_eq!(test(16, &atoms), Ok(None));
    // The same upwards: b1 ≥ 1,000,000, and b16 can't be below 16,000,000.
    atoms.truncate(15);
    atoms.push(at_least(1, 1_000_000));
    let up: Numbers = (1..=16).map(|millions| millions * 1_000_000).collect();
    assert_eq!(test(16, &atoms), Ok(Some(up)));
    atoms.push(at_most(16, 1_000_000));
    assert_eq!(test(16, &atoms), Ok(None));
}

#[test]
fn long_chains_of_denials() {
    // b1 ≤ b2 − 1,000,001 and so on up to b16, which is at most −1,000,001
    let mut atoms: Vec<Atom> = (1..16).map(|x| atom(x, x + 1, -1_000_001)).collect();
    atoms.push(at_most(16, -1_000_001));
    let down: Numbers = (-16..=-1).map(|times| times * 1_000_001).collect();
    assert_eq!(test(16, &atoms), Ok(Some(down)));
    atoms.pop();
    atoms.push(at_least(1, 1_000_001));
    let up: Numbers = (1..=16).map(|times| times * 1_000_001).collect();
    assert_eq!(test(16, &atoms), Ok(Some(up)));
    // An atom with its denial is never possible, and one of the two always is.
    for c in [1_000_000, -1_000_000, -1_000_001, 0, -1] {
        for atom in [at_most(1, c), atom(0, 1, c), atom(1, 2, c), atom(2, 1, c), atom(1, 1, c)] {
            assert_eq!(atom.denial().denial(), atom);
            assert_eq!(test(2, &[atom, atom.denial()]), Ok(None));
            let [one, other] =
                [atom, atom.denial()].map(|atom| test(2, &[atom]).expect("in range").is_some());
            assert!(one || other);
        }
    }
}

#[test]
fn exactly_as_many_numbers_as_constants() {
    for constants in 1..=16u8 {
        let last = i32::from(constants) - 1;
        let fits = [at_least(1, 0), at_most(constants, last)];
        assert_eq!(test(constants.into(), &fits), Ok(Some((0..=last).collect())));
        if constants > 1 {
            let short = [at_least(1, 0), at_most(constants, last - 1)];
            assert_eq!(test(constants.into(), &short), Ok(None));
        }
    }
}

/// Of each set the numbers, worked out by hand.
#[test]
fn numbers_by_hand() {
    // The order alone: the last constant is 0, the others are as little below it as may be.
    assert_eq!(test(1, &[]), yes(&[0]));
    assert_eq!(test(3, &[]), yes(&[-2, -1, 0]));
    // Zero is 0 and pulls a down: the choice is −7, −6, −5 and 0 for zero.
    assert_eq!(test(3, &[at_most(3, -5)]), yes(&[-7, -6, -5]));
    // a pulls zero down: the choice is −2, −1, 0 and −7 for zero.
    assert_eq!(test(3, &[at_least(1, 5)]), yes(&[5, 6, 7]));
    // The constant in the middle pulls down what is below it; what is above it stays.
    assert_eq!(test(3, &[at_most(2, -3)]), yes(&[-4, -3, 0]));
    assert_eq!(test(3, &[at_least(2, 3)]), yes(&[2, 3, 4]));
    // Between two bounds: the least number where both are above 0, the largest where both are below, else 0.
    assert_eq!(test(1, &[at_least(1, 2), at_most(1, 7)]), yes(&[2]));
    assert_eq!(test(1, &[at_least(1, -7), at_most(1, -2)]), yes(&[-2]));
    assert_eq!(test(1, &[at_least(1, -3), at_most(1, 3)]), yes(&[0]));
    // A chain of differences; that c is at most 100 changes nothing, since nothing exceeds 0.
    let chain = [atom(1, 2, -4), atom(2, 3, -10)];
    assert_eq!(test(3, &[&chain[..], &[at_most(3, 100)]].concat()), yes(&[-14, -10, 0]));
    assert_eq!(test(3, &[&chain[..], &[at_most(3, -1)]].concat()), yes(&[-15, -11, -1]));
    assert_eq!(test(3, &[&chain[..], &[at_least(1, 1)]].concat()), yes(&[1, 5, 15]));
    // b is at most 2 above a, and a is pulled down; c stays.
    assert_eq!(test(3, &[atom(2, 1, 2), at_most(1, -10)]), yes(&[-10, -8, 0]));
    // b is 5 above a, and a is from 10 on.
    assert_eq!(test(2, &[atom(1, 2, -5), atom(2, 1, 5), at_least(1, 10)]), yes(&[10, 15]));
    // Two ways lead to a; the lower one counts.
    assert_eq!(test(2, &[at_most(1, -3), atom(1, 2, -7)]), yes(&[-7, 0]));
    assert_eq!(test(2, &[at_most(1, -9), atom(1, 2, -7)]), yes(&[-9, 0]));
}

/// Every choice of numbers from −most to 0 for zero and the constants, and of those in which the order holds and every atom
/// does the largest number at each place; none where there is no such choice. The largest numbers are a choice too.
fn numbers_by_trial(constants: usize, atoms: &[Atom], most: i32) -> Option<Numbers> {
    let holds = |choice: &[i32]| {
        choice[1..].windows(2).all(|two| two[0] < two[1])
            && atoms.iter().all(|atom| choice[atom.p as usize] - choice[atom.q as usize] <= atom.c)
    };
    let mut choice = vec![-most; constants + 1];
    let mut largest: Option<Vec<i32>> = None;
    loop {
        if holds(&choice) {
            let found = largest.get_or_insert(choice.clone());
            found.iter_mut().zip(&choice).for_each(|(found, &number)| *found = number.max(*found));
        }
        // The next choice: like a number that is counted up, the last place first.
        let Some(place) = choice.iter().rposition(|&number| number < 0) else { break };
        choice[place] += 1;
        choice[place + 1..].fill(-most);
    }
    let largest = largest?;
    assert!(holds(&largest));
    Some(largest[1..].iter().map(|number| number - largest[0]).collect())
}

#[test]
fn beside_all_choices() {
    let random = &mut Random::new(1);
    let mut answers = [0, 0];
    for _ in 0..4_000 {
        let constants = random.within(0..=3);
        // No chain of bounds that passes no place twice has a sum below −most.
        let reach = random.pick(&[1, 2, 3]);
        let most = reach * constants as i32;
        let mut atoms = Vec::new();
        for _ in 0..random.below(if constants == 0 { 1 } else { 8 }) {
            let (p, q) = (random.within(0..=constants), random.within(0..=constants));
            if (p, q) != (0, 0) {
                atoms.push(atom(p as u8, q as u8, random.whole(-reach..=reach)));
            }
        }
        let numbers = numbers_by_trial(constants, &atoms, most);
        answers[numbers.is_some() as usize] += 1;
        assert_eq!(test(constants, &atoms), Ok(numbers), "{constants} {atoms:?}");
    }
    assert!(answers.iter().all(|&count| count > 500), "{answers:?}");
}

/// The least sum of a chain of bounds that begins at a place and passes none twice; 0 for the chain of no bounds. Of a
/// possible set these are the largest choice.
fn least_chain(bounds: &[(usize, usize, i32)], place: usize, passed: &mut Vec<usize>) -> i32 {
    passed.push(place);
    let mut least = 0;
    for &(p, q, c) in bounds {
        if p == place && !passed.contains(&q) {
            least = least.min(c + least_chain(bounds, q, passed));
        }
    }
    passed.pop();
    least
}

#[test]
fn beside_all_chains() {
    let mut seen = 0;
    for seed in 0..20_000 {
        let (constants, atoms) = random_set(seed);
        let numbers = test(constants, &atoms).expect("a set the test takes");
        let Some(numbers) = numbers.filter(|_| constants <= 5 && atoms.len() <= 20) else {
            continue;
        };
        let order = (1..constants).map(|first| (first, first + 1, -1));
        let atoms = atoms.iter().map(|atom| (atom.p.into(), atom.q.into(), atom.c));
        let bounds: Vec<_> = order.chain(atoms).collect();
        let choice: Vec<i32> =
            (0..=constants).map(|place| least_chain(&bounds, place, &mut Vec::new())).collect();
        let by_chains: Numbers = choice[1..].iter().map(|number| number - choice[0]).collect();
        assert_eq!(numbers, by_chains, "seed {seed}");
        seen += 1;
    }
    assert!(seen > 1_000, "{seen}");
}

/// The shortest chains between every two places, by the method of Floyd and Warshall, and the shortest from each place.
fn numbers_by_table(constants: usize, atoms: &[Atom]) -> Option<Numbers> {
    const NONE: i64 = i64::MAX / 4;
    let mut table = [[NONE; 17]; 17];
    let order = (1..constants).map(|first| (first, first + 1, -1));
    let atoms = atoms.iter().map(|atom| (atom.p.into(), atom.q.into(), atom.c.into()));
    for (p, q, c) in order.chain(atoms) {
        let bound: &mut i64 = &mut table[p][q];
        *bound = (*bound).min(c);
    }
    for middle in 0..=constants {
        for p in 0..=constants {
            for q in 0..=constants {
                let way = table[p][middle].saturating_add(table[middle][q]);
                table[p][q] = table[p][q].min(way).max(-NONE);
            }
        }
    }
    let possible = (0..=constants).all(|place| table[place][place] >= 0);
    let largest =
        |place: usize| table[place][..=constants].iter().fold(0, |least, &c| least.min(c));
    let number = |constant| (largest(constant) - largest(0)) as i32;
    possible.then(|| (1..=constants).map(number).collect())
}

#[test]
fn beside_a_table_of_bounds() {
    let mut answers = [0, 0];
    let mut least = [0, 0];
    let mut ends = [0, 0];
    for seed in 0..20_000 {
        let (constants, atoms) = random_set(seed);
        let numbers = test(constants, &atoms).expect("a set the test takes");
        assert_eq!(numbers, numbers_by_table(constants, &atoms), "seed {seed}");
        answers[numbers.is_some() as usize] += 1;
        let has_least = atoms.iter().any(|atom| atom.c == limits::LEAST_GROUND_C);
        least[numbers.is_some() as usize] += has_least as usize;
        for number in numbers.unwrap_or_default() {
            ends = [ends[0].min(number), ends[1].max(number)];
        }
    }
    assert!(answers.iter().all(|&count| count > 5_000), "{answers:?}");
    assert!(least.iter().all(|&count| count > 500), "{least:?}");
    assert!(ends[0] < -5_000_000 && ends[1] > 5_000_000, "{ends:?}");
}
