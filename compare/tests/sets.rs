//! The constraint test by itself, as the library `constraint_export` has it: its answer and the numbers of its yes, on random sets of atoms.
//! Chains of bounds lead further from 0 here than those of a file.

use checker::clause::Atom;
use checker::constraint;
use checker::generate::random_set;
use checker::limits;
use checker::random::Random;

const SETS: u64 = 50_000;
/// A number that none comes to
const BLANK: i32 = i32::MIN;

#[link(name = "constraint_export", kind = "static")]
extern "C" {
    fn drf_numbers(
        constants: u8,
        count: u8,
        places: *const u8,
        places_len: usize,
        bounds: *const i32,
        bounds_len: usize,
        numbers: *mut i32,
        numbers_len: usize,
    ) -> u32;
}

/// What the library answers of a set, and the slots of numbers after it
fn told(constants: u8, atoms: &[Atom], slots: usize) -> (u32, Vec<i32>) {
    let places: Vec<u8> = atoms.iter().flat_map(|atom| [atom.p, atom.q]).collect();
    let bounds: Vec<i32> = atoms.iter().map(|atom| atom.c).collect();
    let mut numbers = vec![BLANK; slots];
    let answer = unsafe {
        drf_numbers(
            constants,
            atoms.len() as u8,
            places.as_ptr(),
            places.len(),
            bounds.as_ptr(),
            bounds.len(),
            numbers.as_mut_ptr(),
            slots,
        )
    };
    (answer, numbers)
}

/// The same by the checker: 1 for yes, 0 for no, 256 times the number of a refusal plus its place. Numbers are written where there is a slot
/// for each, and no other slot is.
fn made(constants: u8, atoms: &[Atom], slots: usize) -> (u32, Vec<i32>) {
    let mut numbers = vec![BLANK; slots];
    let answer = match constraint::test(constants.into(), atoms) {
        Ok(Some(found)) => {
            if found.len() <= slots {
                numbers[..found.len()].copy_from_slice(&found);
            }
            1
        }
        Ok(None) => 0,
        Err(refusal) => 256 * u32::from(refusal.number) + refusal.place as u32,
    };
    (answer, numbers)
}

/// Puts a fault into a set now and then: a count above its limit, a place above the constants, both places 0, c out of its range.
fn spoil(random: &mut Random, constants: &mut u8, atoms: &mut Vec<Atom>) {
    if random.percent(3) {
        *constants = random.within(limits::CONSTANTS + 1..=255) as u8;
    }
    if random.percent(3) {
        atoms.resize(random.within(limits::TEST_ATOMS + 1..=255), Atom { p: 1, q: 0, c: 0 });
    }
    for _ in 0..random.pick(&[0, 0, 0, 0, 1, 2]) {
        if atoms.is_empty() {
            return;
        }
        let above = random.within(*constants as usize + 1..=256).min(255) as u8;
        let c = random.pick(&[limits::C, limits::C + 1, limits::C + 2, i32::MAX, i32::MIN]);
        let index = random.below(atoms.len());
        let atom = &mut atoms[index];
        match random.below(4) {
            0 => atom.p = above,
            1 => atom.q = above,
            2 => (atom.p, atom.q) = (0, 0),
            _ => atom.c = random.pick(&[c, c.wrapping_neg()]),
        }
    }
}

#[test]
fn same_on_random_sets() {
    let mut counts = [0; 4];
    let mut least = [0; 2];
    let mut ends = [0, 0];
    for seed in 1..=SETS {
        let random = &mut Random::new(seed);
        let (constants, mut atoms) = random_set(seed);
        let mut constants = constants as u8;
        if random.percent(25) {
            spoil(random, &mut constants, &mut atoms);
        }
        let more = random.within(1..=5);
        for slots in
            [0, constants.saturating_sub(1) as usize, constants.into(), constants as usize + more]
        {
            let (told, made) = (told(constants, &atoms, slots), made(constants, &atoms, slots));
            assert_eq!(told, made, "seed {seed}, {slots} slots: {constants} {atoms:?}");
            match told.0 {
                0 | 1 => {
                    let has_least = atoms.iter().any(|atom| atom.c == limits::LEAST_GROUND_C);
                    counts[told.0 as usize] += 1;
                    least[told.0 as usize] += has_least as usize;
                }
                _ => counts[told.0 as usize / 256 - 1] += 1,
            }
            for number in told.1.into_iter().filter(|&number| number != BLANK) {
                ends = [number.min(ends[0]), number.max(ends[1])];
            }
        }
    }
    println!(
        "no {}, yes {}, refused 3 {}, refused 4 {}",
        counts[0], counts[1], counts[2], counts[3]
    );
    println!("with c -1,000,001: no {}, yes {}", least[0], least[1]);
    println!("numbers from {} to {}", ends[0], ends[1]);
    assert!(counts.iter().all(|&count| count > 500), "{counts:?}");
    assert!(least.iter().all(|&count| count > 500), "{least:?}");
    assert!(ends[0] < -5_000_000 && ends[1] > 5_000_000, "{ends:?}");
}

/// Chains over all constants, each bound at the end of its range: b1 is −16,000,016, or b16 is 16,000,016.
#[test]
fn as_far_as_numbers_come() {
    let far = -limits::LEAST_GROUND_C;
    let chain: Vec<Atom> = (1..16).map(|x| Atom { p: x, q: x + 1, c: -far }).collect();
    let down = [&chain[..], &[Atom { p: 16, q: 0, c: -far }]].concat();
    let up = [&chain[..], &[Atom { p: 0, q: 1, c: -far }]].concat();
    assert_eq!(told(16, &down, 16), (1, (-16..=-1).map(|n| n * far).collect()));
    assert_eq!(told(16, &up, 16), (1, (1..=16).map(|n| n * far).collect()));
}

/// Such chains with zero anywhere in them, bounds near the end of their range, and a few more, by which some are not possible.
#[test]
fn same_on_long_chains() {
    let far = -limits::LEAST_GROUND_C;
    let mut counts = [0; 2];
    for seed in 1..=5_000 {
        let random = &mut Random::new(seed);
        let constants = random.within(1..=16) as u8;
        let mut chain: Vec<u8> = (1..=constants).collect();
        chain.insert(random.below(chain.len() + 1), 0);
        let below = |random: &mut Random| -far + random.pick(&[0, 0, 1, 1_000]);
        let mut atoms: Vec<Atom> = Vec::new();
        for two in chain.windows(2) {
            atoms.push(Atom { p: two[0], q: two[1], c: below(random) });
        }
        for _ in 0..random.pick(&[0, 1, 3]) {
            let first = random.below(chain.len() - 1);
            let two = &chain[first..first + 2];
            // One that goes back over a bound of the chain
            let c = (-below(random)).min(limits::C);
            atoms.push(Atom { p: two[1], q: two[0], c });
        }
        random.shuffle(&mut atoms);
        let slots = constants as usize + random.below(3);
        let told = told(constants, &atoms, slots);
        assert_eq!(told, made(constants, &atoms, slots), "seed {seed}: {constants} {atoms:?}");
        counts[told.0 as usize] += 1;
    }
    println!("no {}, yes {}", counts[0], counts[1]);
    assert!(counts.iter().all(|&count| count > 500), "{counts:?}");
}
