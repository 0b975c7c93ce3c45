//! Sets of atoms to time the constraint test on: 16 constants; 40, 80, 160 and 184 atoms; possible and impossible sets, from a fixed seed.

pub const CONSTANTS: usize = 16;
pub const PLACES: usize = CONSTANTS + 1;
const SETS: usize = 64;

/// Atoms as the exported test takes them: p and q by turns, and the c of each.
pub struct Set {
    pub places: Vec<u8>,
    pub bounds: Vec<i32>,
}

/// What a row of times is of: sets of so many atoms, all possible or all impossible
pub struct Row {
    pub possible: bool,
    pub count: usize,
    pub sets: Vec<Set>,
}

pub fn rows() -> Vec<Row> {
    let mut dice = Dice(0x5c17_0001);
    let mut rows = Vec::new();
    for count in [40, 80, 160, 184] {
        for possible in [true, false] {
            let sets = (0..SETS).map(|_| set(&mut dice, count, possible)).collect();
            rows.push(Row { possible, count, sets });
        }
    }
    rows
}

/// Numbers from a fixed seed (xorshift).
struct Dice(u64);

impl Dice {
    fn below(&mut self, n: u64) -> u64 {
        self.0 ^= self.0 << 13;
        self.0 ^= self.0 >> 7;
        self.0 ^= self.0 << 17;
        self.0 % n
    }

    fn place(&mut self) -> usize {
        self.below(PLACES as u64) as usize
    }
}

/// Atoms that hold of rising numbers; in an impossible set two of them, at random places, contradict each other by 1.
fn set(dice: &mut Dice, count: usize, possible: bool) -> Set {
    let mut value = [0i64; PLACES];
    let mut next = -(dice.below(400_000) as i64);
    for v in value.iter_mut().skip(1) {
        *v = next;
        next += 1 + dice.below(40_000) as i64;
    }
    let mut atoms = Vec::new();
    for _ in 0..count {
        let p = dice.place();
        let q = (p + 1 + dice.below(PLACES as u64 - 1) as usize) % PLACES;
        atoms.push((p, q, value[p] - value[q] + dice.below(100_000) as i64));
    }
    if !possible {
        let a = dice.below(count as u64) as usize;
        let b = (a + 1 + dice.below(count as u64 - 1) as usize) % count;
        let (p, q, c) = atoms[a];
        atoms[b] = (q, p, -c - 1);
    }
    Set {
        places: atoms.iter().flat_map(|&(p, q, _)| [p as u8, q as u8]).collect(),
        bounds: atoms.iter().map(|&(_, _, c)| c as i32).collect(),
    }
}
