//! Files of a given length, every step of which is accepted: decisions that bring as many atoms as they may, backtracked
//! over again and again, and at the end a conflict without literals and as many Skips as bytes are left.

use super::player::{Moment, Player, Temper};
use crate::clause::{Atom, Clause, Literal};
use crate::file::{step_length, write, RunFile};
use crate::limits;
use crate::random::Random;
use crate::step::Step;

const VERSION: u16 = 2;
/// The most bytes of a decision: rule, clause, literal, sign, instance, and each atom with its instance.
const DECISION: usize = 5 + limits::VARIABLES + limits::BROUGHT * (4 + limits::VARIABLES) + 1;
/// A round has so many decisions at most beside its first.
const DECISIONS: usize = 5;
/// and so many Skips at most.
const SKIPS: usize = 30;
/// The bytes of a round's first decision, its Conflict and its Backtrack.
const ROUND: usize = 9 + 6 + 2;
/// The bytes of a Conflict on a clause without variables.
const CONFLICT: usize = 3;

/// The file of version 2 that has just so many bytes, if there is one.
pub fn long_file(bytes: usize) -> Option<Vec<u8>> {
    let file = file_of_length(&mut Random::new(bytes as u64), bytes)?;
    Some(write(&file).bytes)
}

/// A file of version 2 that has just so many bytes; none where these are too few for its clauses, or too many.
pub fn file_of_length(random: &mut Random, bytes: usize) -> Option<RunFile> {
    let mut file = RunFile {
        version: VERSION,
        constants: limits::CONSTANTS as u8,
        arities: vec![limits::ARITY as u8; limits::PREDICATES],
        clauses: input(random),
        steps: Vec::new(),
    };
    let left = bytes.checked_sub(write(&file).bytes.len() + 2 * DECISION)? + 2 * DECISION;
    let temper = temper(random);
    let mut filler = Filler {
        denied: file.clauses.len() as u8 - 1,
        skips: random.pick(&[0, 3, SKIPS]),
        player: Player::new(random, &temper, file.first_state()),
        left,
        instances: 0,
    };
    filler.fill()?;
    file.steps = filler.player.into_steps();
    Some(file)
}

/// Full clauses, then ¬P8(x, y, z), then the clause without literals.
fn input(random: &mut Random) -> Vec<Clause> {
    let mut clauses: Vec<Clause> =
        (0..random.within(1..=40)).map(|_| full_clause(random)).collect();
    let denial = Literal { positive: false, predicate: 8, arguments: [1, 2, 3] };
    clauses.push(Clause { variables: 3, atoms: Vec::new(), literals: vec![denial] });
    clauses.push(Clause { variables: 0, atoms: Vec::new(), literals: Vec::new() });
    clauses
}

/// Twelve variables with two bounds each, loose or at the end of the range, and eight literals.
fn full_clause(random: &mut Random) -> Clause {
    let mut atoms = Vec::new();
    for variable in 1..=limits::VARIABLES as u8 {
        let [above, below] =
            [0; 2].map(|_| if random.percent(20) { limits::C } else { random.whole(900..=9_000) });
        atoms.push(Atom { p: variable, q: 0, c: above });
        atoms.push(Atom { p: 0, q: variable, c: below });
    }
    let literals = (1..=limits::LITERALS as u8)
        .map(|predicate| Literal {
            positive: random.percent(50),
            predicate: predicate.min(7),
            arguments: [predicate, predicate + 2, predicate + 4],
        })
        .collect();
    Clause { variables: limits::VARIABLES as u8, atoms, literals }
}

/// Of a player who is asked for decisions alone.
fn temper(random: &mut Random) -> Temper {
    Temper {
        steps: limits::STEPS,
        propagate: 0,
        decide: 1,
        conflict: 0,
        grow: 0,
        resolve: 0,
        factorize: 0,
        skip: 0,
        backtrack: 0,
        grow_when_stuck: false,
        grow_most: 1,
        quiet_until: 0,
        newest: 0,
        against: 50,
        brings: 100,
        brought: limits::BROUGHT..=limits::BROUGHT,
        denied: random.pick(&[0, 20, 50]),
        past_refutation: false,
        wish: None,
        moment: Moment::Step(0),
        behind: 0,
    }
}

struct Filler<'a> {
    player: Player<'a>,
    /// So many bytes are still to be filled.
    left: usize,
    /// The number of the clause ¬P8(x, y, z); the next one has no literals.
    denied: u8,
    /// A round skips so many atoms before it backtracks.
    skips: usize,
    /// So many instances of the clause have been taken.
    instances: usize,
}

impl Filler<'_> {
    fn fill(&mut self) -> Option<()> {
        while self.left > 3 * DECISION {
            self.round()?;
        }
        while self.left > DECISION + limits::TRAIL {
            self.decide()?;
        }
        while self.left > CONFLICT + self.player.state().trail.len() {
            self.decide_alone();
        }
        self.take(Step::Conflict { clause: self.denied + 1, instance: Vec::new() });
        while self.left > 0 {
            self.take(Step::Skip);
        }
        Some(())
    }

    fn take(&mut self, step: Step) {
        self.left -= step_length(&step, VERSION);
        self.player.take(step);
    }

    fn decide(&mut self) -> Option<()> {
        let step = self.player.find_decide()?;
        self.take(step);
        Some(())
    }

    /// Decides P8 of constants of which it is not decided yet; the instance.
    fn decide_alone(&mut self) -> Vec<u8> {
        let instance = loop {
            let k = self.instances;
            self.instances += 1;
            let arguments = [k / 256, k / 16, k].map(|digit| (digit % 16) as u8 + 1);
            let literal = Literal { positive: true, predicate: 8, arguments };
            if self.player.state().is_undefined(&literal) {
                break arguments.to_vec();
            }
        };
        self.take(Step::Decide {
            clause: self.denied,
            literal: 1,
            positive: true,
            instance: instance.clone(),
            atoms: Vec::new(),
        });
        instance
    }

    /// A first decision, some that bring atoms, and back over all of them. None where no clause can be learned.
    fn round(&mut self) -> Option<()> {
        if self.player.state().learned.len() == limits::LEARNED_CLAUSES {
            return None;
        }
        let instance = self.decide_alone();
        let first = self.player.state().trail.len();
        let enough = 2 * DECISION + ROUND + SKIPS;
        for _ in 0..DECISIONS {
            if self.left > enough {
                self.decide()?;
            }
        }
        self.take(Step::Conflict { clause: self.denied, instance });
        for _ in 0..self.skips.min(self.player.state().trail.len() - first) {
            self.take(Step::Skip);
        }
        self.take(Step::Backtrack { literal: 1 });
        Some(())
    }
}
