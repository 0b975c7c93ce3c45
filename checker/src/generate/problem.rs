//! Random input: constants, predicates and clauses within the class.

use crate::clause::{Atom, Clause, Literal};
use crate::limits;
use crate::random::Random;
use crate::state::State;
use std::ops::RangeInclusive;

/// What the input looks like.
#[derive(Clone, Debug)]
pub struct Shape {
    pub constants: RangeInclusive<usize>,
    pub predicates: RangeInclusive<usize>,
    pub arities: RangeInclusive<usize>,
    pub clauses: RangeInclusive<usize>,
    pub literals: RangeInclusive<usize>,
    pub atoms: RangeInclusive<usize>,
    /// At most so many variables in a clause.
    pub variables: usize,
    /// How often, of a hundred, an argument is a variable that is there already.
    pub reuse: usize,
    /// How often, of a hundred, a clause has no atoms.
    pub without_atoms: usize,
    /// How often, of a hundred, an atom is a difference.
    pub differences: usize,
    /// How often, of a hundred, an atom or literal is repeated.
    pub repeats: usize,
    /// How far from 0 bounds lie.
    pub reach: i32,
    /// How often, of a hundred, the bounds of a variable lie close together.
    pub tight: usize,
    /// How often, of a hundred, a literal is false in a fixed reading.
    pub leaning: usize,
    /// Whether each clause has a literal true in the fixed reading, so that nothing is refuted.
    pub satisfiable: bool,
}

/// The first state of that version over random input of that shape.
pub fn first_state(random: &mut Random, version: u16, shape: &Shape) -> State {
    let constants = random.within(shape.constants.clone());
    let predicates = random.within(shape.predicates.clone());
    let arities: Vec<u8> =
        (0..predicates).map(|_| random.within(shape.arities.clone()) as u8).collect();
    // In the fixed reading a predicate holds everywhere or nowhere.
    let reading: Vec<bool> = (0..predicates).map(|_| random.percent(50)).collect();
    let clauses = random.within(shape.clauses.clone());
    let input = (0..clauses).map(|_| clause(random, shape, &arities, &reading)).collect();
    State::first(version, constants, arities, input)
}

fn clause(random: &mut Random, shape: &Shape, arities: &[u8], reading: &[bool]) -> Clause {
    let mut builder = Builder::new(random, shape);
    builder.add_literals(arities, reading);
    if shape.satisfiable {
        builder.satisfy(reading);
    }
    if shape.variables > 0 && !builder.random.percent(shape.without_atoms) {
        builder.add_atoms();
    }
    builder.finish()
}

struct Builder<'a> {
    random: &'a mut Random,
    shape: &'a Shape,
    clause: Clause,
}

impl<'a> Builder<'a> {
    fn new(random: &'a mut Random, shape: &'a Shape) -> Builder<'a> {
        let clause = Clause { variables: 0, atoms: Vec::new(), literals: Vec::new() };
        Builder { random, shape, clause }
    }

    /// A variable for an argument or atom: one that is there, or a new one where there is room.
    fn variable(&mut self) -> u8 {
        let there = self.clause.variables;
        let room = (there as usize) < self.shape.variables;
        if there > 0 && (!room || self.random.percent(self.shape.reuse)) {
            return self.random.within(1..=there as usize) as u8;
        }
        self.clause.variables += 1;
        self.clause.variables
    }

    fn add_literals(&mut self, arities: &[u8], reading: &[bool]) {
        if arities.is_empty() {
            return;
        }
        for _ in 0..self.random.within(self.shape.literals.clone()) {
            if !self.clause.literals.is_empty() && self.random.percent(self.shape.repeats) {
                self.repeat_literal(arities);
                continue;
            }
            let index = self.random.below(arities.len());
            let leaning = self.random.percent(self.shape.leaning);
            let positive = reading[index] != leaning;
            self.add_literal(index as u8 + 1, positive, arities[index]);
        }
    }

    fn add_literal(&mut self, predicate: u8, positive: bool, arity: u8) {
        let mut arguments = [0; limits::ARITY];
        for argument in &mut arguments[..arity as usize] {
            *argument = self.variable();
        }
        self.clause.literals.push(Literal { positive, predicate, arguments });
    }

    /// A literal with sign and predicate of an earlier one, often with other variables.
    fn repeat_literal(&mut self, arities: &[u8]) {
        let earlier = self.random.pick(&self.clause.literals);
        if self.random.percent(25) {
            self.clause.literals.push(earlier);
        } else {
            let arity = arities[earlier.predicate as usize - 1];
            self.add_literal(earlier.predicate, earlier.positive, arity);
        }
    }

    /// Makes one literal true in the fixed reading.
    fn satisfy(&mut self, reading: &[bool]) {
        let holds = |literal: &Literal| reading[literal.predicate as usize - 1] == literal.positive;
        if !self.clause.literals.iter().any(holds) && !self.clause.literals.is_empty() {
            let index = self.random.below(self.clause.literals.len());
            let literal = &mut self.clause.literals[index];
            literal.positive = !literal.positive;
        }
    }

    fn room_for_atoms(&self, atoms: usize) -> bool {
        self.clause.atoms.len() + atoms <= limits::ATOMS
    }

    fn add_atoms(&mut self) {
        let wanted = self.random.within(self.shape.atoms.clone());
        while self.clause.atoms.len() < wanted {
            if !self.clause.atoms.is_empty() && self.random.percent(self.shape.repeats) {
                let earlier = self.random.pick(&self.clause.atoms);
                self.clause.atoms.push(earlier);
            } else if self.random.percent(self.shape.differences) && self.room_for_atoms(5) {
                self.add_difference();
            } else {
                self.add_bound();
            }
        }
    }

    /// One bound, or both where there is room, of a variable.
    fn add_bound(&mut self) {
        let variable = self.variable();
        let (least, most) = self.interval();
        let lower = Atom { p: 0, q: variable, c: -least };
        let upper = Atom { p: variable, q: 0, c: most };
        match self.random.below(3) {
            0 => self.clause.atoms.push(lower),
            1 => self.clause.atoms.push(upper),
            _ if self.room_for_atoms(2) => self.clause.atoms.extend([lower, upper]),
            _ => self.clause.atoms.push(upper),
        }
    }

    /// A difference with the bounds its variables need.
    fn add_difference(&mut self) {
        let (x, y) = (self.variable(), self.variable());
        let reach = self.shape.reach;
        let c = self.random.whole(-reach / 2..=reach);
        for variable in [x, y] {
            let (least, most) = self.interval();
            self.add_unless_bounded(variable, least, most);
        }
        self.clause.atoms.push(Atom { p: x, q: y, c });
    }

    fn add_unless_bounded(&mut self, variable: u8, least: i32, most: i32) {
        if !self.clause.atoms.iter().any(|atom| atom.bounds_below(variable)) {
            self.clause.atoms.push(Atom { p: 0, q: variable, c: -least });
        }
        if !self.clause.atoms.iter().any(|atom| atom.bounds_above(variable)) {
            self.clause.atoms.push(Atom { p: variable, q: 0, c: most });
        }
    }

    /// A least and a most number for a variable.
    fn interval(&mut self) -> (i32, i32) {
        let reach = self.shape.reach;
        let (least, most) = if self.random.percent(self.shape.tight) {
            let least = self.random.whole(-reach..=reach);
            (least, least + self.random.whole(-1..=3))
        } else {
            let middle = self.random.whole(-reach / 4..=reach / 4);
            (
                middle - self.random.whole(reach / 2..=reach),
                middle + self.random.whole(reach / 2..=reach),
            )
        };
        (least.clamp(-limits::C, limits::C), most.clamp(-limits::C, limits::C))
    }

    /// The clause with its variables numbered and its atoms ordered at random.
    fn finish(self) -> Clause {
        let Clause { variables, mut atoms, literals } = self.clause;
        let mut numbers: Vec<u8> = (1..=variables).collect();
        self.random.shuffle(&mut numbers);
        self.random.shuffle(&mut atoms);
        Clause {
            variables,
            atoms: atoms.iter().map(|atom| atom.at(&numbers)).collect(),
            literals: literals.iter().map(|literal| literal.at(&numbers)).collect(),
        }
    }
}
