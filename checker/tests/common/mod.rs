//! Short ways to write clauses, states and the paper's example.
#![allow(dead_code)]

use checker::clause::{Atom, Clause, Literal};
use checker::constraint::Numbers;
use checker::refusal::Refusal;
use checker::state::State;
use checker::step::{Source, Step};

/// The paper's example: "Input, 47 bytes, one constant, P of arity 1, x ≤ 10 ∥ P(x) and
/// x ≥ 3 ∥ ¬P(x)".
pub const EXAMPLE: [u8; 47] = [
    0x44, 0x52, 0x46, 0x01, 0x00, 0x01, 0x01, 0x01, 0x02, 0x01, 0x01, 0x01, 0x01, 0x00, 0x0A, 0x00,
    0x00, 0x00, 0x01, 0x01, 0x01, 0x01, 0x01, 0x01, 0x00, 0x01, 0xFD, 0xFF, 0xFF, 0xFF, 0x00, 0x01,
    0x01, 0x04, 0x00, 0x01, 0x01, 0x01, 0x01, 0x01, 0x03, 0x02, 0x01, 0x01, 0x06, 0x04, 0x01,
];

pub fn atom(p: u8, q: u8, c: i32) -> Atom {
    Atom { p, q, c }
}

/// x ≤ c
pub fn at_most(x: u8, c: i32) -> Atom {
    atom(x, 0, c)
}

/// x ≥ c
pub fn at_least(x: u8, c: i32) -> Atom {
    atom(0, x, -c)
}

/// The constraint test's yes, with its numbers
pub fn yes(numbers: &[i32]) -> Result<Option<Numbers>, Refusal> {
    Ok(Some(numbers.to_vec()))
}

/// A literal: the predicate's number, negative for a negative literal, and its arguments.
pub fn literal(predicate: i8, arguments: &[u8]) -> Literal {
    let mut slots = [0; 3];
    slots[..arguments.len()].copy_from_slice(arguments);
    Literal { positive: predicate > 0, predicate: predicate.unsigned_abs(), arguments: slots }
}

pub fn clause(variables: u8, atoms: &[Atom], literals: &[Literal]) -> Clause {
    Clause { variables, atoms: atoms.to_vec(), literals: literals.to_vec() }
}

/// A first state of version 1
pub fn state(constants: usize, arities: &[u8], input: &[Clause]) -> State {
    State::first(1, constants, arities.to_vec(), input.to_vec())
}

/// A first state of version 2
pub fn state_2(constants: usize, arities: &[u8], input: &[Clause]) -> State {
    State::first(2, constants, arities.to_vec(), input.to_vec())
}

pub fn propagate(clause: u8, literal: u8, instance: &[u8]) -> Step {
    Step::Propagate { clause, literal, instance: instance.to_vec() }
}

pub fn decide(clause: u8, literal: u8, positive: bool, instance: &[u8]) -> Step {
    decide_with(clause, literal, positive, instance, &[])
}

/// A decision that brings atoms
pub fn decide_with(
    clause: u8,
    literal: u8,
    positive: bool,
    instance: &[u8],
    atoms: &[Source],
) -> Step {
    let (instance, atoms) = (instance.to_vec(), atoms.to_vec());
    Step::Decide { clause, literal, positive, instance, atoms }
}

/// An atom of a clause as it stands
pub fn stands(clause: u8, number: u8, instance: &[u8]) -> Source {
    Source { clause, number, stands: true, instance: instance.to_vec() }
}

/// An atom of a clause denied
pub fn denied(clause: u8, number: u8, instance: &[u8]) -> Source {
    Source { clause, number, stands: false, instance: instance.to_vec() }
}

pub fn conflict(clause: u8, instance: &[u8]) -> Step {
    Step::Conflict { clause, instance: instance.to_vec() }
}

pub fn resolve(literal: u8) -> Step {
    Step::Resolve { literal }
}

pub fn factorize(first: u8, second: u8) -> Step {
    Step::Factorize { first, second }
}

pub const SKIP: Step = Step::Skip;

pub fn backtrack(literal: u8) -> Step {
    Step::Backtrack { literal }
}

pub fn grow(count: u8) -> Step {
    Step::Grow { count }
}

/// Takes steps that must all be accepted.
pub fn accept(state: &mut State, steps: &[Step]) {
    for step in steps {
        assert_eq!(state.take(step).err(), None, "{step:?}");
    }
}

/// A step must be refused by that number, with that place, and leave the state as it was.
pub fn refuse_at(state: &mut State, step: Step, number: u8, place: usize) {
    let before = state.clone();
    assert_eq!(state.take(&step), Err(Refusal { number, place }), "{step:?}");
    assert_eq!(*state, before);
}

/// A step must be refused by that number, place 0, and leave the state as it was.
pub fn refuse(state: &mut State, step: Step, number: u8) {
    refuse_at(state, step, number, 0);
}
