//! The numbers that steps hand on, and the lines that show them.

mod common;

use checker::clause::Clause;
use checker::file::{write, RunFile};
use checker::listing::{inspection, inspection_with_numbers};
use checker::state::State;
use checker::step::Step;
use common::*;

const A: u8 = 1;
const B: u8 = 2;

/// x ≥ 3 ∥ P(x); x ≤ 10, y ≥ 6 ∥ ¬P(x) ∨ ¬Q(y); y ≥ 20 ∥ ¬Q(y) ∨ R(y)
fn input() -> Vec<Clause> {
    vec![
        clause(1, &[at_least(1, 3)], &[literal(1, &[1])]),
        clause(2, &[at_most(1, 10), at_least(2, 6)], &[literal(-1, &[1]), literal(-2, &[2])]),
        clause(1, &[at_least(1, 20)], &[literal(-2, &[1]), literal(3, &[1])]),
    ]
}

/// P(a), Q(b) decided, R(b), the second clause as conflict, ¬Q(b) learned.
fn steps() -> Vec<Step> {
    vec![
        propagate(1, 1, &[A]),
        decide(2, 2, true, &[A, B]),
        propagate(3, 2, &[B]),
        conflict(2, &[A, B]),
        SKIP,
        backtrack(2),
    ]
}

/// The steps as a file, with three predicates of that arity
fn file(constants: u8, arity: u8, clauses: Vec<Clause>, steps: Vec<Step>) -> Vec<u8> {
    write(&RunFile { version: 1, constants, arities: vec![arity; 3], clauses, steps }).bytes
}

#[test]
fn propagate_decide_conflict_and_backtrack_hand_numbers_on() {
    let mut state = State::first(1, 2, vec![1; 3], input());
    let handed: Vec<_> = steps().iter().map(|step| state.take(step)).collect();
    // a ≥ 3: b is 0, a −1 and zero −4.
    assert_eq!(handed[0], yes(&[3, 4]));
    // The decision brings nothing: the numbers of the trail.
    assert_eq!(handed[1], yes(&[3, 4]));
    // and b ≥ 20: b is 0, a −1 and zero −20.
    assert_eq!(handed[2], yes(&[19, 20]));
    // and a ≤ 10, b ≥ 6: b is 0, zero −20 and a −10.
    assert_eq!(handed[3], yes(&[10, 20]));
    assert_eq!(handed[4], Ok(None));
    // b ≥ 20 is gone: b is 0, a −1 and zero −6.
    assert_eq!(handed[5], yes(&[5, 6]));
}

#[test]
fn other_rules_hand_none_on() {
    // P(x) ∨ P(y), ¬P(x) ∨ ¬P(y)
    let two = |sign: i8| clause(2, &[], &[literal(sign, &[1]), literal(sign, &[2])]);
    let mut state = state(1, &[1], &[two(1), two(-1)]);
    let steps = [
        (grow(1), Ok(None)),
        (propagate(1, 1, &[A, A]), yes(&[-1, 0])),
        (decide(1, 1, true, &[B, B]), yes(&[-1, 0])),
        (conflict(2, &[A, A]), yes(&[-1, 0])),
        (SKIP, Ok(None)),
        (factorize(1, 2), Ok(None)),
        (resolve(1), Ok(None)),
    ];
    for (step, handed) in steps {
        assert_eq!(state.take(&step), handed, "{step:?}");
    }
}

#[test]
fn a_line_after_each_step_that_hands_numbers_on() {
    let text = inspection_with_numbers(&file(2, 1, input(), steps()));
    let lines = "1 propagate 2 0\n\
                 numbers 3 4\n\
                 2 decide 3 1\n\
                 numbers 3 4\n\
                 3 propagate 5 1\n\
                 numbers 19 20\n\
                 4 conflict 5 1\n\
                 numbers 10 20\n\
                 5 skip 4 1\n\
                 6 backtrack 5 0\n\
                 numbers 5 6\n\
                 open\n\
                 constants 2 level 0\n";
    assert_eq!(&text[..lines.len()], lines);
}

#[test]
fn no_line_after_a_refused_step() {
    // P(a) twice: refused 11. b ≤ 3 and a ≥ 3: refused 13.
    let denial = clause(1, &[at_most(1, 3)], &[literal(2, &[1])]);
    let twice = [propagate(1, 1, &[A]), propagate(1, 1, &[A])];
    let not_possible = [propagate(1, 1, &[A]), propagate(2, 1, &[B])];
    for (steps, number) in [(twice, 11), (not_possible, 13)] {
        let bytes = file(2, 1, vec![input().remove(0), denial.clone()], steps.to_vec());
        let text = inspection_with_numbers(&bytes);
        let lines = format!(
            "1 propagate 2 0\nnumbers 3 4\n2 propagate refused {number}\nstopped\nconstants"
        );
        assert_eq!(&text[..lines.len()], lines);
    }
}

#[test]
fn with_no_constants_the_line_is_just_the_word() {
    let input = vec![
        clause(0, &[], &[literal(1, &[])]),
        clause(0, &[], &[literal(-1, &[]), literal(-2, &[])]),
    ];
    let steps = vec![decide(2, 2, true, &[]), propagate(1, 1, &[]), conflict(2, &[]), backtrack(1)];
    let text = inspection_with_numbers(&file(0, 0, input.clone(), steps.clone()));
    let lines = "1 decide 1 1\nnumbers\n2 propagate 2 1\nnumbers\n3 conflict 2 1\nnumbers\n4 backtrack refused 16\nstopped\n";
    assert_eq!(&text[..lines.len()], lines);
    let steps = vec![propagate(1, 1, &[]), decide(2, 2, true, &[]), conflict(2, &[]), backtrack(2)];
    let text = inspection_with_numbers(&file(0, 0, input, steps));
    let lines = "1 propagate 1 0\nnumbers\n2 decide 2 1\nnumbers\n3 conflict 2 1\nnumbers\n4 backtrack 2 0\nnumbers\nopen\n";
    assert_eq!(&text[..lines.len()], lines);
}

#[test]
fn a_bad_file_has_no_further_line() {
    for bytes in [&b"DR"[..], &EXAMPLE[..46]] {
        assert_eq!(inspection_with_numbers(bytes), inspection(bytes));
    }
}
