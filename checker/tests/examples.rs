//! The paper's twelve small examples, worked by hand.

mod common;

use checker::clause::Closure;
use checker::constraint::test;
use checker::listing::{inspection, inspection_with_numbers, listing};
use checker::state::{Entry, Origin, State};
use common::*;

const A: u8 = 1;
const B: u8 = 2;
const C: u8 = 3;

#[test]
fn e1_no_constants_no_atoms() {
    assert_eq!(test(0, &[]), yes(&[]));
}

#[test]
fn e2_three_constants_between_1_and_2() {
    assert_eq!(test(3, &[at_least(A, 1), at_most(C, 2)]), Ok(None));
}

#[test]
fn e3_two_constants_between_1_and_2() {
    assert_eq!(test(2, &[at_least(A, 1), at_most(B, 2)]), yes(&[1, 2]));
}

#[test]
fn e4_the_order_is_strict() {
    assert_eq!(test(2, &[at_least(A, 5), at_most(B, 5)]), Ok(None));
}

#[test]
fn e5_a_place_and_itself() {
    assert_eq!(test(1, &[atom(A, A, -1)]), Ok(None));
    assert_eq!(test(1, &[atom(A, A, 0)]), yes(&[0]));
}

#[test]
fn e6_a_difference_between_bounds() {
    assert_eq!(test(2, &[atom(A, B, -4), at_least(A, 0), at_most(B, 3)]), Ok(None));
    assert_eq!(test(2, &[atom(A, B, -4), at_least(A, 0), at_most(B, 4)]), yes(&[0, 4]));
}

#[test]
fn e7_the_run() {
    let lines = "1 propagate 2 0\n2 conflict 2 0\n3 skip 1 0\n4 resolve 1 0\nrefuted\n";
    assert_eq!(listing(&EXAMPLE), lines);
    let last = "constants 1 level 0\n\
                trail 1 P1(1) propagate 1 1 (1)\n\
                clause 1 1 [1-0<=10] P1(1)\n\
                clause 2 1 [0-1<=-3] ~P1(1)\n\
                conflict 1 [0-1<=-3 1-0<=10] at (1)\n";
    assert_eq!(inspection(&EXAMPLE), lines.to_string() + last);
    let lines = "1 propagate 2 0\nnumbers 0\n2 conflict 2 0\nnumbers 3\n3 skip 1 0\n4 resolve 1 0\nrefuted\n";
    assert_eq!(inspection_with_numbers(&EXAMPLE), lines.to_string() + last);
}

#[test]
fn e8_the_reason_of_a_propagated_literal() {
    // P(x) ∨ P(y) ∨ Q(z)
    let input = clause(3, &[], &[literal(1, &[1]), literal(1, &[2]), literal(2, &[3])]);
    let mut state = state(1, &[1, 1], &[input]);
    accept(&mut state, &[decide(1, 3, false, &[A, A, A]), propagate(1, 1, &[A, A, A])]);
    let Some(Entry::Foreground(own, origin)) = state.trail.last() else { panic!("no literal") };
    assert_eq!(*own, literal(1, &[A]));
    let (reason, number) = state.reason(origin);
    // P(x) ∨ Q(z), two variables
    let expected = clause(2, &[], &[literal(1, &[1]), literal(2, &[2])]);
    assert_eq!(reason, Closure { clause: expected, instance: vec![A, A] });
    assert_eq!(number, 1);
}

#[test]
fn e9_factorize() {
    // x ≥ 3, y ≥ 3 ∥ ¬P(x) ∨ ¬P(y)
    let atoms = [at_least(1, 3), at_least(2, 3)];
    let input = clause(2, &atoms, &[literal(-1, &[1]), literal(-1, &[2])]);
    let mut state = state(1, &[1], &[input]);
    let steps = [decide(1, 1, true, &[A, A]), conflict(1, &[A, A]), factorize(1, 2)];
    accept(&mut state, &steps);
    // one atom, one literal
    let expected = clause(1, &[at_least(1, 3)], &[literal(-1, &[1])]);
    assert_eq!(state.conflict, Some(Closure { clause: expected, instance: vec![A] }));
}

/// ¬P(x) ∨ Q(x) and ¬P(x) ∨ ¬Q(x): Decide P(a), Propagate Q(a), Conflict on the second, Resolve.
fn resolved() -> State {
    let first = clause(1, &[], &[literal(-1, &[1]), literal(2, &[1])]);
    let second = clause(1, &[], &[literal(-1, &[1]), literal(-2, &[1])]);
    let mut state = state(1, &[1, 1], &[first, second]);
    let steps = [decide(1, 1, true, &[A]), propagate(1, 2, &[A]), conflict(2, &[A]), resolve(2)];
    accept(&mut state, &steps);
    state
}

#[test]
fn e10_resolve_leaves_two_literals() {
    let mut state = resolved();
    let expected = clause(1, &[], &[literal(-1, &[1]), literal(-1, &[1])]);
    assert_eq!(state.conflict, Some(Closure { clause: expected, instance: vec![A] }));
    assert_eq!(state.trail.len(), 2);
    refuse(&mut state, backtrack(1), 15);
}

#[test]
fn e11_factorize_skip_and_no_further() {
    let mut state = resolved();
    accept(&mut state, &[factorize(1, 2), SKIP]);
    refuse(&mut state, SKIP, 15);
    refuse(&mut state, resolve(1), 14);
}

#[test]
fn e12_backtrack() {
    let mut state = resolved();
    accept(&mut state, &[factorize(1, 2), SKIP, backtrack(1)]);
    let origin = Origin { decision: false, clause: 3, literal: 1, instance: vec![A], brought: 0 };
    assert_eq!(state.trail, [Entry::Foreground(literal(-1, &[A]), origin)]);
    assert_eq!(state.level, 0);
    assert_eq!(state.learned, [clause(1, &[], &[literal(-1, &[1])])]);
    assert_eq!(state.clause(3), Some(&clause(1, &[], &[literal(-1, &[1])])));
    assert_eq!(state.conflict, None);
}
