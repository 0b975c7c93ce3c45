//! The rules and their refusals, worked by hand.

mod common;

use checker::clause::{Atom, Clause, Closure, Literal};
use checker::listing::{final_state, try_steps, Verdict};
use checker::state::{Entry, Origin, State};
use checker::step::Step;
use common::*;

fn closure(clause: Clause, instance: &[u8]) -> Option<Closure> {
    Some(Closure { clause, instance: instance.to_vec() })
}

fn propagated(own: Literal, clause: u8, literal: u8, instance: &[u8]) -> Entry {
    let instance = instance.to_vec();
    Entry::Foreground(own, Origin { decision: false, clause, literal, instance, brought: 0 })
}

fn atoms_of(trail: &[Entry]) -> Vec<Atom> {
    trail.iter().filter_map(Entry::atom).copied().collect()
}

// Propagate

#[test]
fn propagate_appends_the_literal_then_new_atoms_in_clause_order_each_once() {
    let atoms = [at_most(1, 9), at_least(2, 0), at_most(2, 9), at_least(1, 0), at_most(1, 9)];
    let first = clause(1, &[at_least(1, 0)], &[literal(2, &[1])]);
    let second = clause(2, &atoms, &[literal(1, &[1, 2])]);
    let mut state = state(2, &[2, 1], &[first, second]);
    accept(&mut state, &[propagate(1, 1, &[1]), propagate(2, 1, &[1, 1])]);
    let expected = [
        propagated(literal(2, &[1]), 1, 1, &[1]),
        Entry::Background(at_least(1, 0), None),
        propagated(literal(1, &[1, 1]), 2, 1, &[1, 1]),
        Entry::Background(at_most(1, 9), None),
    ];
    assert_eq!(state.trail, expected);
    assert_eq!(state.level, 0);
}

#[test]
fn propagate_asks_only_literals_with_another_instance() {
    let literals =
        [literal(1, &[1]), literal(1, &[2]), literal(-2, &[3]), literal(2, &[3]), literal(1, &[1])];
    let mut state = state(2, &[1, 1], &[clause(3, &[], &literals)]);
    refuse_at(&mut state, propagate(1, 2, &[1, 1, 1]), 12, 3);
    refuse_at(&mut state, propagate(1, 2, &[1, 2, 1]), 12, 1);
    accept(&mut state, &[decide(1, 3, true, &[1, 1, 1])]);
    refuse_at(&mut state, propagate(1, 2, &[1, 1, 1]), 12, 4);
    // L itself must be undefined, before 12 is asked.
    refuse(&mut state, propagate(1, 3, &[1, 2, 1]), 11);
    refuse(&mut state, propagate(1, 4, &[1, 2, 1]), 11);
}

#[test]
fn propagate_reads_another_instance_with_the_sign() {
    let mut state = state(1, &[1], &[clause(2, &[], &[literal(1, &[1]), literal(-1, &[2])])]);
    refuse_at(&mut state, propagate(1, 1, &[1, 1]), 12, 2);
    refuse_at(&mut state, propagate(1, 2, &[1, 1]), 12, 1);
}

#[test]
fn propagate_tests_trail_and_clause_atoms_together() {
    let first = clause(1, &[at_least(1, 5)], &[literal(1, &[1])]);
    let second = clause(1, &[at_most(1, 5)], &[literal(2, &[1])]);
    let mut state = state(2, &[1, 1], &[first, second]);
    accept(&mut state, &[propagate(1, 1, &[1])]);
    // a ≥ 5 and a ≤ 5 are possible together, a ≥ 5 and b ≤ 5 are not
    refuse(&mut state, propagate(2, 1, &[2]), 13);
    accept(&mut state, &[propagate(2, 1, &[1])]);
}

#[test]
fn propagate_counts_the_entries_really_appended() {
    // 159 entries: 12 constants and P of arity 2.
    let unit = clause(2, &[], &[literal(1, &[1, 2])]);
    let atoms = [at_most(1, 500), at_most(2, 500)];
    let bounded = clause(2, &atoms, &[literal(1, &[1, 2])]);
    let mut state = state(16, &[2], &[unit, bounded]);
    let instances = (1..=16u8).flat_map(|x| (1..=16u8).map(move |y| [x, y]));
    let filling: Vec<Step> = instances.take(158).map(|i| propagate(1, 1, &i)).collect();
    accept(&mut state, &filling);
    refuse(&mut state, propagate(2, 1, &[16, 15]), 18);
    // The two atoms are one here, and so there is room.
    accept(&mut state, &[propagate(2, 1, &[16, 16])]);
    assert_eq!(state.trail.len(), 160);
    refuse(&mut state, propagate(1, 1, &[16, 14]), 18);
    refuse(&mut state, decide(1, 1, false, &[16, 14]), 18);
    refuse(&mut state, decide(1, 1, false, &[16, 16]), 11);
    refuse(&mut state, grow(1), 18);
}

#[test]
fn propagate_names_clause_literal_and_constants() {
    let mut state = state(2, &[1], &[clause(1, &[], &[literal(1, &[1])])]);
    for step in [
        propagate(0, 1, &[1]),
        propagate(2, 1, &[1]),
        propagate(1, 0, &[1]),
        propagate(1, 2, &[1]),
        propagate(1, 1, &[]),
        propagate(1, 1, &[1, 1]),
        propagate(1, 1, &[0]),
        propagate(1, 1, &[3]),
    ] {
        refuse(&mut state, step, 10);
    }
}

// Decide

#[test]
fn decide_takes_the_sign_given_and_no_atoms() {
    // The clause's atoms are impossible for every instance; Decide does not look at them.
    let atoms = [at_most(1, 0), at_least(1, 1)];
    let mut state = state(2, &[1], &[clause(1, &atoms, &[literal(1, &[1])])]);
    accept(&mut state, &[decide(1, 1, false, &[1]), decide(1, 1, true, &[2])]);
    let text = "constants 2 level 2\n\
                trail 1 ~P1(1) decide 1 1 (1)\n\
                trail 2 P1(2) decide 1 1 (2)\n\
                clause 1 1 [1-0<=0 0-1<=-1] P1(1)\n\
                conflict none\n";
    assert_eq!(final_state(&state), text);
    refuse(&mut state, decide(1, 1, true, &[1]), 11);
    refuse(&mut state, decide(1, 1, false, &[1]), 11);
    refuse(&mut state, decide(1, 2, false, &[1]), 10);
    refuse(&mut state, decide(1, 1, false, &[]), 10);
}

// Conflict

#[test]
fn conflict_keeps_the_clause_as_it_is_and_backtrack_learns_it_so() {
    let atoms = [at_most(1, 9), at_most(1, 9), at_most(2, 9)];
    let doubled = clause(2, &atoms, &[literal(-1, &[1]), literal(-2, &[2])]);
    let mut state = state(1, &[1, 1], std::slice::from_ref(&doubled));
    accept(&mut state, &[decide(1, 1, true, &[1, 1])]);
    refuse_at(&mut state, conflict(1, &[1, 1]), 12, 2);
    accept(&mut state, &[decide(1, 2, true, &[1, 1]), conflict(1, &[1, 1])]);
    assert_eq!(state.conflict, closure(doubled.clone(), &[1, 1]));
    assert_eq!((state.trail.len(), state.level), (2, 2));
    accept(&mut state, &[backtrack(2)]);
    assert_eq!(state.learned, [doubled]);
    // One atom is appended, though the learned clause has three: all have the same instance.
    assert_eq!(state.trail.len(), 3);
    assert_eq!(state.trail[1], propagated(literal(-2, &[1]), 2, 2, &[1, 1]));
    assert_eq!(atoms_of(&state.trail), [at_most(1, 9)]);
    assert_eq!(state.level, 1);
}

#[test]
fn conflict_with_impossible_atoms_is_none() {
    let first = clause(1, &[at_least(1, 3)], &[literal(1, &[1])]);
    let second = clause(1, &[at_most(1, 2)], &[literal(-1, &[1])]);
    let mut state = state(1, &[1], &[first, second]);
    accept(&mut state, &[propagate(1, 1, &[1])]);
    refuse(&mut state, conflict(2, &[1]), 13);
}

// Resolve

#[test]
fn resolve_renames_apart_and_keeps_the_order() {
    // reason: Q(x) ∨ P(y, x), y ≤ 4, x ≤ 7; conflict: ¬P(x, y) ∨ R(y), x ≥ 0, y ≤ 7
    let reason =
        clause(2, &[at_most(2, 4), at_most(1, 7)], &[literal(2, &[1]), literal(1, &[2, 1])]);
    let other =
        clause(2, &[at_least(1, 0), at_most(2, 7)], &[literal(-1, &[1, 2]), literal(3, &[2])]);
    let mut state = state(2, &[2, 1, 1], &[reason, other]);
    let steps = [
        decide(1, 1, false, &[2, 1]),
        decide(2, 2, false, &[1, 2]),
        propagate(1, 2, &[2, 1]),
        conflict(2, &[1, 2]),
    ];
    accept(&mut state, &steps);
    refuse(&mut state, resolve(1), 14);
    accept(&mut state, &[SKIP, SKIP]);
    refuse(&mut state, resolve(2), 15);
    accept(&mut state, &[resolve(1)]);
    // x is the reason's y, y the reason's x; the reason's x ≤ 7 equals the conflict's y ≤ 7.
    let expected = clause(
        2,
        &[at_least(1, 0), at_most(2, 7), at_most(1, 4)],
        &[literal(3, &[2]), literal(2, &[2])],
    );
    assert_eq!(state.conflict, closure(expected, &[1, 2]));
    assert_eq!(state.trail.len(), 3);
}

#[test]
fn resolve_keeps_variables_apart_that_do_not_meet() {
    // reason: P(x) ∨ Q(y, z); conflict: ¬P(y) ∨ R(x, y)
    let reason = clause(3, &[], &[literal(1, &[1]), literal(2, &[2, 3])]);
    let other = clause(2, &[], &[literal(-1, &[2]), literal(3, &[1, 2])]);
    let mut state = state(1, &[1, 2, 2], &[reason, other]);
    let steps = [
        decide(1, 2, false, &[1, 1, 1]),
        decide(2, 2, false, &[1, 1]),
        propagate(1, 1, &[1, 1, 1]),
        conflict(2, &[1, 1]),
        resolve(1),
    ];
    accept(&mut state, &steps);
    // x and y of the conflict are 1 and 2, y and z of the reason close up to 3 and 4.
    let expected = clause(4, &[], &[literal(3, &[1, 2]), literal(2, &[3, 4])]);
    assert_eq!(state.conflict, closure(expected, &[1, 1, 1, 1]));
}

#[test]
fn resolve_drops_variables_that_occur_no_more() {
    // reason: P(x, y) ∨ Q(y); conflict: ¬P(x, y)
    let reason = clause(2, &[], &[literal(1, &[1, 2]), literal(2, &[2])]);
    let other = clause(2, &[], &[literal(-1, &[1, 2])]);
    let mut state = state(2, &[2, 1], &[reason, other]);
    let steps =
        [decide(1, 2, false, &[1, 2]), propagate(1, 1, &[1, 2]), conflict(2, &[1, 2]), resolve(1)];
    accept(&mut state, &steps);
    assert_eq!(state.conflict, closure(clause(1, &[], &[literal(2, &[1])]), &[2]));
}

#[test]
fn the_reason_loses_atoms_it_had_twice() {
    let atoms = [at_most(1, 3), at_most(1, 3)];
    let reason = clause(1, &atoms, &[literal(1, &[1])]);
    let other = clause(1, &[at_least(1, 0), at_least(1, 0)], &[literal(-1, &[1])]);
    let mut state = state(1, &[1], &[reason, other]);
    accept(&mut state, &[propagate(1, 1, &[1]), conflict(2, &[1]), SKIP, resolve(1)]);
    assert_eq!(state.conflict, closure(clause(1, &[at_least(1, 0), at_most(1, 3)], &[]), &[1]));
}

/// P(x1) with `own` further literals Q of fresh variables, and ¬P(x1) with `other` ones, resolved.
fn wide(own: usize, other: usize, atoms: fn(u8) -> Vec<Atom>) -> (State, Result<(), u8>) {
    let make = |first: Literal, others: usize| {
        let rest = (2..2 + others as u8).map(|x| literal(2, &[x]));
        let literals: Vec<Literal> = [first].into_iter().chain(rest).collect();
        let atoms: Vec<Atom> = (1..=1 + others as u8).flat_map(atoms).collect();
        clause(1 + others as u8, &atoms, &literals)
    };
    let clauses = [make(literal(1, &[1]), own), make(literal(-1, &[1]), other)];
    let mut state = state(1, &[1, 1], &clauses);
    if own + other > 0 {
        let (clause, others) = if own > 0 { (1, own) } else { (2, other) };
        accept(&mut state, &[decide(clause, 2, false, &vec![1; others + 1])]);
    }
    accept(&mut state, &[propagate(1, 1, &vec![1; own + 1]), conflict(2, &vec![1; other + 1])]);
    while matches!(state.trail.last(), Some(Entry::Background(..))) {
        accept(&mut state, &[SKIP]);
    }
    let before = state.clone();
    let answer = state.take(&resolve(1)).map(|_| ()).map_err(|refusal| refusal.number);
    assert!(answer.is_ok() || state == before);
    (state, answer)
}

#[test]
fn resolve_counts_literals_after_merging() {
    assert_eq!(wide(4, 4, |_| vec![]).1, Ok(()));
    assert_eq!(wide(4, 5, |_| vec![]).1, Err(18));
    assert_eq!(wide(7, 7, |_| vec![]).1, Err(18));
    assert_eq!(wide(7, 1, |_| vec![]).0.conflict.map(|c| c.clause.literals.len()), Some(8));
}

#[test]
fn resolve_counts_atoms_after_merging() {
    // Three atoms for each variable: (own + 1 + other + 1) · 3, less those of the variable merged.
    let three = |x| vec![at_most(x, 5), at_most(x, 6), at_most(x, 7)];
    let (state, answer) = wide(3, 4, three);
    assert_eq!(answer, Ok(()));
    assert_eq!(state.conflict.map(|conflict| conflict.clause.atoms.len()), Some(24));
    let four = |x| vec![at_most(x, 5), at_most(x, 6), at_most(x, 7), at_most(x, 8)];
    assert_eq!(wide(2, 3, four).1, Ok(()));
    assert_eq!(wide(3, 3, four).1, Err(18));
}

#[test]
fn resolve_counts_variables_after_merging() {
    // P(x) ∨ Q(y, z, u) ∨ Q(v, w, s) ∨ R(t) ∨ .. against ¬P(x) ∨ Q(y, z, u) ∨ R(v) ∨ R(w); P's
    // variable goes, and never more than 8 literals are left.
    let run = |more: u8| {
        let mut own = vec![literal(1, &[1]), literal(2, &[2, 3, 4]), literal(2, &[5, 6, 7])];
        own.extend((0..more).map(|index| literal(3, &[8 + index])));
        let other = [literal(-1, &[1]), literal(2, &[2, 3, 4]), literal(3, &[5]), literal(3, &[6])];
        let first = clause(7 + more, &[], &own);
        let second = clause(6, &[], &other);
        let mut state = state(1, &[1, 3, 1], &[first, second]);
        let all = vec![1; 7 + more as usize];
        let steps = [
            decide(1, 2, false, &all),
            decide(2, 3, false, &[1; 6]),
            propagate(1, 1, &all),
            conflict(2, &[1; 6]),
        ];
        accept(&mut state, &steps);
        let answer = state.take(&resolve(1)).map_err(|refusal| refusal.number);
        answer.map(|_| state.conflict.map(|conflict| conflict.clause.variables))
    };
    assert_eq!(run(0), Ok(Some(11)));
    assert_eq!(run(1), Ok(Some(12)));
    assert_eq!(run(2), Err(18));
}

#[test]
fn resolve_asks_for_a_propagated_literal_at_the_end() {
    let input = clause(1, &[], &[literal(-1, &[1])]);
    let mut state = state(1, &[1], &[input]);
    refuse(&mut state, resolve(1), 9);
    accept(&mut state, &[decide(1, 1, true, &[1]), conflict(1, &[1])]);
    refuse(&mut state, resolve(1), 14);
    refuse(&mut state, resolve(2), 10);
    refuse(&mut state, resolve(0), 10);
}

// Factorize

#[test]
fn factorize_takes_either_order_and_drops_the_larger_number() {
    // ¬P(z, x) ∨ Q(y) ∨ ¬P(x, y), atoms on each variable
    let atoms = [at_most(3, 9), at_most(1, 9), at_most(2, 8)];
    let literals = [literal(-1, &[3, 1]), literal(2, &[2]), literal(-1, &[1, 2])];
    for step in [factorize(1, 3), factorize(3, 1)] {
        let mut state = state(2, &[2, 1], &[clause(3, &atoms, &literals)]);
        let all = [2, 2, 2];
        let steps = [decide(1, 1, true, &all), decide(1, 2, false, &all), conflict(1, &all)];
        accept(&mut state, &steps);
        refuse(&mut state, factorize(1, 2), 15);
        refuse(&mut state, factorize(1, 1), 10);
        refuse(&mut state, factorize(1, 4), 10);
        refuse(&mut state, factorize(0, 1), 10);
        accept(&mut state, &[step]);
        // 3 with 1, then 1 with 2: all three are 1.
        let literals = [literal(-1, &[1, 1]), literal(2, &[1])];
        let expected = clause(1, &[at_most(1, 9), at_most(1, 8)], &literals);
        assert_eq!(state.conflict, closure(expected, &[2]));
    }
}

#[test]
fn factorize_looks_at_the_sign() {
    // Only instances count: ¬P(x) and ¬P(y) with different constants are not the same.
    let input = clause(2, &[], &[literal(-1, &[1]), literal(-1, &[2])]);
    let mut state = state(2, &[1], &[input]);
    let steps = [decide(1, 1, true, &[1, 1]), decide(1, 1, true, &[2, 2]), conflict(1, &[1, 2])];
    accept(&mut state, &steps);
    refuse(&mut state, factorize(1, 2), 15);
    refuse(&mut state, factorize(2, 1), 15);
}

#[test]
fn factorize_drops_atoms_also_where_no_variables_meet() {
    let atoms = [at_most(1, 9), at_least(1, 0), at_most(1, 9)];
    let input = clause(1, &atoms, &[literal(-1, &[1]), literal(-1, &[1]), literal(-1, &[1])]);
    let mut state = state(1, &[1], &[input]);
    accept(&mut state, &[decide(1, 1, true, &[1]), conflict(1, &[1]), factorize(2, 3)]);
    let expected =
        clause(1, &[at_most(1, 9), at_least(1, 0)], &[literal(-1, &[1]), literal(-1, &[1])]);
    assert_eq!(state.conflict, closure(expected, &[1]));
}

// Skip

#[test]
fn skip_lowers_the_level_with_a_decision() {
    let first = clause(1, &[], &[literal(-1, &[1])]);
    let second = clause(1, &[], &[literal(2, &[1])]);
    let mut state = state(2, &[1, 1], &[first, second]);
    refuse(&mut state, SKIP, 9);
    let steps = [
        decide(1, 1, true, &[1]),
        decide(1, 1, true, &[2]),
        propagate(2, 1, &[1]),
        conflict(1, &[1]),
        SKIP,
    ];
    accept(&mut state, &steps);
    assert_eq!((state.trail.len(), state.level), (2, 2));
    accept(&mut state, &[SKIP]);
    assert_eq!((state.trail.len(), state.level), (1, 1));
    refuse(&mut state, SKIP, 15);
}

// Backtrack

#[test]
fn backtrack_cuts_just_before_the_decision_above_i() {
    // ¬P(x) ∨ ¬Q(x), x ≤ 3; decisions P(a), R(a), R(b), Q(a)
    let input = clause(1, &[at_most(1, 3)], &[literal(-1, &[1]), literal(-2, &[1])]);
    let unit = clause(1, &[], &[literal(3, &[1])]);
    let mut state = state(2, &[1, 1, 1], &[input.clone(), unit]);
    let steps = [
        decide(1, 1, true, &[1]),
        decide(2, 1, true, &[1]),
        decide(2, 1, false, &[2]),
        decide(1, 2, true, &[1]),
        conflict(1, &[1]),
    ];
    accept(&mut state, &steps);
    refuse(&mut state, backtrack(1), 16);
    refuse(&mut state, backtrack(3), 10);
    accept(&mut state, &[backtrack(2)]);
    let text = "constants 2 level 1\n\
                trail 1 P1(1) decide 1 1 (1)\n\
                trail 2 ~P2(1) propagate 3 2 (1)\n\
                trail 3 1-0<=3\n\
                clause 1 1 [1-0<=3] ~P1(1) ~P2(1)\n\
                clause 2 1 [] P3(1)\n\
                clause 3 1 [1-0<=3] ~P1(1) ~P2(1)\n\
                conflict none\n";
    assert_eq!(final_state(&state), text);
    // The same clause can be learned again; a learned clause can be used.
    let steps = [
        decide(2, 1, true, &[1]),
        decide(1, 1, true, &[2]),
        decide(1, 2, true, &[2]),
        conflict(3, &[2]),
        backtrack(2),
    ];
    accept(&mut state, &steps);
    assert_eq!(state.learned, [input.clone(), input]);
    assert_eq!((state.trail.len(), state.level), (7, 3));
    assert_eq!(state.trail[5], propagated(literal(-2, &[2]), 4, 2, &[2]));
}

#[test]
fn backtrack_without_others_goes_to_level_0() {
    let input = clause(1, &[], &[literal(-1, &[1])]);
    let unit = clause(1, &[], &[literal(2, &[1])]);
    let mut state = state(2, &[1, 1], &[input, unit]);
    let steps = [
        propagate(2, 1, &[2]),
        decide(2, 1, true, &[1]),
        decide(1, 1, true, &[1]),
        conflict(1, &[1]),
        backtrack(1),
    ];
    accept(&mut state, &steps);
    assert_eq!((state.trail.len(), state.level), (2, 0));
}

#[test]
fn backtrack_at_level_0_is_refused() {
    let clauses = [clause(0, &[], &[literal(1, &[])]), clause(0, &[], &[literal(-1, &[])])];
    let mut state = state(0, &[0], &clauses);
    accept(&mut state, &[propagate(1, 1, &[]), conflict(2, &[])]);
    refuse(&mut state, backtrack(1), 16);
}

#[test]
fn backtrack_needs_room_on_the_trail() {
    // The conflict's atoms are new where the trail is full.
    let unit = clause(2, &[], &[literal(1, &[1, 2])]);
    let atoms = [at_most(1, 500), at_least(1, -500)];
    let bounded = clause(2, &atoms, &[literal(-1, &[1, 2])]);
    let mut first = state(16, &[2], &[unit, bounded]);
    let instances: Vec<[u8; 2]> =
        (1..=16u8).flat_map(|x| (1..=16u8).map(move |y| [x, y])).collect();
    let filling: Vec<Step> = instances[..157].iter().map(|i| propagate(1, 1, i)).collect();
    accept(&mut first, &filling);
    for (more, answer) in [(0, Ok(())), (1, Err(18)), (2, Err(18))] {
        let mut state = first.clone();
        let more: Vec<Step> =
            instances[157..157 + more].iter().map(|i| propagate(1, 1, i)).collect();
        accept(&mut state, &more);
        accept(&mut state, &[decide(1, 1, true, &[16, 16]), conflict(2, &[16, 16])]);
        let found = state.take(&backtrack(1)).map(|_| ()).map_err(|refusal| refusal.number);
        assert_eq!(found, answer);
        assert_eq!(state.trail.len(), if answer.is_ok() { 160 } else { 158 + more.len() });
    }
}

#[test]
fn backtrack_needs_room_for_the_clause() {
    let input = clause(2, &[], &[literal(-1, &[1, 2])]);
    let mut state = state(16, &[2], &[input]);
    let instances = (1..=16u8).flat_map(|x| (1..=16u8).map(move |y| [x, y]));
    for (learned, instance) in instances.take(49).enumerate() {
        accept(&mut state, &[decide(1, 1, true, &instance), conflict(1, &instance)]);
        if learned < 48 {
            accept(&mut state, &[backtrack(1)]);
        } else {
            refuse(&mut state, backtrack(1), 18);
        }
    }
    assert_eq!(state.clauses(), 49);
    assert!(state.clause(49).is_some() && state.clause(50).is_none());
}

// Grow

#[test]
fn grow_empties_the_trail_and_keeps_learned_clauses() {
    let input = clause(1, &[], &[literal(-1, &[1])]);
    let mut state = state(1, &[1], &[input]);
    let steps = [
        grow(2),
        decide(1, 1, true, &[1]),
        conflict(1, &[1]),
        backtrack(1),
        decide(1, 1, true, &[2]),
        grow(13),
    ];
    accept(&mut state, &steps);
    assert_eq!((state.constants, state.trail.len(), state.level), (16, 0, 0));
    assert_eq!(state.learned.len(), 1);
    refuse(&mut state, grow(0), 10);
    refuse(&mut state, grow(1), 18);
    refuse(&mut state, grow(255), 18);
    accept(&mut state, &[decide(1, 1, true, &[16]), conflict(1, &[16])]);
    refuse(&mut state, grow(0), 9);
}

// Refutation

#[test]
fn steps_after_a_refutation() {
    let steps = [propagate(1, 1, &[1]), conflict(2, &[1]), SKIP, resolve(1)];
    let first = clause(1, &[at_most(1, 10)], &[literal(1, &[1])]);
    let second = clause(1, &[at_least(1, 3)], &[literal(-1, &[1])]);
    let mut state = state(1, &[1], &[first, second]);
    accept(&mut state, &steps);
    for step in [propagate(1, 1, &[1]), decide(1, 1, true, &[1]), conflict(1, &[1]), grow(1)] {
        refuse(&mut state, step, 9);
    }
    for step in [resolve(1), factorize(1, 2), backtrack(1)] {
        refuse(&mut state, step, 10);
    }
    accept(&mut state, &[SKIP]);
    refuse(&mut state, SKIP, 14);
    let run = try_steps(state, &[SKIP]);
    assert_eq!(run.verdict(), Verdict::Refuted);
    assert_eq!(run.listing(), "1 skip refused 14\nrefuted\n");
}

#[test]
fn a_clause_without_literals_refutes_at_once_if_its_atoms_are_possible() {
    let loose = clause(1, &[at_most(1, 0)], &[]);
    let tight = clause(1, &[at_most(1, 0), at_least(1, 1)], &[]);
    let mut state = state(2, &[], &[loose, tight]);
    refuse(&mut state, propagate(1, 1, &[1]), 10);
    refuse(&mut state, conflict(2, &[1]), 13);
    let run = try_steps(state, &[conflict(1, &[2])]);
    assert_eq!(run.listing(), "1 conflict 0 0\nrefuted\n");
    assert!(final_state(&run.state).ends_with("conflict 1 [1-0<=0] at (2)\n"));
}

#[test]
fn clauses_without_variables_work_without_constants() {
    let clauses = [
        clause(0, &[], &[literal(1, &[])]),
        clause(0, &[], &[literal(-1, &[])]),
        clause(1, &[at_most(1, 0)], &[literal(1, &[])]),
        clause(0, &[], &[]),
    ];
    let mut state = state(0, &[0], &clauses);
    refuse(&mut state, propagate(3, 1, &[1]), 10);
    refuse(&mut state, propagate(3, 1, &[]), 10);
    accept(&mut state, &[propagate(1, 1, &[]), conflict(2, &[]), resolve(1)]);
    let text = "constants 0 level 0\n\
                trail 1 P1() propagate 1 1 ()\n\
                clause 1 0 [] P1()\n\
                clause 2 0 [] ~P1()\n\
                clause 3 1 [1-0<=0] P1()\n\
                clause 4 0 []\n\
                conflict 0 [] at ()\n";
    assert_eq!(final_state(&state), text);
}
