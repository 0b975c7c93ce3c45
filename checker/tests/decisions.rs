//! Decisions that bring atoms, worked by hand.

mod common;

use checker::clause::{Atom, Clause};
use checker::file::{read, write, RunFile};
use checker::listing::{final_state, inspection, inspection_with_numbers, listing};
use checker::replay::{replayed, steps_behind};
use checker::state::{Entry, Origin, State};
use checker::step::{Source, Step};
use common::*;

const A: u8 = 1;
const B: u8 = 2;

/// x ≤ 5, x ≥ 3 ∥ P(x); x − y ≤ 4 between bounds ∥ P(x) ∨ Q(y)
fn input() -> Vec<Clause> {
    let between =
        [atom(1, 2, 4), at_most(1, 99), at_least(1, -99), at_most(2, 99), at_least(2, -99)];
    vec![
        clause(1, &[at_most(1, 5), at_least(1, 3)], &[literal(1, &[1])]),
        clause(2, &between, &[literal(1, &[1]), literal(2, &[2])]),
    ]
}

fn first() -> State {
    state_2(2, &[1, 1], &input())
}

/// P(a) decided with these atoms
fn decide_a(atoms: &[Source]) -> Step {
    decide_with(1, 1, true, &[A], atoms)
}

/// P(b) decided with these atoms
fn decide_b(atoms: &[Source]) -> Step {
    decide_with(1, 1, true, &[B], atoms)
}

fn decision(predicate: i8, constant: u8, brought: usize) -> Entry {
    let origin =
        Origin { decision: true, clause: 1, literal: 1, instance: vec![constant], brought };
    Entry::Foreground(literal(predicate, &[constant]), origin)
}

fn brought(atom: Atom, source: Source) -> Entry {
    Entry::Background(atom, Some(source))
}

#[test]
fn atoms_follow_the_literal_in_the_order_named() {
    let mut state = first();
    let named = [denied(2, 1, &[B, A]), stands(1, 2, &[B]), denied(1, 1, &[A])];
    // a ≥ 6 and b ≥ 3, b − a > 4, which is a − b ≤ −5: b is 0, a −5 and zero −11.
    assert_eq!(state.take(&decide_a(&named)), yes(&[6, 11]));
    let [difference, lower, denial] = named;
    let expected = [
        decision(1, A, 3),
        brought(atom(A, B, -5), difference),
        brought(at_least(B, 3), lower),
        brought(at_least(A, 6), denial),
    ];
    assert_eq!(state.trail, expected);
    assert_eq!(state.level, 1);
}

#[test]
fn the_text_of_an_atom_brought() {
    let mut state = first();
    let named = [stands(1, 1, &[A]), denied(2, 1, &[A, B]), denied(2, 2, &[B, A])];
    accept(&mut state, &[propagate(1, 1, &[B])]);
    refuse(&mut state, decide_a(&named), 13);
    accept(&mut state, &[decide_a(&named[..1])]);
    let text = "constants 2 level 1\n\
                trail 1 P1(2) propagate 1 1 (2)\n\
                trail 2 2-0<=5\n\
                trail 3 0-2<=-3\n\
                trail 4 P1(1) decide 1 1 (1)\n\
                trail 5 1-0<=5 brought 1 1 1 (1)\n\
                clause 1 1 [1-0<=5 0-1<=-3] P1(1)\n\
                clause 2 2 [1-2<=4 1-0<=99 0-1<=99 2-0<=99 0-2<=99] P1(1) P2(2)\n\
                conflict none\n";
    assert_eq!(final_state(&state), text);
    let mut state = first();
    accept(&mut state, &[decide_a(&[denied(2, 3, &[A, B])])]);
    assert!(final_state(&state).contains("\ntrail 2 1-0<=-100 brought 2 3 0 (1,2)\n"));
}

#[test]
fn version_1_decisions_bring_none() {
    let mut state = state(2, &[1, 1], &input());
    // Nothing of the atoms is looked at, neither what there is not nor what can't be.
    let named = [stands(9, 9, &[]), stands(1, 1, &[A]), denied(1, 1, &[A])];
    assert_eq!(state.take(&decide_a(&named)), yes(&[-1, 0]));
    assert_eq!(state.trail, [decision(1, A, 0)]);
}

#[test]
fn no_such_atom() {
    let mut state = first();
    for bad in [
        stands(0, 1, &[A]),
        stands(3, 1, &[A]),
        stands(255, 1, &[A]),
        stands(1, 0, &[A]),
        stands(1, 3, &[A]),
        denied(2, 6, &[A, B]),
        stands(1, 1, &[]),
        stands(1, 1, &[A, B]),
        // The atom has one variable, its clause two.
        stands(2, 2, &[A]),
        stands(1, 1, &[0]),
        stands(1, 1, &[3]),
        denied(2, 2, &[A, 3]),
    ] {
        refuse(&mut state, decide_a(std::slice::from_ref(&bad)), 10);
        // wherever it stands, and whatever else is wrong
        refuse(&mut state, decide_a(&[stands(1, 1, &[A]), stands(1, 1, &[A]), bad.clone()]), 10);
        refuse(&mut state, decide_a(&[bad, stands(1, 1, &[A]), denied(1, 1, &[A])]), 10);
    }
}

#[test]
fn the_literal_and_an_atom_have_an_instance_each() {
    let mut state = first();
    accept(&mut state, &[decide_with(2, 2, false, &[A, B], &[stands(2, 4, &[A, B])])]);
    assert_eq!(state.trail[1], brought(at_most(B, 99), stands(2, 4, &[A, B])));
}

#[test]
fn an_atom_that_is_defined() {
    // 11 for an atom on the trail, or its denial, whether propagated or brought
    let mut state = first();
    accept(&mut state, &[propagate(1, 1, &[A])]);
    for named in [stands(1, 1, &[A]), denied(1, 1, &[A]), stands(1, 2, &[A]), denied(1, 2, &[A])] {
        refuse(&mut state, decide_b(&[named]), 11);
    }
    let mut state = first();
    accept(&mut state, &[decide_a(&[denied(1, 1, &[A])])]);
    for named in [stands(1, 1, &[A]), denied(1, 1, &[A])] {
        refuse(&mut state, decide_b(&[named]), 11);
    }
    // brought before it in the same step
    let once = stands(1, 1, &[B]);
    for again in [stands(1, 1, &[B]), denied(1, 1, &[B])] {
        refuse(&mut state, decide_b(&[once.clone(), stands(1, 2, &[B]), again.clone()]), 11);
        refuse(&mut state, decide_b(&[again, once.clone()]), 11);
    }
    accept(&mut state, &[decide_b(&[stands(1, 2, &[B])])]);
}

#[test]
fn atoms_are_compared_as_written() {
    // x ≤ 5, x ≤ 6, x ≥ 6, x ≥ 5, of which x ≤ 5 and x ≥ 6 deny each other
    let atoms = [at_most(1, 5), at_most(1, 6), at_least(1, 6), at_least(1, 5)];
    let bands = clause(1, &atoms, &[literal(1, &[1]), literal(2, &[1])]);
    let mut state = state_2(1, &[1, 1], &[bands]);
    let decide_p = |named: &[Source]| decide_with(1, 1, true, &[A], named);
    let decide_q = |named: &[Source]| decide_with(1, 2, true, &[A], named);
    // The denial of x ≤ 5 is the atom x ≥ 6 itself.
    refuse(&mut state, decide_p(&[stands(1, 1, &[A]), stands(1, 3, &[A])]), 11);
    refuse(&mut state, decide_p(&[denied(1, 1, &[A]), stands(1, 3, &[A])]), 11);
    accept(&mut state, &[decide_p(&[stands(1, 1, &[A])])]);
    refuse(&mut state, decide_q(&[stands(1, 3, &[A])]), 11);
    refuse(&mut state, decide_q(&[denied(1, 3, &[A])]), 11);
    // x ≤ 6 follows from x ≤ 5 and is another atom; its denial, x ≥ 7, is not possible.
    refuse(&mut state, decide_q(&[denied(1, 2, &[A])]), 13);
    accept(&mut state, &[decide_q(&[stands(1, 2, &[A]), stands(1, 4, &[A])])]);
    let texts = "trail 4 1-0<=6 brought 1 2 1 (1)\ntrail 5 0-1<=-5 brought 1 4 1 (1)\n";
    assert!(final_state(&state).contains(texts));
}

#[test]
fn atoms_that_are_not_possible() {
    let mut state = first();
    // alone: a ≥ 6 and b ≤ 5
    refuse(&mut state, decide_a(&[denied(1, 1, &[A]), stands(1, 1, &[B])]), 13);
    // with the trail's
    accept(&mut state, &[decide_a(&[denied(1, 1, &[A])])]);
    refuse(&mut state, decide_b(&[stands(1, 1, &[B])]), 13);
    // b − a ≤ 4 with a ≥ 6 is possible, and a − b ≤ −5 with b ≤ 99 too
    accept(&mut state, &[decide_b(&[denied(2, 1, &[B, A]), stands(2, 2, &[B, A])])]);
}

#[test]
fn reasons_in_rising_order() {
    let mut state = first();
    accept(&mut state, &[decide_a(&[stands(1, 1, &[A])])]);
    let defined = stands(1, 1, &[A]);
    let no_such = stands(1, 9, &[A]);
    // 10 for an atom before 11 for the literal, and for another atom
    refuse(&mut state, decide_a(std::slice::from_ref(&no_such)), 10);
    refuse(&mut state, decide_b(&[defined.clone(), no_such]), 10);
    // 11 for the literal, and for an atom, before 13
    let [above, below] = [denied(1, 1, &[B]), denied(1, 2, &[B])];
    refuse(&mut state, decide_a(&[above.clone(), below.clone()]), 11);
    refuse(&mut state, decide_b(&[above.clone(), below.clone(), defined.clone()]), 11);
    refuse(&mut state, decide_b(&[above, below]), 13);
    // 9 before all of them
    let empty = clause(0, &[], &[]);
    let mut state = state_2(1, &[1, 1], &[input().remove(0), empty]);
    accept(&mut state, &[conflict(2, &[])]);
    refuse(&mut state, decide_a(&[stands(9, 9, &[9])]), 9);
}

/// 16 constants, and many atoms: x ≤ 900 and so on, x ≥ −900 and so on
fn roomy() -> State {
    let atoms: Vec<Atom> =
        (0..12).flat_map(|k| [at_most(1, 900 + k), at_least(1, -900 - k)]).collect();
    let bounded = clause(1, &atoms, &[literal(1, &[1])]);
    let unit = clause(2, &[], &[literal(2, &[1, 2])]);
    state_2(16, &[1, 2], &[bounded, unit])
}

/// All 24 atoms of the first clause at a constant
fn all_at(constant: u8) -> Vec<Source> {
    (1..=24).map(|number| stands(1, number, &[constant])).collect()
}

#[test]
fn twenty_four_atoms_and_no_room() {
    let mut state = roomy();
    for constant in 1..=6 {
        accept(&mut state, &[decide_with(1, 1, true, &[constant], &all_at(constant))]);
    }
    assert_eq!((state.trail.len(), state.level), (150, 6));
    let next = decide_with(1, 1, true, &[7], &all_at(7)[..10]);
    refuse(&mut state, next, 18);
    // 13 comes before 18, and 11 before both. The first constant is at least −900, and the eighth is above it.
    let mut named = all_at(7);
    named[23] = denied(1, 2, &[8]);
    refuse(&mut state, decide_with(1, 1, true, &[7], &named), 13);
    named[22] = denied(1, 2, &[8]);
    refuse(&mut state, decide_with(1, 1, true, &[7], &named), 11);
    accept(&mut state, &[decide_with(1, 1, true, &[7], &all_at(7)[..9])]);
    assert_eq!((state.trail.len(), state.level), (160, 7));
    refuse(&mut state, decide(2, 1, true, &[1, 1]), 18);
    refuse(&mut state, decide_with(2, 1, true, &[1, 1], &all_at(8)), 18);
    refuse(&mut state, decide_with(1, 1, true, &[7], &all_at(8)), 11);
}

#[test]
fn one_entry_is_room_for_the_literal_alone() {
    let mut state = roomy();
    let pairs = (1..=16u8).flat_map(|x| (1..=16u8).map(move |y| [x, y]));
    let filling: Vec<Step> = pairs.take(159).map(|i| propagate(2, 1, &i)).collect();
    accept(&mut state, &filling);
    refuse(&mut state, decide_with(1, 1, true, &[1], &all_at(1)[..1]), 18);
    accept(&mut state, &[decide(1, 1, true, &[1])]);
}

#[test]
fn c_at_the_ends_of_its_range() {
    let far = 1_000_000;
    let atoms = [at_most(1, far), atom(0, 1, far), at_most(1, -far), atom(0, 1, -far)];
    let ends = clause(1, &atoms, &[literal(1, &[1]), literal(2, &[1])]);
    let first = state_2(2, &[1, 1], &[ends]);
    let decided = |named: &[Source]| {
        let mut state = first.clone();
        let numbers = state.take(&decide_with(1, 1, true, &[A], named));
        (numbers, state.trail.iter().filter_map(Entry::atom).copied().collect::<Vec<Atom>>())
    };
    // a ≥ 1,000,001
    let lower = atom(0, A, -far - 1);
    assert_eq!(decided(&[denied(1, 1, &[A])]), (yes(&[far + 1, far + 2]), vec![lower]));
    // b ≤ −1,000,001
    let upper = atom(B, 0, -far - 1);
    assert_eq!(decided(&[denied(1, 2, &[B])]), (yes(&[-far - 2, -far - 1]), vec![upper]));
    // a ≥ −999,999 and b ≤ 999,999
    let [lower, upper] = [atom(0, A, far - 1), atom(B, 0, far - 1)];
    let named = [denied(1, 3, &[A]), denied(1, 4, &[B])];
    assert_eq!(decided(&named), (yes(&[-1, 0]), vec![lower, upper]));
    // b − a as far as two bounds have it
    let named = [denied(1, 2, &[A]), denied(1, 1, &[B])];
    assert_eq!(decided(&named).0, yes(&[-far - 1, far + 1]));
    // The denial of what is brought denied is the atom as it stands.
    assert_eq!(decided(&[denied(1, 1, &[A]), stands(1, 1, &[A])]).0.map_err(|r| r.number), Err(11));
}

#[test]
fn an_atom_of_a_learned_clause() {
    // ¬P(x) ∨ ¬Q(x), x ≤ 7, learned with x at a
    let denial = clause(1, &[at_most(1, 7)], &[literal(-1, &[1]), literal(-2, &[1])]);
    let mut state = state_2(2, &[1, 1], &[denial]);
    let steps = [
        decide(1, 1, true, &[A]),
        decide(1, 2, true, &[A]),
        conflict(1, &[A]),
        backtrack(2),
        decide_with(2, 2, true, &[B], &[denied(2, 1, &[B])]),
    ];
    accept(&mut state, &steps[..4]);
    // a ≤ 7 is on the trail since Backtrack.
    let of_learned = [stands(2, 1, &[A]), denied(2, 1, &[A]), stands(1, 1, &[A])];
    for named in of_learned {
        refuse(&mut state, decide_with(2, 2, true, &[B], &[named]), 11);
    }
    refuse(&mut state, decide_with(2, 2, true, &[B], &[stands(3, 1, &[B])]), 10);
    accept(&mut state, &steps[4..]);
    assert_eq!(state.trail.last(), Some(&brought(at_least(B, 8), denied(2, 1, &[B]))));
    let again = [&state.input[..], &state.learned].concat();
    let mut replay = state_2(2, &[1, 1], &again);
    accept(&mut replay, &steps_behind(&state.trail));
    assert_eq!((replay.trail, replay.level), (state.trail, state.level));
}

#[test]
fn propagate_does_not_append_an_atom_that_was_brought() {
    let mut state = first();
    accept(&mut state, &[decide_with(2, 2, true, &[A, B], &[stands(1, 2, &[A])])]);
    accept(&mut state, &[propagate(1, 1, &[A])]);
    let atoms: Vec<_> = state.trail.iter().filter(|entry| entry.atom().is_some()).collect();
    assert_eq!(atoms[0], &brought(at_least(A, 3), stands(1, 2, &[A])));
    assert_eq!(atoms[1..], [&Entry::Background(at_most(A, 5), None)]);
    // A bound brought on the other side of the band: the clause is not propagated.
    let mut state = first();
    accept(&mut state, &[decide_with(2, 2, true, &[A, B], &[denied(1, 1, &[A])])]);
    refuse(&mut state, propagate(1, 1, &[A]), 13);
}

/// ¬P(x), x ≥ 0, and x ≤ 9, x ≤ 8 ∥ Q(x)
fn skipping() -> State {
    let denial = clause(1, &[at_least(1, 0)], &[literal(-1, &[1])]);
    let bounded = clause(1, &[at_most(1, 9), at_most(1, 8)], &[literal(2, &[1])]);
    let mut state = state_2(2, &[1, 1], &[denial, bounded]);
    let steps = [
        decide_with(1, 1, true, &[A], &[stands(2, 1, &[A])]),
        decide_with(2, 1, false, &[B], &[stands(2, 1, &[B]), stands(2, 2, &[B])]),
        conflict(1, &[A]),
    ];
    accept(&mut state, &steps);
    state
}

#[test]
fn skip_takes_entries_one_by_one() {
    let mut state = skipping();
    assert_eq!((state.trail.len(), state.level), (5, 2));
    for (length, level) in [(4, 2), (3, 2), (2, 1), (1, 1)] {
        accept(&mut state, &[SKIP]);
        assert_eq!((state.trail.len(), state.level), (length, level));
    }
    // The decision that is left keeps how many it brought.
    assert_eq!(state.trail, [decision(1, A, 1)]);
    refuse(&mut state, SKIP, 15);
    refuse(&mut state, resolve(1), 14);
}

#[test]
fn backtrack_over_decisions_with_atoms() {
    for skipped in 0..=4 {
        let mut state = skipping();
        accept(&mut state, &vec![SKIP; skipped]);
        // The trail is cut before the first decision: the atoms asked about are the conflict's alone.
        assert_eq!(state.take(&backtrack(1)), yes(&[0, 1]));
        let text = "constants 2 level 0\n\
                    trail 1 ~P1(1) propagate 3 1 (1)\n\
                    trail 2 0-1<=0\n";
        assert!(final_state(&state).starts_with(text));
    }
}

#[test]
fn backtrack_keeps_decisions_with_their_atoms() {
    // ¬P(x) ∨ ¬Q(y), x ≤ 9, y ≥ 2
    let denial =
        clause(2, &[at_most(1, 9), at_least(2, 2)], &[literal(-1, &[1]), literal(-2, &[2])]);
    let mut state = state_2(2, &[1, 1], &[denial]);
    let steps = [
        decide_with(1, 1, true, &[A, A], &[stands(1, 1, &[A, A])]),
        decide_with(1, 2, true, &[A, A], &[stands(1, 2, &[A, A])]),
        conflict(1, &[A, A]),
        SKIP,
        backtrack(2),
    ];
    accept(&mut state, &steps);
    // a ≤ 9 stays with its source; a ≥ 2 was brought, went, and comes again without one.
    let text = "constants 2 level 1\n\
                trail 1 P1(1) decide 1 1 (1,1)\n\
                trail 2 1-0<=9 brought 1 1 1 (1,1)\n\
                trail 3 ~P2(1) propagate 2 2 (1,1)\n\
                trail 4 0-1<=-2\n";
    assert!(final_state(&state).starts_with(text), "{}", final_state(&state));
}

#[test]
fn replay_takes_the_atoms_with_the_decision() {
    let mut state = first();
    let steps = [
        decide_a(&[denied(1, 1, &[A]), stands(2, 1, &[A, B])]),
        propagate(1, 1, &[B]),
        decide_with(2, 2, false, &[A, B], &[]),
    ];
    accept(&mut state, &steps[..1]);
    // a ≥ 6: b ≤ 5 is not possible.
    refuse(&mut state, steps[1].clone(), 13);
    accept(&mut state, &steps[2..]);
    let file = replayed(&state).expect("no conflict");
    assert_eq!(file.steps, [steps[0].clone(), steps[2].clone()]);
    assert_eq!(file.version, 2);
    // While a conflict stands there is no such file.
    let empty = clause(0, &[], &[]);
    let mut state = state_2(0, &[], &[empty]);
    accept(&mut state, &[conflict(1, &[])]);
    assert_eq!(replayed(&state), None);
}

#[test]
fn grow_empties_the_trail_of_atoms_brought() {
    let mut state = first();
    accept(&mut state, &[decide_a(&all_named()), grow(1)]);
    assert_eq!((state.trail.len(), state.level), (0, 0));
    accept(&mut state, &[decide_a(&all_named())]);
}

fn all_named() -> Vec<Source> {
    vec![stands(1, 1, &[A]), denied(1, 2, &[A]), stands(2, 1, &[A, B])]
}

// In a file

fn file(version: u16, steps: &[Step]) -> RunFile {
    let (arities, clauses, steps) = (vec![1, 1], input(), steps.to_vec());
    RunFile { version, constants: 2, arities, clauses, steps }
}

#[test]
fn the_bytes_of_a_decision() {
    let named = [stands(1, 2, &[B]), denied(2, 1, &[B, A])];
    let steps = [decide_a(&named), grow(1)];
    let bytes = write(&file(2, &steps)).bytes;
    let last = [2, 1, 1, 1, 1, A, 2, 1, 2, 1, 1, B, 2, 1, 0, 2, B, A, 8, 1];
    assert_eq!(bytes[bytes.len() - last.len()..], last);
    assert_eq!(bytes[3..5], [2, 0]);
    assert_eq!(read(&bytes), Ok(file(2, &steps)));
    // In version 1 a decision ends with its instance.
    let bytes = write(&file(1, &steps)).bytes;
    let last = [2, 1, 1, 1, 1, A, 8, 1];
    assert_eq!(bytes[bytes.len() - last.len()..], last);
    assert_eq!(read(&bytes), Ok(file(1, &[decide(1, 1, true, &[A]), grow(1)])));
}

#[test]
fn fields_of_a_decision_are_judged_in_their_order() {
    let bytes = write(&file(2, &[decide_a(&[stands(1, 2, &[B])])])).bytes;
    // rule, clause, literal, sign, instance (2), count, clause, number, sign, instance (2)
    let place = |back: usize| bytes.len() - back;
    let with = |changes: &[(usize, u8)]| {
        let mut bytes = bytes.clone();
        changes.iter().for_each(|&(back, byte)| bytes[place(back)] = byte);
        listing(&bytes)
    };
    let bad = |number: u8, back: usize| format!("bad file {number} {}\n", place(back));
    assert_eq!(with(&[]), "1 decide 2 1\nopen\n");
    assert_eq!(with(&[(6, 25)]), bad(3, 6));
    assert_eq!(with(&[(6, 255)]), bad(3, 6));
    assert_eq!(with(&[(3, 2)]), bad(4, 3));
    assert_eq!(with(&[(3, 255)]), bad(4, 3));
    assert_eq!(with(&[(2, 13)]), bad(3, 2));
    // The first field that is bad counts.
    assert_eq!(with(&[(3, 2), (2, 13)]), bad(4, 3));
    assert_eq!(with(&[(6, 25), (3, 2), (2, 13)]), bad(3, 6));
    assert_eq!(with(&[(9, 2), (6, 25)]), bad(4, 9));
    assert_eq!(with(&[(8, 13), (6, 25)]), bad(3, 8));
    // Clause, number and constants of an atom are not judged in the file.
    for change in [(5, 0), (5, 255), (4, 0), (4, 3), (4, 255), (1, 0), (1, 3)] {
        assert_eq!(with(&[change]), "1 decide refused 10\nstopped\n");
    }
    // One more atom is counted than there is, and one less.
    assert_eq!(with(&[(6, 2)]), format!("bad file 1 {}\n", bytes.len()));
    assert_eq!(with(&[(6, 0)]), bad(8, 5));
    // Read as version 1 the count is bytes behind the last step.
    let mut other = bytes.clone();
    other[3] = 1;
    assert_eq!(listing(&other), bad(8, 6));
    for back in 1..=6 {
        assert_eq!(listing(&bytes[..place(back)]), bad(1, back));
    }
}

#[test]
fn the_listing_and_the_inspection() {
    let steps = [decide_a(&[denied(1, 1, &[A])]), decide_b(&[stands(1, 1, &[B])])];
    let bytes = write(&file(2, &steps)).bytes;
    let lines = "1 decide 2 1\n2 decide refused 13\nstopped\n";
    assert_eq!(listing(&bytes), lines);
    let last = "constants 2 level 1\n\
                trail 1 P1(1) decide 1 1 (1)\n\
                trail 2 0-1<=-6 brought 1 1 0 (1)\n\
                clause 1 1 [1-0<=5 0-1<=-3] P1(1)\n\
                clause 2 2 [1-2<=4 1-0<=99 0-1<=99 2-0<=99 0-2<=99] P1(1) P2(2)\n\
                conflict none\n";
    assert_eq!(inspection(&bytes), lines.to_string() + last);
    let lines = "1 decide 2 1\nnumbers 6 7\n2 decide refused 13\nstopped\n";
    assert_eq!(inspection_with_numbers(&bytes), lines.to_string() + last);
}

#[test]
fn a_file_is_too_long_by_its_length_alone() {
    let too_long = "bad file 22 65536\n";
    for length in [65_537, 65_538, 70_000, 131_073] {
        assert_eq!(listing(&vec![0; length]), too_long);
    }
    assert_eq!(listing(&vec![0; 65_536]), "bad file 2 0\n");
    for version in [1, 2] {
        let bytes = write(&file(version, &[grow(1)])).bytes;
        let end = bytes.len();
        let stretched = |length: usize| [&bytes[..], &vec![0; length - end]].concat();
        assert_eq!(listing(&stretched(65_536)), format!("bad file 8 {end}\n"));
        assert_eq!(listing(&stretched(65_537)), too_long);
    }
}
