//! What the paper says of every state reached, on generated runs of both versions.

mod common;

use checker::clause::{Atom, Closure, Literal};
use checker::constraint;
use checker::coverage::Coverage;
use checker::file::{read, write, VERSIONS};
use checker::generate::{generate, generate_version, long_file};
use checker::limits;
use checker::listing::{inspection, inspection_with_numbers, listing, run};
use checker::replay::{replayed, steps_behind};
use checker::state::{Entry, State};
use checker::step::{Source, Step};
use std::sync::OnceLock;

const SEEDS: std::ops::Range<u64> = 0..300;

/// The files of both versions, with version and seed.
fn each_file(mut look: impl FnMut(u16, u64, &[u8])) {
    static FILES: OnceLock<Vec<(u16, u64, Vec<u8>)>> = OnceLock::new();
    let files = FILES.get_or_init(|| {
        let seeds = VERSIONS.iter().flat_map(|&version| SEEDS.map(move |seed| (version, seed)));
        seeds.map(|(version, seed)| (version, seed, generate_version(version, seed))).collect()
    });
    files.iter().for_each(|(version, seed, bytes)| look(*version, *seed, bytes));
}

/// Every state that the generated runs reach, with the step that led to it.
fn each_state(mut look: impl FnMut(&State, &Step, &State)) {
    each_file(|version, seed, bytes| {
        let Ok(file) = read(bytes) else { return };
        let mut state = file.first_state();
        for step in &file.steps {
            let before = state.clone();
            if state.take(step).is_err() {
                let place = format!("version {version} seed {seed}");
                assert_eq!(state, before, "{place}: a refused step changed the state");
                break;
            }
            look(&before, step, &state);
        }
    });
}

fn trail_literals(state: &State) -> Vec<Literal> {
    state.trail.iter().filter_map(Entry::literal).copied().collect()
}

fn trail_atoms(state: &State) -> Vec<Atom> {
    state.trail.iter().filter_map(Entry::atom).copied().collect()
}

fn has_twice<T: PartialEq>(items: &[T]) -> bool {
    (0..items.len()).any(|index| items[..index].contains(&items[index]))
}

#[test]
fn no_atom_of_either_kind_twice_on_the_trail() {
    each_state(|_, _, state| {
        let atoms_of_literals: Vec<Literal> = trail_literals(state)
            .into_iter()
            .map(|literal| Literal { positive: true, ..literal })
            .collect();
        assert!(!has_twice(&atoms_of_literals));
        assert!(!has_twice(&trail_atoms(state)));
    });
}

/// Nor an atom with its denial: together they are not possible.
#[test]
fn no_atom_on_the_trail_with_its_denial() {
    each_state(|_, _, state| {
        let atoms = trail_atoms(state);
        assert!(!atoms.iter().any(|atom| atoms.contains(&atom.denial())));
    });
}

/// "so trail constants, and the test's, reach −1,000,001"; those of clauses do not.
#[test]
fn constants_c_within_their_ranges() {
    let mut least = 0;
    each_state(|_, step, state| {
        let atoms = trail_atoms(state);
        least = atoms.iter().fold(least, |least, atom| least.min(atom.c));
        let in_range = |atom: &Atom| (limits::LEAST_GROUND_C..=limits::C).contains(&atom.c);
        assert!(atoms.iter().all(in_range));
        if let Step::Backtrack { .. } = step {
            let learned = state.learned.last().expect("a clause learned");
            assert!(learned.atoms.iter().all(|atom| atom.c.abs() <= limits::C));
        }
    });
    assert_eq!(least, limits::LEAST_GROUND_C);
}

#[test]
fn trail_atoms_possible() {
    each_state(|_, _, state| {
        let numbers = constraint::test(state.constants, &trail_atoms(state));
        assert!(numbers.expect("a set the test takes").is_some());
    });
}

#[test]
fn the_level_is_the_number_of_decisions() {
    each_state(|_, _, state| {
        let decisions = state.trail.iter().filter(|entry| entry.is_decision()).count();
        assert_eq!(state.level, decisions);
    });
}

#[test]
fn learned_clauses_within_the_class_and_limits() {
    each_state(|_, step, state| {
        if let (Step::Backtrack { .. }, Some(clause)) = (step, state.learned.last()) {
            assert_eq!(clause.class_refusal(), None);
            assert!(clause.within_limits());
        }
    });
}

#[test]
fn limits_are_kept() {
    each_state(|_, _, state| {
        assert!(state.trail.len() <= limits::TRAIL);
        assert!(state.learned.len() <= limits::LEARNED_CLAUSES);
        assert!(state.constants <= limits::CONSTANTS);
    });
}

/// A standing conflict is false, within the class, and its atoms are possible together with the
/// trail's; so Backtrack never meets 17.
#[test]
fn a_standing_conflict() {
    each_state(|_, _, state| {
        let Some(conflict) = &state.conflict else { return };
        assert!(conflict.ground_literals().iter().all(|literal| state.is_false(literal)));
        assert_eq!(conflict.clause.class_refusal(), None);
        assert_eq!(conflict.instance.len(), conflict.clause.variables as usize);
        let mut atoms = trail_atoms(state);
        atoms.extend(conflict.ground_atoms());
        assert!(constraint::possible(state.constants, &atoms));
    });
}

/// A propagated literal is its reason's, whose other literals are false further left.
#[test]
fn the_reason_of_every_propagated_literal() {
    each_state(|_, step, state| {
        // Looking at each state once after its last propagation is enough.
        if !matches!(step, Step::Propagate { .. } | Step::Backtrack { .. }) {
            return;
        }
        let index = state.trail.iter().rposition(|entry| entry.literal().is_some()).unwrap();
        let Entry::Foreground(literal, origin) = &state.trail[index] else { unreachable!() };
        let (reason, own) = state.reason(origin);
        let literals = reason.ground_literals();
        assert_eq!(literals[own as usize - 1], *literal);
        assert_eq!(reason.clause.class_refusal(), None);
        let further_left = State { trail: state.trail[..index].to_vec(), ..state.clone() };
        for (number, other) in literals.iter().enumerate() {
            assert!(number + 1 == own as usize || further_left.is_false(other));
        }
        assert!(!has_twice(&reason.clause.atoms));
    });
}

/// "Demand 3 replays a decision with its atoms": the steps behind the trail, taken from nothing over all clauses held,
/// give the same trail and level. With a conflict standing, Skip may have taken some of the last step's atoms away.
#[test]
fn the_steps_behind_the_trail_lead_to_it_again() {
    let mut taken = 0;
    let mut brought = 0;
    each_state(|_, _, state| {
        taken += 1;
        // Each state would take long.
        if taken % 7 > 0 {
            return;
        }
        let mut again = State { trail: vec![], level: 0, conflict: None, ..state.clone() };
        for step in steps_behind(&state.trail) {
            assert_eq!(again.take(&step).err(), None);
        }
        let last = state.trail.iter().rposition(|entry| entry.literal().is_some());
        if let (true, Some(last)) = (state.conflict.is_some(), last) {
            // Skip leaves the last decision's count as it was.
            again.trail.truncate(state.trail.len());
            if state.trail[last].is_decision() {
                again.trail[last] = state.trail[last].clone();
            }
        }
        brought += state.trail.iter().filter(|entry| entry.source().is_some()).count();
        assert_eq!(again.trail, state.trail);
        assert_eq!(again.level, state.level);
    });
    assert!(brought > 10_000, "{brought}");
}

/// The same by a run file, whose input clauses are all those held.
#[test]
fn the_file_of_the_steps_behind_the_trail() {
    let mut files = 0;
    each_file(|version, seed, bytes| {
        let Ok(end) = run(bytes) else { return };
        let Some(file) = replayed(&end.state) else { return };
        let again = run(&write(&file).bytes).expect("a file in order");
        assert!(again.tried.iter().all(|tried| tried.answer.is_ok()));
        assert_eq!(again.state.trail, end.state.trail, "version {version} seed {seed}");
        assert_eq!(again.state.level, end.state.level);
        files += 1;
    });
    assert!(files > 200, "{files}");
}

/// Where no conflict stands, a decision is followed by exactly the atoms that it brought, and atoms are brought nowhere
/// else.
#[test]
fn the_atoms_behind_a_decision() {
    each_state(|_, _, state| {
        let mut owner = 0;
        let mut left = 0;
        for entry in &state.trail {
            match entry {
                Entry::Foreground(_, origin) => {
                    assert_eq!(left, 0, "of {owner} atoms");
                    assert!(origin.decision || origin.brought == 0);
                    (owner, left) = (origin.brought, origin.brought);
                }
                Entry::Background(_, Some(_)) => left -= 1,
                Entry::Background(_, None) => assert_eq!(owner, 0),
            }
        }
        assert!(left == 0 || state.conflict.is_some(), "of {owner} atoms");
    });
}

/// "An atom brought is appended with its source": the clause's atom of that number under the instance, as it stands or
/// denied. The clause is held for good.
#[test]
fn the_source_of_every_atom_brought() {
    each_state(|_, step, state| {
        if !matches!(step, Step::Decide { .. }) {
            return;
        }
        for entry in &state.trail {
            let Entry::Background(atom, Some(source)) = entry else { continue };
            let clause = state.clause(source.clause).expect("held");
            let of_clause = clause.ground_atoms(&source.instance)[source.number as usize - 1];
            assert_eq!(*atom, if source.stands { of_clause } else { of_clause.denial() });
        }
    });
}

/// Every reason against a decision, in any order.
fn reasons_against(state: &State, step: &Step) -> Vec<u8> {
    let Step::Decide { clause, literal, instance, atoms, .. } = step else { unreachable!() };
    let mut reasons = Vec::new();
    if state.conflict.is_some() {
        reasons.push(9);
    }
    let named = if state.version == 1 { &[] } else { &atoms[..] };
    let instance_fits = |clause: u8, instance: &[u8]| {
        let constants = 1..=state.constants as u8;
        state.clause(clause).is_some_and(|held| instance.len() == held.variables as usize)
            && instance.iter().all(|constant| constants.contains(constant))
    };
    let atom_of = |source: &Source| {
        let held = state.clause(source.clause)?;
        let atom = held.atoms.get((source.number as usize).wrapping_sub(1))?;
        let atom =
            instance_fits(source.clause, &source.instance).then(|| atom.at(&source.instance));
        let denial = |atom: Atom| Atom { p: atom.q, q: atom.p, c: -1 - atom.c };
        atom.map(|atom| if source.stands { atom } else { denial(atom) })
    };
    let own = state
        .clause(*clause)
        .and_then(|held| held.literals.get((*literal as usize).wrapping_sub(1)).copied());
    let own = own.filter(|_| instance_fits(*clause, instance));
    let named: Option<Vec<Atom>> = named.iter().map(atom_of).collect();
    let (Some(own), Some(brought)) = (own, named) else {
        reasons.push(10);
        return reasons;
    };
    let own = own.at(instance);
    let is_own = |literal: &Literal| Literal { positive: own.positive, ..*literal } == own;
    let trail = trail_atoms(state);
    let all = [&trail[..], &brought[..]].concat();
    let clash = |one: &Atom, other: &Atom| {
        one == other || (one.p == other.q && one.q == other.p && one.c + other.c == -1)
    };
    let defined = (trail.len()..all.len()).any(|k| all[..k].iter().any(|one| clash(one, &all[k])));
    if trail_literals(state).iter().any(is_own) || defined {
        reasons.push(11);
    }
    if !constraint::possible(state.constants, &all) {
        reasons.push(13);
    }
    if state.trail.len() + brought.len() >= limits::TRAIL {
        reasons.push(18);
    }
    reasons
}

/// "A step's reasons are tried in rising order", across a decision's literal and its atoms.
#[test]
fn a_decision_is_refused_by_the_least_reason_against_it() {
    let mut seen = [0; 32];
    each_file(|version, seed, bytes| {
        let Ok(file) = read(bytes) else { return };
        let mut state = file.first_state();
        for step in &file.steps {
            let answer = state.judge(step).map_err(|refusal| (refusal.number, refusal.place));
            if step.rule() == 2 {
                let least = reasons_against(&state, step).into_iter().min();
                let place = format!("version {version} seed {seed}");
                assert_eq!(
                    answer.as_ref().err(),
                    least.map(|number| (number, 0)).as_ref(),
                    "{place}"
                );
                seen[least.unwrap_or(0) as usize] += 1;
            }
            let Ok(accepted) = answer else { break };
            state.apply(accepted.change);
        }
    });
    assert!([0, 9, 10, 11, 13, 18].iter().all(|&number| seen[number] > 0), "{seen:?}");
}

/// Only what a rule names changes.
#[test]
fn what_stays() {
    each_state(|before, step, after| {
        assert_eq!(before.input, after.input);
        assert_eq!(before.arities, after.arities);
        let learns = matches!(step, Step::Backtrack { .. });
        assert_eq!(before.learned[..], after.learned[..before.learned.len()]);
        assert_eq!(after.learned.len(), before.learned.len() + learns as usize);
        if matches!(step, Step::Conflict { .. } | Step::Resolve { .. } | Step::Factorize { .. }) {
            assert_eq!(before.trail, after.trail);
            assert_eq!(before.level, after.level);
        }
        if !matches!(step, Step::Grow { .. }) {
            assert_eq!(before.constants, after.constants);
        }
    });
}

/// Resolve and Factorize leave literals with the instances that were there, in their order.
#[test]
fn the_instances_of_the_next_conflict() {
    each_state(|before, step, after| {
        let (Some(old), Some(new)) = (&before.conflict, &after.conflict) else { return };
        let mut expected = old.ground_literals();
        match step {
            Step::Resolve { literal } => {
                expected.remove(*literal as usize - 1);
                expected.extend(reason_without_own(before));
            }
            Step::Factorize { first, second } => {
                expected.remove(*first.max(second) as usize - 1);
            }
            _ => {}
        }
        assert_eq!(new.ground_literals(), expected);
        if let Step::Resolve { .. } | Step::Factorize { .. } = step {
            assert!(!has_twice(&new.clause.atoms));
        }
    });
}

/// Propagate, Decide, Conflict and Backtrack hand numbers on, the other rules none. They keep the order and make all atoms true
/// that stand on the trail or in the conflict then, and are the test's for these.
#[test]
fn the_numbers_of_accepted_steps() {
    each_state(|before, step, after| {
        let numbers = before.judge(step).expect("accepted").numbers;
        assert_eq!(numbers.is_some(), [1, 2, 3, 7].contains(&step.rule()));
        let Some(numbers) = numbers else { return };
        let mut atoms = trail_atoms(after);
        atoms.extend(after.conflict.iter().flat_map(Closure::ground_atoms));
        assert_eq!(numbers.len(), after.constants);
        assert!(numbers.windows(2).all(|two| two[0] < two[1]));
        let number = |place: u8| if place == 0 { 0 } else { numbers[place as usize - 1] };
        assert!(atoms.iter().all(|atom| number(atom.p) - number(atom.q) <= atom.c));
        assert_eq!(Some(&numbers), constraint::numbers(after.constants, &atoms).as_ref());
    });
}

fn reason_without_own(state: &State) -> Vec<Literal> {
    let Some(Entry::Foreground(own, origin)) = state.trail.last() else { panic!("accepted") };
    let clause = state.clause(origin.clause).expect("held");
    let literals = clause.ground_literals(&origin.instance);
    literals.into_iter().filter(|literal| literal != own).collect()
}

/// Merging loses nothing: the ground atoms are those of conflict and reason.
#[test]
fn the_atoms_of_the_next_conflict() {
    each_state(|before, step, after| {
        let (Some(old), Some(new)) = (&before.conflict, &after.conflict) else { return };
        let mut expected = old.ground_atoms();
        if let Step::Resolve { .. } = step {
            let Some(Entry::Foreground(_, origin)) = before.trail.last() else {
                panic!("accepted")
            };
            let clause = before.clause(origin.clause).expect("held").clone();
            expected.extend(Closure { clause, instance: origin.instance.clone() }.ground_atoms());
        }
        let new = new.ground_atoms();
        assert!(expected.iter().all(|atom| new.contains(atom)));
        assert!(new.iter().all(|atom| expected.contains(atom)));
    });
}

#[test]
fn files_are_written_as_they_are_read() {
    each_file(|version, seed, bytes| {
        let again = generate_version(version, seed);
        assert_eq!(bytes, again, "version {version} seed {seed} gives different files");
        if let Ok(file) = read(bytes) {
            assert_eq!(write(&file).bytes, bytes);
        }
    });
    for seed in SEEDS {
        assert_eq!(generate(seed), generate_version(1, seed));
    }
}

#[test]
fn every_cut_of_a_file_is_bad_where_the_field_begins() {
    for seed in 0..40 {
        for version in VERSIONS {
            let bytes = generate_version(version, seed);
            let Ok(file) = read(&bytes) else { continue };
            let places: Vec<usize> = write(&file).fields.iter().map(|(_, place)| *place).collect();
            let last = bytes.len().saturating_sub(40)..bytes.len();
            for length in (0..bytes.len().min(400)).chain(last) {
                let place = places.iter().rev().find(|place| **place <= length).unwrap();
                assert_eq!(listing(&bytes[..length]), format!("bad file 1 {place}\n"));
            }
        }
    }
}

#[test]
fn an_inspection_begins_with_the_listing() {
    each_file(|_, _, bytes| {
        let (listing, inspection) = (listing(bytes), inspection(bytes));
        assert!(inspection.starts_with(&listing));
        let bad = listing.starts_with("bad file");
        assert_eq!(bad, inspection == listing);
        assert!(bad || inspection[listing.len()..].starts_with("constants "));
    });
}

/// Numbers come in lines of their own; all other lines stay.
#[test]
fn an_inspection_with_numbers_has_further_lines_alone() {
    let mut further = 0;
    each_file(|_, _, bytes| {
        let text = inspection_with_numbers(bytes);
        let is_further = |line: &&str| line.starts_with("numbers");
        further += text.lines().filter(is_further).count();
        let others: Vec<&str> = text.lines().filter(|line| !is_further(line)).collect();
        assert_eq!(others, inspection(bytes).lines().collect::<Vec<_>>());
    });
    assert!(further > 1_000, "{further}");
}

/// 22 is given by the length alone.
#[test]
fn a_file_that_is_too_long() {
    let mut seen = 0;
    each_file(|_, _, bytes| {
        let too_long = bytes.len() > 65_536;
        seen += too_long as usize;
        assert_eq!(listing(bytes) == "bad file 22 65536\n", too_long);
    });
    assert!(seen > 0);
}

#[test]
fn files_of_any_length() {
    for length in (10_000..70_000).step_by(7_919).chain([65_535, 65_536, 65_537, 65_538]) {
        let bytes = long_file(length).expect("a file of that length");
        assert_eq!(bytes.len(), length);
        let text = listing(&bytes);
        if length > 65_536 {
            assert_eq!(text, "bad file 22 65536\n");
        } else {
            assert!(text.ends_with("\nrefuted\n") && !text.contains("refused"), "{length}");
        }
    }
}

#[test]
fn coverage_names_nothing_that_can_not_be() {
    for version in VERSIONS {
        let mut coverage = Coverage::of(version);
        for seed in SEEDS {
            coverage.run(&generate_version(version, seed));
        }
        assert!(!coverage.report().contains("UNEXPECTED"));
    }
}
