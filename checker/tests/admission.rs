//! Clause records and steps offered without a file.

mod common;

use checker::admission::{admit, ClauseRecord, LiteralRecord, SourceRecord, StepRecord};
use checker::clause::Clause;
use checker::refusal::Refusal;
use common::*;

/// A record of the clause; the slots past its counts hold what would be refused.
fn record(clause: &Clause, arities: &[u8]) -> ClauseRecord {
    let mut record = ClauseRecord {
        variables: clause.variables,
        atom_count: clause.atoms.len() as u8,
        atoms: [atom(99, 99, i32::MIN); 24],
        literal_count: clause.literals.len() as u8,
        literals: [LiteralRecord { sign: 7, predicate: 77, arguments: [99; 3] }; 8],
    };
    record.atoms[..clause.atoms.len()].copy_from_slice(&clause.atoms);
    for (slot, literal) in record.literals.iter_mut().zip(&clause.literals) {
        slot.sign = literal.positive.into();
        slot.predicate = literal.predicate;
        let arity = arities[literal.predicate as usize - 1] as usize;
        slot.arguments[..arity].copy_from_slice(&literal.arguments[..arity]);
    }
    record
}

const ARITIES: [u8; 8] = [1, 2, 99, 99, 99, 99, 99, 99];

fn good() -> ClauseRecord {
    let literals = [literal(1, &[1]), literal(-2, &[1, 2])];
    record(&clause(2, &[at_most(1, 10)], &literals), &ARITIES)
}

fn refusal(number: u8, place: usize) -> Option<Refusal> {
    Some(Refusal { number, place })
}

#[test]
fn slots_past_a_count_are_not_looked_at() {
    let state = admit(1, 2, 2, &ARITIES, &[good()]).unwrap();
    assert_eq!((state.constants, state.level), (2, 0));
    assert_eq!(state.arities, [1, 2]);
    let literals = [literal(1, &[1]), literal(-2, &[1, 2])];
    assert_eq!(state.input, [clause(2, &[at_most(1, 10)], &literals)]);
    assert!(state.trail.is_empty() && state.learned.is_empty() && state.conflict.is_none());
}

#[test]
fn counts_and_arities_come_first() {
    let mut bad = good();
    bad.variables = 13;
    let bad = [bad];
    assert_eq!(admit(1, 17, 2, &ARITIES, &bad).err(), refusal(3, 0));
    assert_eq!(admit(1, 16, 9, &ARITIES, &bad).err(), refusal(3, 0));
    assert_eq!(admit(1, 16, 3, &ARITIES, &bad).err(), refusal(3, 0));
    assert_eq!(admit(1, 16, 2, &ARITIES, &vec![bad[0].clone(); 49]).err(), refusal(3, 0));
    assert_eq!(admit(1, 16, 2, &ARITIES, &bad).err(), refusal(3, 1));
    assert!(admit(1, 16, 2, &ARITIES, &vec![good(); 48]).is_ok());
}

#[test]
fn the_first_bad_clause_is_named() {
    let mut first = good();
    first.atoms[0].c = 2_000_000;
    let mut second = good();
    second.variables = 13;
    let clauses = [first, second];
    assert_eq!(admit(1, 1, 2, &ARITIES, &clauses).err(), refusal(4, 1));
    let clauses = [good(), clauses[1].clone(), clauses[0].clone()];
    assert_eq!(admit(1, 1, 2, &ARITIES, &clauses).err(), refusal(3, 2));
}

#[test]
fn each_field_of_a_record() {
    let changed = |change: fn(&mut ClauseRecord)| {
        let mut record = good();
        change(&mut record);
        admit(1, 1, 2, &ARITIES, &[good(), record]).err().map(|r| (r.number, r.place))
    };
    assert_eq!(changed(|_| ()), None);
    assert_eq!(changed(|r| r.variables = 13), Some((3, 2)));
    assert_eq!(changed(|r| r.atom_count = 25), Some((3, 2)));
    assert_eq!(changed(|r| r.literal_count = 9), Some((3, 2)));
    assert_eq!(changed(|r| r.atoms[0].p = 3), Some((4, 2)));
    assert_eq!(changed(|r| r.atoms[0].q = 3), Some((4, 2)));
    assert_eq!(changed(|r| r.atoms[0].p = 0), Some((4, 2)));
    assert_eq!(changed(|r| r.atoms[0].c = 1_000_001), Some((4, 2)));
    assert_eq!(changed(|r| r.atoms[0].c = -1_000_001), Some((4, 2)));
    assert_eq!(changed(|r| r.atoms[0].c = -1_000_000), None);
    assert_eq!(changed(|r| r.literals[0].sign = 2), Some((4, 2)));
    assert_eq!(changed(|r| r.literals[0].predicate = 0), Some((4, 2)));
    assert_eq!(changed(|r| r.literals[0].predicate = 3), Some((4, 2)));
    assert_eq!(changed(|r| r.literals[1].arguments[1] = 0), Some((4, 2)));
    assert_eq!(changed(|r| r.literals[1].arguments[1] = 3), Some((4, 2)));
    assert_eq!(changed(|r| r.literals[1].arguments[2] = 255), None);
    assert_eq!(changed(|r| r.variables = 3), Some((5, 2)));
    assert_eq!(changed(|r| r.atoms[0].q = 2), Some((6, 2)));
    assert_eq!(
        changed(|r| {
            r.variables = 3;
            r.atoms[0].q = 2;
        }),
        Some((5, 2))
    );
}

#[test]
fn steps_without_a_file() {
    let mut state = admit(1, 1, 2, &ARITIES, &[good()]).unwrap();
    let mut offer = |record: StepRecord| {
        let answer = state.offer(&record);
        answer.map(|_| ()).map_err(|refusal| (refusal.number, refusal.place))
    };
    let none = StepRecord::default();
    for rule in [0, 9, 255] {
        let record = StepRecord { rule, sign: 2, instance_count: 13, ..none.clone() };
        assert_eq!(offer(record), Err((7, 0)));
    }
    let decision = StepRecord { rule: 2, clause: 1, literal: 1, sign: 1, ..none.clone() };
    let long = StepRecord { instance_count: 13, ..decision.clone() };
    assert_eq!(offer(StepRecord { sign: 2, ..long.clone() }), Err((3, 0)));
    assert_eq!(offer(StepRecord { rule: 1, ..long.clone() }), Err((3, 0)));
    assert_eq!(offer(StepRecord { rule: 3, ..long.clone() }), Err((3, 0)));
    assert_eq!(offer(StepRecord { sign: 2, ..decision.clone() }), Err((4, 0)));
    // 3 and 4 are not asked where the rule has no such argument; 9 comes then.
    assert_eq!(offer(StepRecord { rule: 4, sign: 2, ..long.clone() }), Err((9, 0)));
    assert_eq!(offer(decision.clone()), Err((10, 0)));
    let mut good = StepRecord { instance_count: 2, ..decision };
    good.instance[..2].copy_from_slice(&[1, 1]);
    assert_eq!(offer(good), Ok(()));
    assert_eq!(offer(StepRecord { rule: 8, count: 255, ..none.clone() }), Err((18, 0)));
    assert_eq!(offer(StepRecord { rule: 8, count: 15, ..none }), Ok(()));
    assert_eq!((state.constants, state.trail.len()), (16, 0));
}

/// A record of the first clause's only atom at that constant
fn source(constant: u8, sign: u8) -> SourceRecord {
    let mut instance = [99; 12];
    instance[..2].copy_from_slice(&[constant, constant]);
    SourceRecord { clause: 1, number: 1, sign, instance_count: 2, instance }
}

/// P(b) decided; the atoms are those given, and past them such as would be refused.
fn decision(atoms: &[SourceRecord]) -> StepRecord {
    let bad = SourceRecord { sign: 9, instance_count: 99, ..SourceRecord::default() };
    let mut record = StepRecord { rule: 2, clause: 1, literal: 1, sign: 1, ..Default::default() };
    record.instance_count = 2;
    record.instance[..2].copy_from_slice(&[2, 2]);
    record.atom_count = atoms.len() as u8;
    record.atoms = [bad; 24];
    record.atoms[..atoms.len()].copy_from_slice(atoms);
    record
}

#[test]
fn atoms_of_a_decision_without_a_file() {
    let first = admit(2, 2, 2, &ARITIES, &[good()]).unwrap();
    let offer = |record: &StepRecord| {
        let mut state = first.clone();
        let answer = state.offer(record).map_err(|refusal| (refusal.number, refusal.place));
        answer.map(|_| state.trail.len())
    };
    let whole = decision(&[source(1, 0), source(2, 1)]);
    // b1 ≥ 11 and b2 ≤ 10
    assert_eq!(offer(&whole), Err((13, 0)));
    assert_eq!(offer(&decision(&[source(1, 1), source(2, 0)])), Ok(3));
    assert_eq!(offer(&decision(&[])), Ok(1));
    // 3 for any count, 4 for any sign
    let changed = |change: fn(&mut StepRecord)| {
        let mut record = decision(&[source(1, 1), source(2, 0)]);
        change(&mut record);
        offer(&record)
    };
    assert_eq!(changed(|r| r.atom_count = 25), Err((3, 0)));
    assert_eq!(changed(|r| r.atom_count = 255), Err((3, 0)));
    // The third atom has too many constants.
    assert_eq!(changed(|r| r.atom_count = 3), Err((3, 0)));
    assert_eq!(changed(|r| r.atoms[1].instance_count = 13), Err((3, 0)));
    assert_eq!(changed(|r| r.atoms[1].sign = 2), Err((4, 0)));
    assert_eq!(changed(|r| r.sign = 2), Err((4, 0)));
    // 3 before 4, wherever they are
    assert_eq!(
        changed(|r| {
            r.atoms[0].sign = 2;
            r.atoms[1].instance_count = 13;
        }),
        Err((3, 0))
    );
    assert_eq!(
        changed(|r| {
            r.sign = 2;
            r.atom_count = 25;
        }),
        Err((3, 0))
    );
    // 4 of an atom before 10 of the literal, 10 of an atom before 11 of the literal
    assert_eq!(
        changed(|r| {
            r.clause = 9;
            r.atoms[1].sign = 2;
        }),
        Err((4, 0))
    );
    assert_eq!(changed(|r| r.atoms[1].number = 2), Err((10, 0)));
    assert_eq!(changed(|r| r.atoms[1] = r.atoms[0]), Err((11, 0)));
    // Other rules have no atoms.
    assert_eq!(changed(|r| (r.rule, r.count, r.atom_count) = (8, 1, 255)), Ok(0));
}

#[test]
fn in_a_state_of_version_1_atoms_are_not_looked_at() {
    let mut state = admit(1, 2, 2, &ARITIES, &[good()]).unwrap();
    let mut record = decision(&[]);
    record.atom_count = 255;
    assert_eq!(state.offer(&record), yes(&[-1, 0]));
    assert_eq!(state.trail.len(), 1);
}

#[test]
fn a_clause_has_no_c_below_its_range_in_any_version() {
    for version in [1, 2] {
        let mut record = good();
        record.atoms[0].c = -1_000_001;
        assert_eq!(admit(version, 1, 2, &ARITIES, &[record]).err(), refusal(4, 1));
    }
}
