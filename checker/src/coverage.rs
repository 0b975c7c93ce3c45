//! What runs of generated files of one version have come to: each pair of rule and answer, each file refusal by kind
//! of field, and what else is worth being seen.

use crate::clause::{Atom, Closure, Literal};
use crate::constraint;
use crate::file::{self, Field};
use crate::limits;
use crate::listing::Verdict;
use crate::refusal::Refusal;
use crate::rules::{answers, Accepted, Change};
use crate::state::{Entry, State};
use crate::step::{brings_atoms, Source, Step, RULE_NAMES};
use std::collections::{BTreeMap, BTreeSet};
use std::fmt::Write;

use Field::{
    Argument, Arity, Atoms, BroughtClause, BroughtConstant, BroughtCount, BroughtInstanceCount,
    BroughtNumber, BroughtSign, Clauses, Constants, GrowCount, InstanceConstant, InstanceCount,
    Literals, Mark, Predicate, Predicates, Rule, Sign, StepClause, StepLiteral, StepSign, Steps,
    Surplus, Variables, Version, C, P, Q,
};

/// The kinds of field at which a file of any version can be refused by each number.
const REACHABLE_IN_FILES: [(u8, &[Field]); 9] = [
    (
        1,
        &[
            Mark,
            Version,
            Constants,
            Predicates,
            Arity,
            Clauses,
            Variables,
            Atoms,
            Literals,
            P,
            Q,
            C,
            Sign,
            Predicate,
            Argument,
            Steps,
            Rule,
            StepClause,
            StepLiteral,
            StepSign,
            InstanceCount,
            InstanceConstant,
            GrowCount,
        ],
    ),
    (2, &[Mark, Version]),
    (3, &[Constants, Predicates, Arity, Clauses, Variables, Atoms, Literals, Steps, InstanceCount]),
    (4, &[P, Q, C, Sign, Predicate, Argument, StepSign]),
    (5, &[Field::Clause]),
    (6, &[Field::Clause]),
    (7, &[Rule]),
    (8, &[Surplus]),
    (22, &[Field::File]),
];

/// The same for the fields that decisions have only where they bring atoms.
const REACHABLE_IN_ATOMS: [(u8, &[Field]); 3] = [
    (
        1,
        &[
            BroughtCount,
            BroughtClause,
            BroughtNumber,
            BroughtSign,
            BroughtInstanceCount,
            BroughtConstant,
        ],
    ),
    (3, &[BroughtCount, BroughtInstanceCount]),
    (4, &[BroughtSign]),
];

/// The file refusals that files of a version can meet, by kind of field.
pub fn reachable_in_files(version: u16) -> Vec<(u8, Field)> {
    let of_atoms = if brings_atoms(version) { &REACHABLE_IN_ATOMS[..] } else { &[] };
    let tables = REACHABLE_IN_FILES.iter().chain(of_atoms);
    tables.flat_map(|(number, fields)| fields.iter().map(|field| (*number, *field))).collect()
}

/// What else is to be seen of files of a version, besides pairs and file refusals.
pub fn sights(version: u16) -> Vec<&'static str> {
    let of_version: &[&str] =
        if brings_atoms(version) { &SIGHTS_WITH_ATOMS } else { &SIGHTS_WITHOUT_ATOMS };
    [&SIGHTS, of_version].concat()
}

/// Where decisions bring no atoms.
const SIGHTS_WITHOUT_ATOMS: [&str; 1] = ["file: 42,994 bytes"];

/// Where decisions may bring atoms.
const SIGHTS_WITH_ATOMS: [&str; 57] = [
    "file: 65,536 bytes",
    "file: 65,536 bytes, all steps accepted",
    "22: in order but for its length",
    "run: trail of 160, atoms brought on it",
    "run: more than 100 atoms brought on the trail",
    "propagate: an atom that a decision brought",
    "decide: no atoms",
    "decide: one atom",
    "decide: 24 atoms",
    "decide: an atom as it stands",
    "decide: an atom denied",
    "decide: an atom of the literal's clause",
    "decide: an atom of another clause",
    "decide: an atom of a learned clause",
    "decide: a difference",
    "decide: a difference denied",
    "decide: a constant and itself",
    "decide: c 1,000,000",
    "decide: c -1,000,000",
    "decide: c -1,000,001",
    "decide: an atom that follows from others",
    "decide: atoms onto a trail with atoms",
    "decide: atoms onto a trail with atoms brought",
    "decide: atoms up to 160 entries",
    "conflict: atoms brought on the trail",
    "skip: atom brought",
    "skip: decision that brought atoms",
    "backtrack: over a decision that brought atoms",
    "backtrack: a decision that brought atoms is kept",
    "backtrack: some atoms of a decision skipped before",
    "backtrack: an atom brought is kept",
    "backtrack: an atom brought goes and comes again",
    "grow: atoms brought on the trail",
    "10: atom's clause 0",
    "10: atom's clause above the last",
    "10: atom 0",
    "10: atom above the last",
    "10: atom's instance too short",
    "10: atom's instance too long",
    "10: atom's constant 0",
    "10: atom's constant above the last",
    "11: atom on the trail, of a propagation",
    "11: atom on the trail, brought",
    "11: denial on the trail",
    "11: atom brought before it",
    "11: denial brought before it",
    "13: decide, atoms alone possible",
    "13: decide, atoms alone not possible",
    "18: decide with room for the literal alone",
    "18: decide by one entry too many",
    "decide: 9 before 10 of an atom",
    "decide: 10 of an atom before 11 of the literal",
    "decide: 10 of an atom before 11 of another",
    "decide: 11 of an atom before 13",
    "decide: 11 of an atom before 18",
    "decide: 13 before 18",
    "numbers: b as far from 0 as c -1,000,001 has it",
];

/// In every version.
const SIGHTS: [&str; 144] = [
    "file: no steps",
    "file: 2,000 steps, all accepted",
    "file: 65,536 bytes, bad",
    "22: 65,537 bytes",
    "22: more bytes",
    "22: mark wrong",
    "22: version wrong",
    "file: no constants",
    "file: 16 constants",
    "file: no predicates",
    "file: no clauses",
    "file: 48 clauses",
    "file: both places of an atom 0",
    "file: place above the variables in q",
    "run: refuted",
    "run: refuted, then a step refused",
    "run: stopped",
    "run: open",
    "run: trail of 160",
    "run: 48 learned clauses",
    "run: level above 20",
    "propagate: clause learned",
    "propagate: literals merged into L",
    "propagate: L not first in its reason",
    "propagate: variables merged in the reason",
    "propagate: atoms new and old",
    "propagate: an atom twice in the clause",
    "decide: positive",
    "decide: negative",
    "decide: clause learned",
    "conflict: clause learned",
    "conflict: clause without literals",
    "conflict: an atom twice in the clause",
    "resolve: reason learned",
    "resolve: reason merged",
    "resolve: an atom goes",
    "resolve: a variable goes unmerged",
    "resolve: two of the conflict's variables merged",
    "resolve: two of the reason's variables merged",
    "resolve: 12 variables left",
    "resolve: 24 atoms left",
    "resolve: 8 literals left",
    "resolve: no literals left",
    "resolve: complement still in the conflict",
    "resolve: the fifth time for one conflict",
    "factorize: variables merged",
    "factorize: an atom goes",
    "factorize: equal literals",
    "factorize: larger number first",
    "skip: atom",
    "skip: propagated literal",
    "skip: decision",
    "backtrack: no other literals",
    "backtrack: other literals of level 0 only",
    "backtrack: to a level above 0",
    "backtrack: over several decisions",
    "backtrack: part of a propagation skipped before",
    "backtrack: new atoms",
    "backtrack: old atoms",
    "backtrack: clause held already",
    "backtrack: clause not held yet",
    "backtrack: trail of 160",
    "grow: empty trail",
    "grow: trail not empty",
    "grow: clauses learned",
    "grow: from 0 constants",
    "grow: to 16 constants",
    "10: clause 0",
    "10: clause above the last",
    "10: literal 0",
    "10: literal above the last",
    "10: instance too short",
    "10: instance too long",
    "10: constant 0",
    "10: constant above the last",
    "10: one literal twice",
    "11: literal on the trail",
    "11: complement on the trail",
    "12: literal true",
    "12: literal undefined",
    "12 at 1",
    "12 at 2",
    "12 at 3",
    "12 at 4",
    "12 at 5",
    "12 at 6",
    "12 at 7",
    "12 at 8",
    "13: clause atoms alone possible",
    "13: clause atoms alone not possible",
    "14: resolve on an atom",
    "14: resolve on a decision",
    "18: propagate onto 160 entries",
    "18: propagate onto fewer entries",
    "18: resolve, variables only",
    "18: resolve, atoms only",
    "18: resolve, literals only",
    "18: backtrack, trail only",
    "18: backtrack, learned clauses only",
    "9 before 10",
    "propagate: 11 before 12",
    "propagate: 11 before 13",
    "propagate: 11 before 18",
    "propagate: 12 before 13",
    "propagate: 12 before 18",
    "propagate: 13 before 18",
    "decide: 11 before 18",
    "conflict: 12 before 13",
    "resolve: 14 with a literal not its complement",
    "backtrack: 15 before 18",
    "backtrack: 16 before 18",
    "refuted: 9 for rules 1, 2, 3, 8",
    "refuted: 10 for rules 4, 5, 7",
    "propagate: numbers of no constants",
    "propagate: a number of one constant",
    "propagate: numbers of several constants",
    "propagate: numbers of 16 constants",
    "propagate: a number below 0",
    "propagate: a number that is 0",
    "propagate: a number above 0",
    "decide: numbers of no constants",
    "decide: a number of one constant",
    "decide: numbers of several constants",
    "decide: numbers of 16 constants",
    "decide: a number below 0",
    "decide: a number that is 0",
    "decide: a number above 0",
    "conflict: numbers of no constants",
    "conflict: a number of one constant",
    "conflict: numbers of several constants",
    "conflict: numbers of 16 constants",
    "conflict: a number below 0",
    "conflict: a number that is 0",
    "conflict: a number above 0",
    "backtrack: numbers of no constants",
    "backtrack: a number of one constant",
    "backtrack: numbers of several constants",
    "backtrack: numbers of 16 constants",
    "backtrack: a number below 0",
    "backtrack: a number that is 0",
    "backtrack: a number above 0",
    "numbers: above 1,000,000",
    "numbers: below -1,000,000",
    "numbers: a difference as large as it may be",
];

/// What is to be seen of the numbers that each rule hands on.
const OF_NUMBERS: [(u8, [&str; 7]); 4] = [
    (
        1,
        [
            "propagate: numbers of no constants",
            "propagate: a number of one constant",
            "propagate: numbers of several constants",
            "propagate: numbers of 16 constants",
            "propagate: a number below 0",
            "propagate: a number that is 0",
            "propagate: a number above 0",
        ],
    ),
    (
        2,
        [
            "decide: numbers of no constants",
            "decide: a number of one constant",
            "decide: numbers of several constants",
            "decide: numbers of 16 constants",
            "decide: a number below 0",
            "decide: a number that is 0",
            "decide: a number above 0",
        ],
    ),
    (
        3,
        [
            "conflict: numbers of no constants",
            "conflict: a number of one constant",
            "conflict: numbers of several constants",
            "conflict: numbers of 16 constants",
            "conflict: a number below 0",
            "conflict: a number that is 0",
            "conflict: a number above 0",
        ],
    ),
    (
        7,
        [
            "backtrack: numbers of no constants",
            "backtrack: a number of one constant",
            "backtrack: numbers of several constants",
            "backtrack: numbers of 16 constants",
            "backtrack: a number below 0",
            "backtrack: a number that is 0",
            "backtrack: a number above 0",
        ],
    ),
];

/// The counts.
pub struct Coverage {
    /// That of the files, damage apart.
    version: u16,
    pub files: usize,
    pub steps: usize,
    pairs: BTreeMap<(u8, u8), usize>,
    /// Pairs that occurred in files of a version in which they can't.
    unexpected: BTreeSet<(u16, u8, u8)>,
    in_files: BTreeMap<(u8, Field), usize>,
    sights: BTreeMap<&'static str, usize>,
}

impl Coverage {
    /// The counts of no files, for files of that version.
    pub fn of(version: u16) -> Coverage {
        Coverage {
            version,
            files: 0,
            steps: 0,
            pairs: BTreeMap::new(),
            unexpected: BTreeSet::new(),
            in_files: BTreeMap::new(),
            sights: BTreeMap::new(),
        }
    }

    /// Runs a file and counts what it comes to.
    pub fn run(&mut self, bytes: &[u8]) {
        self.files += 1;
        match file::read(bytes) {
            Err(bad) if bad.field == Field::File => {
                *self.in_files.entry((bad.refusal.number, bad.field)).or_default() += 1;
                self.too_long(bytes);
            }
            Err(bad) => {
                self.see("file: 65,536 bytes, bad", bytes.len() == limits::FILE_BYTES);
                *self.in_files.entry((bad.refusal.number, bad.field)).or_default() += 1;
                let both_0 = bad.field == Q && bytes.get(bad.refusal.place) == Some(&0);
                let number = bad.refusal.number;
                self.see("file: both places of an atom 0", number == 4 && both_0);
                self.see(
                    "file: place above the variables in q",
                    number == 4 && bad.field == Q && !both_0,
                );
            }
            Ok(file) => {
                self.see("file: no steps", file.steps.is_empty());
                self.see("file: 42,994 bytes", bytes.len() == 42_994);
                self.see("file: 65,536 bytes", bytes.len() == limits::FILE_BYTES);
                self.see("file: no constants", file.constants == 0);
                self.see("file: 16 constants", file.constants as usize == limits::CONSTANTS);
                self.see("file: no predicates", file.arities.is_empty());
                self.see("file: no clauses", file.clauses.is_empty());
                self.see("file: 48 clauses", file.clauses.len() == limits::INPUT_CLAUSES);
                let all_accepted = self.run_steps(file.first_state(), &file.steps);
                let longest = bytes.len() == limits::FILE_BYTES;
                self.see("file: 65,536 bytes, all steps accepted", longest && all_accepted);
            }
        }
    }

    fn too_long(&mut self, bytes: &[u8]) {
        let one_more = bytes.len() == limits::FILE_BYTES + 1;
        self.see("22: 65,537 bytes", one_more);
        self.see("22: more bytes", !one_more);
        let fields = file::read_fields(bytes);
        let wrong = |field| fields.as_ref().is_err_and(|bad| bad.field == field);
        self.see("22: mark wrong", wrong(Mark));
        self.see("22: version wrong", wrong(Version));
        self.see("22: in order but for its length", fields.is_ok());
    }

    /// Whether all steps are accepted.
    fn run_steps(&mut self, mut state: State, steps: &[Step]) -> bool {
        let mut refused = false;
        let mut resolved = 0;
        for step in steps {
            let judged = state.judge(step);
            let answer = judged.as_ref().map_or_else(|refusal| refusal.number, |_| 0);
            *self.pairs.entry((step.rule(), answer)).or_default() += 1;
            self.steps += 1;
            if !answers(state.version)[step.rule() as usize - 1].1.contains(&answer) {
                self.unexpected.insert((state.version, step.rule(), answer));
            }
            match judged {
                Ok(Accepted { change, numbers }) => {
                    self.accepted(&state, step, &change);
                    resolved = match step {
                        Step::Resolve { .. } => resolved + 1,
                        Step::Conflict { .. } => 0,
                        _ => resolved,
                    };
                    let fifth = step.rule() == 4 && resolved == 5;
                    self.see("resolve: the fifth time for one conflict", fifth);
                    state.apply(change);
                    if let Some(numbers) = numbers {
                        self.handed_on(&state, step.rule(), &numbers);
                    }
                    let full = state.trail.len() == limits::TRAIL;
                    let brought = brought_on(&state).count();
                    self.see("run: trail of 160", full);
                    self.see("run: trail of 160, atoms brought on it", full && brought > 0);
                    self.see("run: more than 100 atoms brought on the trail", brought > 100);
                    let learned = state.learned.len();
                    self.see("run: 48 learned clauses", learned == limits::LEARNED_CLAUSES);
                    self.see("run: level above 20", state.level > 20);
                }
                Err(refusal) => {
                    self.refused(&state, step, refusal);
                    refused = true;
                    break;
                }
            }
        }
        let verdict = Verdict::of(&state, refused);
        self.see("run: refuted", verdict == Verdict::Refuted);
        self.see("run: refuted, then a step refused", verdict == Verdict::Refuted && refused);
        self.see("run: stopped", verdict == Verdict::Stopped);
        self.see("run: open", verdict == Verdict::Open);
        self.see("file: 2,000 steps, all accepted", steps.len() == limits::STEPS && !refused);
        !refused
    }

    fn see(&mut self, sight: &'static str, seen: bool) {
        debug_assert!([1, 2].iter().any(|&version| sights(version).contains(&sight)), "{sight}");
        if seen {
            *self.sights.entry(sight).or_default() += 1;
        }
    }

    fn accepted(&mut self, state: &State, step: &Step, change: &Change) {
        match (step, change) {
            (Step::Propagate { clause, .. }, Change::Propagated(entries)) => {
                self.propagated(state, *clause, entries);
            }
            (Step::Decide { clause, positive, .. }, Change::Decided(entries)) => {
                self.see("decide: positive", *positive);
                self.see("decide: negative", !positive);
                self.see("decide: clause learned", is_learned(state, *clause));
                self.decided(state, *clause, &entries[1..]);
            }
            (Step::Conflict { clause, .. }, Change::Conflict(conflict)) => {
                self.see("conflict: clause learned", is_learned(state, *clause));
                self.see("conflict: clause without literals", conflict.is_refutation());
                self.see(
                    "conflict: an atom twice in the clause",
                    has_twice(&conflict.clause.atoms),
                );
                let brought = brought_on(state).next().is_some();
                self.see("conflict: atoms brought on the trail", brought);
            }
            (Step::Resolve { literal }, Change::Conflict(after)) => {
                self.resolved(state, *literal, after);
            }
            (Step::Factorize { first, second }, Change::Conflict(after)) => {
                self.factorized(state, *first, *second, after);
            }
            (Step::Skip, _) => {
                let last = state.trail.last();
                self.see("skip: atom", last.is_some_and(|entry| entry.atom().is_some()));
                self.see("skip: decision", last.is_some_and(Entry::is_decision));
                let propagated =
                    last.is_some_and(|entry| entry.literal().is_some() && !entry.is_decision());
                self.see("skip: propagated literal", propagated);
                let brought = last.is_some_and(|entry| entry.source().is_some());
                self.see("skip: atom brought", brought);
                let brought = last.is_some_and(|entry| brought_by(entry) > 0);
                self.see("skip: decision that brought atoms", brought);
            }
            (Step::Backtrack { literal }, Change::Learned { kept, entries, level }) => {
                self.backtracked(state, *literal, *kept, entries, *level);
            }
            (Step::Grow { count }, _) => {
                self.see("grow: empty trail", state.trail.is_empty());
                self.see("grow: trail not empty", !state.trail.is_empty());
                self.see("grow: clauses learned", !state.learned.is_empty());
                let brought = brought_on(state).next().is_some();
                self.see("grow: atoms brought on the trail", brought);
                self.see("grow: from 0 constants", state.constants == 0);
                let constants = state.constants + *count as usize;
                self.see("grow: to 16 constants", constants == limits::CONSTANTS);
            }
            _ => unreachable!("a step changes what its rule says"),
        }
    }

    /// The atoms that a decision brings, as entries.
    fn decided(&mut self, state: &State, clause: u8, entries: &[Entry]) {
        self.see("decide: no atoms", entries.is_empty());
        self.see("decide: one atom", entries.len() == 1);
        self.see("decide: 24 atoms", entries.len() == limits::BROUGHT);
        if entries.is_empty() {
            return;
        }
        let on_trail = state.trail.iter().any(|entry| entry.atom().is_some());
        let brought = brought_on(state).next().is_some();
        self.see("decide: atoms onto a trail with atoms", on_trail);
        self.see("decide: atoms onto a trail with atoms brought", brought);
        let full = state.trail.len() + 1 + entries.len() == limits::TRAIL;
        self.see("decide: atoms up to 160 entries", full);
        for entry in entries {
            let Entry::Background(atom, Some(source)) = entry else { unreachable!("brought") };
            self.see("decide: an atom as it stands", source.stands);
            self.see("decide: an atom denied", !source.stands);
            self.see("decide: an atom of the literal's clause", source.clause == clause);
            self.see("decide: an atom of another clause", source.clause != clause);
            self.see("decide: an atom of a learned clause", is_learned(state, source.clause));
            let difference = atom.is_difference() && atom.p != atom.q;
            self.see("decide: a difference", difference);
            self.see("decide: a difference denied", difference && !source.stands);
            self.see("decide: a constant and itself", atom.p == atom.q);
            self.see("decide: c 1,000,000", atom.c == limits::C);
            self.see("decide: c -1,000,000", atom.c == -limits::C);
            self.see("decide: c -1,000,001", atom.c == limits::LEAST_GROUND_C);
            let follows = !is_possible(state, vec![atom.denial()]);
            self.see("decide: an atom that follows from others", follows);
        }
    }

    /// Numbers that a step hands on, with the state after it.
    fn handed_on(&mut self, after: &State, rule: u8, numbers: &[i32]) {
        let of_rule = OF_NUMBERS.iter().find(|(of, _)| *of == rule);
        let (_, sights) = of_rule.expect("a rule that hands numbers on");
        let constants = numbers.len();
        self.see(sights[0], constants == 0);
        self.see(sights[1], constants == 1);
        self.see(sights[2], constants > 1);
        self.see(sights[3], constants == limits::CONSTANTS);
        self.see(sights[4], numbers.iter().any(|&number| number < 0));
        self.see(sights[5], numbers.contains(&0));
        self.see(sights[6], numbers.iter().any(|&number| number > 0));
        self.see("numbers: above 1,000,000", numbers.iter().any(|&number| number > limits::C));
        self.see("numbers: below -1,000,000", numbers.iter().any(|&number| number < -limits::C));
        // All that was asked if it is possible is on the trail now, or in the conflict.
        let of_conflict = after.conflict.as_ref().map_or(Vec::new(), Closure::ground_atoms);
        let mut atoms = after.trail.iter().filter_map(Entry::atom).chain(&of_conflict);
        let number = |place: u8| numbers[place as usize - 1];
        self.see(
            "numbers: a difference as large as it may be",
            atoms.any(|atom| {
                atom.is_difference()
                    && atom.p != atom.q
                    && number(atom.p) - number(atom.q) == atom.c
            }),
        );
        let mut atoms = after.trail.iter().filter_map(Entry::atom);
        let least = limits::LEAST_GROUND_C;
        let at_end = |atom: &Atom| match (atom.p, atom.q) {
            (0, b) => atom.c == least && number(b) == -least,
            (b, 0) => atom.c == least && number(b) == least,
            _ => false,
        };
        self.see("numbers: b as far from 0 as c -1,000,001 has it", atoms.any(at_end));
    }

    fn propagated(&mut self, state: &State, clause: u8, entries: &[Entry]) {
        let held = state.clause(clause).expect("accepted");
        let Entry::Foreground(_, origin) = &entries[0] else { unreachable!("L comes first") };
        let (reason, own) = state.reason(origin);
        self.see("propagate: clause learned", is_learned(state, clause));
        let merged = reason.clause.literals.len() < held.literals.len();
        self.see("propagate: literals merged into L", merged);
        self.see("propagate: L not first in its reason", own > 1);
        let variables = reason.clause.variables < held.variables;
        self.see("propagate: variables merged in the reason", variables);
        let different = distinct(&held.ground_atoms(&origin.instance));
        let new = entries.len() - 1;
        self.see("propagate: atoms new and old", 0 < new && new < different);
        self.see("propagate: an atom twice in the clause", has_twice(&held.atoms));
        let atoms = held.ground_atoms(&origin.instance);
        let brought = brought_on(state).any(|atom| atoms.contains(atom));
        self.see("propagate: an atom that a decision brought", brought);
    }

    fn resolved(&mut self, state: &State, literal: u8, after: &Closure) {
        let before = state.conflict.as_ref().expect("accepted");
        let Some(Entry::Foreground(last, origin)) = state.trail.last() else {
            unreachable!("accepted")
        };
        let (reason, own) = state.reason(origin);
        let held = state.clause(origin.clause).expect("held");
        self.see("resolve: reason learned", is_learned(state, origin.clause));
        let literals = reason.clause.literals.len();
        self.see("resolve: reason merged", literals < held.literals.len());
        let atoms = before.clause.atoms.len() + reason.clause.atoms.len();
        self.see("resolve: an atom goes", after.clause.atoms.len() < atoms);
        let ours = before.clause.literals[literal as usize - 1];
        let theirs = reason.clause.literals[own as usize - 1];
        let merged = merges(&ours, &theirs);
        self.see("resolve: two of the conflict's variables merged", merged.0);
        self.see("resolve: two of the reason's variables merged", merged.1);
        let left = (before.clause.variables + reason.clause.variables) as usize - merged.2;
        self.see("resolve: a variable goes unmerged", (after.clause.variables as usize) < left);
        self.see(
            "resolve: 12 variables left",
            after.clause.variables as usize == limits::VARIABLES,
        );
        self.see("resolve: 24 atoms left", after.clause.atoms.len() == limits::ATOMS);
        self.see("resolve: 8 literals left", after.clause.literals.len() == limits::LITERALS);
        self.see("resolve: no literals left", after.is_refutation());
        let still = after.ground_literals().contains(&last.complement());
        self.see("resolve: complement still in the conflict", still);
    }

    fn factorized(&mut self, state: &State, first: u8, second: u8, after: &Closure) {
        let before = state.conflict.as_ref().expect("accepted");
        let literal = |number: u8| before.clause.literals[number as usize - 1];
        self.see("factorize: variables merged", after.clause.variables < before.clause.variables);
        self.see("factorize: an atom goes", after.clause.atoms.len() < before.clause.atoms.len());
        self.see("factorize: equal literals", literal(first) == literal(second));
        self.see("factorize: larger number first", first > second);
    }

    fn backtracked(
        &mut self,
        state: &State,
        literal: u8,
        kept: usize,
        entries: &[Entry],
        level: usize,
    ) {
        let conflict = state.conflict.as_ref().expect("accepted");
        let own = conflict.ground_literals()[literal as usize - 1];
        let own_level = state.level_of(&own).expect("false");
        let alone = conflict.clause.literals.len() == 1;
        self.see("backtrack: no other literals", alone);
        self.see("backtrack: other literals of level 0 only", !alone && level == 0);
        self.see("backtrack: to a level above 0", level > 0);
        self.see("backtrack: over several decisions", own_level > level + 1);
        self.see("backtrack: part of a propagation skipped before", last_is_cut(state));
        let new = entries.len() - 1;
        self.see("backtrack: new atoms", new > 0);
        self.see("backtrack: old atoms", new < distinct(&conflict.ground_atoms()));
        let held = state.input.iter().chain(&state.learned).any(|held| *held == conflict.clause);
        self.see("backtrack: clause held already", held);
        self.see("backtrack: clause not held yet", !held);
        self.see("backtrack: trail of 160", kept + entries.len() == limits::TRAIL);
        self.see("backtrack: some atoms of a decision skipped before", last_decision_is_cut(state));
        let brought = |entries: &[Entry]| entries.iter().any(|entry| brought_by(entry) > 0);
        self.see("backtrack: over a decision that brought atoms", brought(&state.trail[kept..]));
        self.see("backtrack: a decision that brought atoms is kept", brought(&state.trail[..kept]));
        let atoms = conflict.ground_atoms();
        let of_conflict = |entry: &&Entry| {
            entry.source().is_some() && entry.atom().is_some_and(|atom| atoms.contains(atom))
        };
        let (stays, goes) = state.trail.split_at(kept);
        self.see("backtrack: an atom brought is kept", stays.iter().any(|e| of_conflict(&e)));
        self.see(
            "backtrack: an atom brought goes and comes again",
            goes.iter().any(|e| of_conflict(&e)),
        );
    }

    fn refused(&mut self, state: &State, step: &Step, refusal: Refusal) {
        let refuted = state.conflict.as_ref().is_some_and(Closure::is_refutation);
        self.see("refuted: 9 for rules 1, 2, 3, 8", refuted && refusal.number == 9);
        self.see("refuted: 10 for rules 4, 5, 7", refuted && refusal.number == 10);
        self.several_reasons(state, step, refusal.number);
        match (refusal.number, step) {
            (10, _) => self.nothing_such(state, step),
            (11 | 13 | 18, Step::Decide { atoms, .. })
                if refusal.number > 11 || literal_alone(state, step) != Some(11) =>
            {
                self.atoms_refused(state, atoms, refusal.number);
            }
            (11 | 13, Step::Propagate { clause, literal, instance })
            | (11, Step::Decide { clause, literal, instance, .. }) => {
                let held = state.clause(*clause).expect("10 is past");
                let own = held.literals[*literal as usize - 1].at(instance);
                if refusal.number == 11 {
                    self.see("11: complement on the trail", state.is_false(&own));
                    self.see("11: literal on the trail", !state.is_false(&own));
                } else {
                    self.impossible(state, &held.ground_atoms(instance));
                }
            }
            (13, Step::Conflict { clause, instance }) => {
                let held = state.clause(*clause).expect("10 is past");
                self.impossible(state, &held.ground_atoms(instance));
            }
            (
                12,
                Step::Propagate { clause, instance, .. } | Step::Conflict { clause, instance },
            ) => {
                let held = state.clause(*clause).expect("10 is past");
                let bad = held.literals[refusal.place - 1].at(instance);
                self.see("12: literal undefined", state.is_undefined(&bad));
                self.see("12: literal true", !state.is_undefined(&bad));
                self.see(AT_12[refusal.place - 1], true);
            }
            (14, Step::Resolve { .. }) => {
                let last = state.trail.last();
                let atom = last.is_some_and(|entry| entry.atom().is_some());
                self.see("14: resolve on an atom", atom);
                self.see("14: resolve on a decision", last.is_some_and(Entry::is_decision));
            }
            (18, Step::Propagate { .. }) => {
                let full = state.trail.len() == limits::TRAIL;
                self.see("18: propagate onto 160 entries", full);
                self.see("18: propagate onto fewer entries", !full);
            }
            (18, Step::Resolve { literal }) => self.too_wide(state, *literal),
            (18, Step::Backtrack { .. }) => {
                let full = state.learned.len() == limits::LEARNED_CLAUSES;
                self.see("18: backtrack, trail only", !full);
                // With few entries on the trail the reason is the learned clauses alone.
                let room = state.trail.len() + limits::ATOMS <= limits::TRAIL;
                self.see("18: backtrack, learned clauses only", full && room);
            }
            _ => {}
        }
    }

    /// A decision that is refused by that number for its atoms, or since there is no room.
    fn atoms_refused(&mut self, state: &State, named: &[Source], number: u8) {
        let atoms = ground(state, named);
        match number {
            11 => {
                let stands = |atom: &Atom| state.has_atom(state.trail.len(), atom);
                let brought = |atom: &Atom| brought_on(state).any(|on_trail| on_trail == atom);
                for (index, atom) in atoms.iter().enumerate() {
                    let (before, denial) = (&atoms[..index], atom.denial());
                    let propagated = stands(atom) && !brought(atom);
                    self.see("11: atom on the trail, of a propagation", propagated);
                    self.see("11: atom on the trail, brought", brought(atom));
                    self.see("11: denial on the trail", stands(&denial));
                    self.see("11: atom brought before it", before.contains(atom));
                    self.see("11: denial brought before it", before.contains(&denial));
                }
            }
            13 => {
                let alone = constraint::possible(state.constants, &atoms);
                self.see("13: decide, atoms alone possible", alone);
                self.see("13: decide, atoms alone not possible", !alone);
            }
            _ => {
                let length = state.trail.len();
                self.see("18: decide with room for the literal alone", length < limits::TRAIL);
                let one = length + atoms.len() == limits::TRAIL;
                self.see("18: decide by one entry too many", one && !atoms.is_empty());
            }
        }
    }

    /// Decisions with a further reason against them than the one given, 10 or above.
    fn several_reasons_against_decide(&mut self, state: &State, step: &Step, number: u8) {
        let Step::Decide { atoms: named, .. } = step else { return };
        let alone = literal_alone(state, step);
        if number == 10 {
            let defined = alone == Some(11);
            self.see("decide: 10 of an atom before 11 of the literal", defined);
            // The atoms that there are, without the others.
            let atoms = ground(state, named);
            let defined = (0..atoms.len()).any(|index| {
                let is = |atom: &Atom| {
                    state.has_atom(state.trail.len(), atom) || atoms[..index].contains(atom)
                };
                is(&atoms[index]) || is(&atoms[index].denial())
            });
            self.see("decide: 10 of an atom before 11 of another", alone.is_none() && defined);
            return;
        }
        let atoms = ground(state, named);
        let full = state.trail.len() + 1 + atoms.len() > limits::TRAIL;
        let by_atom = number == 11 && alone != Some(11);
        self.see("decide: 11 before 18", number == 11 && full);
        self.see("decide: 11 of an atom before 18", by_atom && full);
        self.see("decide: 13 before 18", number == 13 && full);
        let impossible = by_atom && !is_possible(state, atoms);
        self.see("decide: 11 of an atom before 13", impossible);
    }

    /// Steps with a further reason against them than the one given.
    fn several_reasons(&mut self, state: &State, step: &Step, number: u8) {
        if number == 9 && state.conflict.is_some() {
            let other = State { conflict: None, ..state.clone() };
            let then = other.judge(step).err().map(|refusal| refusal.number);
            self.see("9 before 10", then == Some(10));
            let by_atom = step.rule() == 2 && literal_alone(&other, step) != Some(10);
            self.see("decide: 9 before 10 of an atom", then == Some(10) && by_atom);
        }
        match step {
            Step::Propagate { clause, literal, instance } if number > 10 => {
                let held = state.clause(*clause).expect("10 is past");
                let own = held.literals[*literal as usize - 1].at(instance);
                let others = held.ground_literals(instance);
                let not_false = others.iter().any(|other| *other != own && !state.is_false(other));
                let atoms = held.ground_atoms(instance);
                let on_trail = |atom: &Atom| state.has_atom(state.trail.len(), atom);
                let new: Vec<Atom> = atoms.iter().filter(|a| !on_trail(a)).copied().collect();
                let full = state.trail.len() + 1 + distinct(&new) > limits::TRAIL;
                let impossible = !is_possible(state, atoms);
                self.see("propagate: 11 before 12", number == 11 && not_false);
                self.see("propagate: 11 before 13", number == 11 && impossible);
                self.see("propagate: 11 before 18", number == 11 && full);
                self.see("propagate: 12 before 13", number == 12 && impossible);
                self.see("propagate: 12 before 18", number == 12 && full);
                self.see("propagate: 13 before 18", number == 13 && full);
            }
            Step::Decide { .. } if number > 9 => {
                self.several_reasons_against_decide(state, step, number);
            }
            Step::Conflict { clause, instance } if number == 12 => {
                let held = state.clause(*clause).expect("10 is past");
                let impossible = !is_possible(state, held.ground_atoms(instance));
                self.see("conflict: 12 before 13", impossible);
            }
            Step::Resolve { literal } if number == 14 => {
                let conflict = state.conflict.as_ref().expect("9 is past");
                let own = conflict.ground_literals()[*literal as usize - 1];
                let last = state.trail.last().and_then(Entry::literal);
                let differs = last.is_some_and(|last| *last != own.complement());
                self.see("resolve: 14 with a literal not its complement", differs);
            }
            Step::Backtrack { .. } => {
                let full = state.learned.len() == limits::LEARNED_CLAUSES;
                self.see("backtrack: 15 before 18", number == 15 && full);
                self.see("backtrack: 16 before 18", number == 16 && full);
            }
            _ => {}
        }
    }

    fn nothing_such(&mut self, state: &State, step: &Step) {
        let conflict = state.conflict.as_ref().map_or(0, |conflict| conflict.clause.literals.len());
        match step {
            Step::Decide { atoms, .. } if literal_alone(state, step) != Some(10) => {
                atoms.iter().for_each(|source| self.no_such_atom(state, source));
            }
            Step::Propagate { clause, instance, .. }
            | Step::Decide { clause, instance, .. }
            | Step::Conflict { clause, instance } => {
                let Some(held) = state.clause(*clause) else {
                    self.see("10: clause 0", *clause == 0);
                    self.see("10: clause above the last", *clause > 0);
                    return;
                };
                let variables = held.variables as usize;
                self.see("10: instance too short", instance.len() < variables);
                self.see("10: instance too long", instance.len() > variables);
                self.see("10: constant 0", instance.contains(&0));
                let above = instance.iter().any(|&constant| constant as usize > state.constants);
                self.see("10: constant above the last", above);
                if let Step::Propagate { literal, .. } | Step::Decide { literal, .. } = step {
                    self.see("10: literal 0", *literal == 0);
                    let above = *literal as usize > held.literals.len();
                    self.see("10: literal above the last", above);
                }
            }
            Step::Resolve { literal } | Step::Backtrack { literal } => {
                self.see("10: literal 0", *literal == 0);
                self.see("10: literal above the last", *literal as usize > conflict);
            }
            Step::Factorize { first, second } => {
                self.see("10: one literal twice", first == second);
            }
            Step::Skip | Step::Grow { .. } => {}
        }
    }

    fn no_such_atom(&mut self, state: &State, Source { clause, number, instance, .. }: &Source) {
        let Some(held) = state.clause(*clause) else {
            self.see("10: atom's clause 0", *clause == 0);
            self.see("10: atom's clause above the last", *clause > 0);
            return;
        };
        self.see("10: atom 0", *number == 0);
        self.see("10: atom above the last", *number as usize > held.atoms.len());
        let variables = held.variables as usize;
        self.see("10: atom's instance too short", instance.len() < variables);
        self.see("10: atom's instance too long", instance.len() > variables);
        self.see("10: atom's constant 0", instance.contains(&0));
        let above = instance.iter().any(|&constant| constant as usize > state.constants);
        self.see("10: atom's constant above the last", above);
    }

    fn impossible(&mut self, state: &State, atoms: &[Atom]) {
        let alone = constraint::possible(state.constants, atoms);
        self.see("13: clause atoms alone possible", alone);
        self.see("13: clause atoms alone not possible", !alone);
    }

    fn too_wide(&mut self, state: &State, literal: u8) {
        let clause = state.resolvent(literal).expect("15 is past").clause;
        let variables = clause.variables as usize > limits::VARIABLES;
        let atoms = clause.atoms.len() > limits::ATOMS;
        let literals = clause.literals.len() > limits::LITERALS;
        self.see("18: resolve, variables only", variables && !atoms && !literals);
        self.see("18: resolve, atoms only", !variables && atoms && !literals);
        self.see("18: resolve, literals only", !variables && !atoms && literals);
    }

    /// The table, and a line for everything reachable at zero.
    pub fn report(&self) -> String {
        let mut text = String::new();
        let mut zero = Vec::new();
        let mut line = |name: String, count: usize| {
            writeln!(text, "{name} {count}").expect("a string takes all that is written");
            if count == 0 {
                zero.push(name);
            }
        };
        line(format!("files of version {}", self.version), self.files);
        line("steps tried".to_string(), self.steps);
        for (rule, answers) in answers(self.version) {
            for &answer in answers {
                let count = self.pairs.get(&(rule, answer)).copied().unwrap_or(0);
                line(format!("rule {} answer {answer}:", RULE_NAMES[rule as usize - 1]), count);
            }
        }
        for (number, field) in reachable_in_files(self.version) {
            let count = self.in_files.get(&(number, field)).copied().unwrap_or(0);
            line(format!("bad file {number} at {field:?}:"), count);
        }
        for sight in sights(self.version) {
            line(format!("seen {sight}:"), self.sights.get(sight).copied().unwrap_or(0));
        }
        for (version, rule, answer) in &self.unexpected {
            let name = RULE_NAMES[*rule as usize - 1];
            writeln!(text, "UNEXPECTED: version {version} rule {name} answer {answer}")
                .expect("a string");
        }
        match zero.len() {
            0 => text.push_str("nothing reachable is at zero\n"),
            _ => zero.iter().for_each(|name| text.push_str(&format!("AT ZERO: {name}\n"))),
        }
        text
    }

    /// How many different things occurred: pairs, file refusals by kind of field, sights.
    pub fn kinds(&self) -> usize {
        self.pairs.len() + self.in_files.len() + self.sights.len()
    }

    /// Whether everything reachable occurred, and nothing else.
    pub fn is_complete(&self) -> bool {
        let pairs = answers(self.version).iter().all(|(rule, answers)| {
            answers.iter().all(|&answer| self.pairs.contains_key(&(*rule, answer)))
        });
        let in_files =
            reachable_in_files(self.version).iter().all(|at| self.in_files.contains_key(at));
        let sights = sights(self.version).iter().all(|sight| self.sights.contains_key(sight));
        pairs && in_files && sights && self.unexpected.is_empty()
    }
}

/// The places of refusal 12.
const AT_12: [&str; limits::LITERALS] =
    ["12 at 1", "12 at 2", "12 at 3", "12 at 4", "12 at 5", "12 at 6", "12 at 7", "12 at 8"];

/// The atoms on the trail that decisions brought.
fn brought_on(state: &State) -> impl Iterator<Item = &Atom> {
    state.trail.iter().filter(|entry| entry.source().is_some()).filter_map(Entry::atom)
}

/// How many atoms a decision brought, 0 where the entry is none.
fn brought_by(entry: &Entry) -> usize {
    match entry {
        Entry::Foreground(_, origin) => origin.brought,
        Entry::Background(..) => 0,
    }
}

/// Those of the atoms named that there are.
fn ground(state: &State, named: &[Source]) -> Vec<Atom> {
    named.iter().filter_map(|source| state.demand_atom(source).ok()).collect()
}

/// The number by which a decision is refused without its atoms.
fn literal_alone(state: &State, step: &Step) -> Option<u8> {
    let mut alone = step.clone();
    if let Step::Decide { atoms, .. } = &mut alone {
        atoms.clear();
    }
    state.judge(&alone).err().map(|refusal| refusal.number)
}

/// Whether atoms are possible together with the trail's.
fn is_possible(state: &State, mut atoms: Vec<Atom>) -> bool {
    atoms.extend(state.trail.iter().filter_map(Entry::atom));
    constraint::possible(state.constants, &atoms)
}

fn is_learned(state: &State, clause: u8) -> bool {
    clause as usize > state.input.len()
}

fn distinct(atoms: &[Atom]) -> usize {
    (0..atoms.len()).filter(|&index| !atoms[..index].contains(&atoms[index])).count()
}

fn has_twice(atoms: &[Atom]) -> bool {
    distinct(atoms) < atoms.len()
}

/// Whether meeting argument by argument merges two variables of the first literal, two of the second;
/// and by how many the variables grow fewer.
fn merges(one: &Literal, other: &Literal) -> (bool, bool, usize) {
    let pairs: Vec<(u8, u8)> =
        one.arguments.into_iter().zip(other.arguments).filter(|pair| pair.0 > 0).collect();
    let differ = |index: usize, later: usize| (pairs[index], pairs[later]);
    let all = (0..pairs.len()).flat_map(|index| (index + 1..pairs.len()).map(move |l| (index, l)));
    let met: Vec<_> = all.map(|(index, later)| differ(index, later)).collect();
    let ours = met.iter().any(|(a, b)| a.1 == b.1 && a.0 != b.0);
    let theirs = met.iter().any(|(a, b)| a.0 == b.0 && a.1 != b.1);
    let mut groups = crate::merge::Groups::apart(2 * limits::VARIABLES);
    let renamed =
        other.map(|variable| if variable == 0 { 0 } else { variable + limits::VARIABLES as u8 });
    groups.merge_arguments(one, &renamed);
    let gone = (1..=2 * limits::VARIABLES as u8).filter(|&v| groups.number_of(v) != v).count();
    (ours, theirs, gone)
}

/// Whether the last step on the trail has lost some of the atoms it brought.
fn last_is_cut(state: &State) -> bool {
    let last = state.trail.iter().rposition(|entry| entry.literal().is_some());
    let Some(index) = last else { return false };
    let Entry::Foreground(_, origin) = &state.trail[index] else { return false };
    if origin.decision {
        return false;
    }
    let held = state.clause(origin.clause).expect("held");
    let atoms = held.ground_atoms(&origin.instance);
    atoms.iter().any(|atom| !state.has_atom(state.trail.len(), atom))
}

/// Whether the last decision on the trail, nothing but atoms behind it, has lost some of those it brought.
fn last_decision_is_cut(state: &State) -> bool {
    let last = state.trail.iter().rposition(|entry| entry.literal().is_some());
    last.is_some_and(|index| state.trail.len() - index - 1 < brought_by(&state.trail[index]))
}
