//! Run files with steps of one rule near a trail of some length, beside files without them that are the same but for them. They are of version 1
//! but where decisions bring atoms.
//!
//! A trail climbs to its length cheaply, by decisions or by a few propagations of clauses with 24 atoms, so that the steps asked for are a good
//! part of the file's time. Of Conflict and Backtrack there is one: a conflict stands until a Backtrack ends it, so no two files differ by more.

use checker::clause::{Atom, Clause, Literal};
use checker::file::{write, RunFile};
use checker::step::{Source, Step};

/// Steps of one rule: the file without them, the file with them, and how many they are.
pub struct Near {
    pub name: String,
    pub version: u16,
    pub without: Vec<u8>,
    pub with: Vec<u8>,
    pub count: usize,
}

/// What the atoms of a trail are.
#[derive(Clone, Copy, PartialEq)]
enum Atoms {
    Bounds,
    Differences,
}

/// P1 to P7 have three arguments, P8 has one.
const ARITIES: [u8; 8] = [3, 3, 3, 3, 3, 3, 3, 1];
/// Bounds and differences from here on hold of small numbers.
const FAR: i32 = 1_000;

/// A file that is made: its version, its clauses, its steps and how many constants it has.
#[derive(Clone)]
struct Draft {
    version: u16,
    constants: u8,
    clauses: Vec<Clause>,
    steps: Vec<Step>,
    /// Atoms so far; each has a c of its own.
    atoms: i32,
}

/// A literal of the variables from x on
fn literal(positive: bool, predicate: u8, x: u8) -> Literal {
    let arguments =
        if ARITIES[predicate as usize - 1] == 1 { [x, 0, 0] } else { [x, x + 1, x + 2] };
    Literal { positive, predicate, arguments }
}

fn decide(clause: u8, instance: Vec<u8>) -> Step {
    Step::Decide { clause, literal: 1, positive: true, instance, atoms: Vec::new() }
}

/// A decision that brings one atom of its clause
fn decide_with(clause: u8, number: u8, instance: Vec<u8>) -> Step {
    let atoms = vec![Source { clause, number, stands: true, instance: instance.clone() }];
    Step::Decide { clause, literal: 1, positive: true, instance, atoms }
}

fn propagate(clause: u8, instance: Vec<u8>) -> Step {
    Step::Propagate { clause, literal: 1, instance }
}

fn conflict(clause: u8, instance: Vec<u8>) -> Step {
    Step::Conflict { clause, instance }
}

impl Draft {
    fn new(constants: u8) -> Draft {
        Draft { version: 1, constants, clauses: Vec::new(), steps: Vec::new(), atoms: 0 }
    }

    /// The number of a clause that is added
    fn clause(&mut self, variables: u8, atoms: Vec<Atom>, literals: Vec<Literal>) -> u8 {
        self.clauses.push(Clause { variables, atoms, literals });
        self.clauses.len() as u8
    }

    fn atom(&mut self, p: u8, q: u8) -> Atom {
        self.atoms += 1;
        Atom { p, q, c: FAR + self.atoms }
    }

    /// The kth of many instances of three variables
    fn three(&self, k: usize) -> Vec<u8> {
        let n = self.constants as usize;
        [k / n / n, k / n, k].iter().map(|digit| (digit % n) as u8 + 1).collect()
    }

    /// So many entries by decisions
    fn decisions(&mut self, entries: usize) {
        let clause = self.clause(3, vec![], vec![literal(true, 1, 1)]);
        for k in 0..entries {
            self.steps.push(decide(clause, self.three(k)));
        }
    }

    /// So many entries by propagations of a literal and up to 24 atoms, over all constants in turn.
    fn propagations(&mut self, entries: usize, kind: Atoms) {
        let n = self.constants;
        let mut left = entries;
        for k in 0u8.. {
            if left == 0 {
                break;
            }
            let count = left.min(25) - 1;
            let sides = [(1, 0), (0, 1), (2, 0), (0, 2), (3, 0), (0, 3)];
            let between = [(1, 2), (2, 3), (3, 1)];
            let bounds = if kind == Atoms::Bounds { count } else { count.min(6) };
            let places = sides
                .iter()
                .cycle()
                .take(bounds)
                .chain(between.iter().cycle().take(count - bounds));
            let atoms = places.map(|&(p, q)| self.atom(p, q)).collect();
            let clause = self.clause(3, atoms, vec![literal(true, 1 + k / n.min(2), 1)]);
            let instance = (0..3).map(|x| (3 * k + x) % n + 1).collect();
            self.steps.push(propagate(clause, instance));
            left -= count + 1;
        }
    }

    fn with(&self, steps: Vec<Step>) -> Draft {
        Draft { steps: [self.steps.clone(), steps].concat(), ..self.clone() }
    }

    fn bytes(&self) -> Vec<u8> {
        write(&RunFile {
            version: self.version,
            constants: self.constants,
            arities: ARITIES.to_vec(),
            clauses: self.clauses.clone(),
            steps: self.steps.clone(),
        })
        .bytes
    }
}

fn near(name: String, without: Draft, with: Draft, count: usize) -> Near {
    Near { name, version: with.version, without: without.bytes(), with: with.bytes(), count }
}

/// The steps at the end of a draft, so many
fn last(name: String, draft: Draft, count: usize) -> Near {
    let before = draft.steps[..draft.steps.len() - count].to_vec();
    near(name, Draft { steps: before, ..draft.clone() }, draft, count)
}

/// The last quarter of a trail, but of a short one most
fn part(entries: usize) -> usize {
    (entries / 4).max(8)
}

/// Decisions on a trail of decisions, or propagations of the same literals alone
fn alone(rule: &str, entries: usize) -> Near {
    let count = part(entries);
    let mut draft = Draft::new(16);
    draft.decisions(entries);
    if rule == "propagate" {
        for step in draft.steps.iter_mut().skip(entries - count) {
            if let Step::Decide { clause, instance, .. } = step {
                *step = propagate(*clause, instance.clone());
            }
        }
    }
    last(format!("{rule}, no atoms, 16 constants, {entries} entries"), draft, count)
}

/// From the top of a trail of decisions, down by its last quarter
fn skips(entries: usize) -> Near {
    let mut draft = Draft::new(16);
    draft.decisions(entries);
    let denied = draft.clause(3, vec![], vec![literal(false, 1, 1)]);
    draft.steps.push(conflict(denied, draft.three(0)));
    draft.steps.extend(vec![Step::Skip; part(entries)]);
    last(format!("skip, {entries} entries"), draft, part(entries))
}

/// P8 of the constants in turn, each by the one before it, at the end of a trail. The conflict denies the last eight times, and eight times
/// each before it, as they are resolved away; the file beside it denies the first eight times, and skips the same entries.
fn resolves(entries: usize) -> Near {
    let chain = entries.min(16) as u8;
    let mut draft = Draft::new(16);
    draft.decisions(entries - chain as usize);
    let given = draft.clause(1, vec![], vec![literal(true, 8, 1)]);
    let onward = draft.clause(2, vec![], vec![literal(true, 8, 1), literal(false, 8, 2)]);
    let denied = draft.clause(8, vec![], (1..=8).map(|x| literal(false, 8, x)).collect());
    draft.steps.push(propagate(given, vec![1]));
    draft.steps.extend((2..=chain).map(|c| propagate(onward, vec![c, c - 1])));
    let mut with = vec![conflict(denied, vec![chain; 8])];
    let mut without = vec![conflict(denied, vec![1; 8])];
    for _ in 1..chain {
        with.extend(vec![Step::Resolve { literal: 1 }; 8]);
        with.push(Step::Skip);
        without.push(Step::Skip);
    }
    let count = 8 * (chain as usize - 1);
    near(format!("resolve, {entries} entries"), draft.with(without), draft.with(with), count)
}

/// Decisions that are denied and learned from, one after the other, on a trail of bounds: each conflict has the first entry of all denied seven
/// times, or once after six factorizations.
fn factorizes(entries: usize) -> Near {
    let turns = (entries * 6 / 10).min(30);
    let mut draft = Draft::new(4);
    let first = draft.clause(1, vec![], vec![literal(true, 8, 1)]);
    let next = draft.clause(3, vec![], vec![literal(true, 7, 1)]);
    let literals = [literal(false, 7, 1)].into_iter().chain((4..=10).map(|x| literal(false, 8, x)));
    let denied = draft.clause(10, vec![], literals.collect());
    draft.steps.push(decide(first, vec![1]));
    draft.propagations(entries - 1 - turns, Atoms::Bounds);
    let mut without = Vec::new();
    let mut with = Vec::new();
    for k in 0..turns {
        let three = draft.three(k);
        let begin = [decide(next, three.clone()), conflict(denied, [three, vec![1; 7]].concat())];
        without.extend(begin.clone());
        with.extend(begin);
        with.extend(vec![Step::Factorize { first: 2, second: 3 }; 6]);
        without.push(Step::Backtrack { literal: 1 });
        with.push(Step::Backtrack { literal: 1 });
    }
    let (without, with) = (draft.with(without), draft.with(with));
    near(format!("factorize, {entries} entries"), without, with, 6 * turns)
}

/// The first of them empties the trail.
fn grows(entries: usize) -> Near {
    let mut draft = Draft::new(1);
    draft.propagations(entries, Atoms::Bounds);
    draft.steps.extend(vec![Step::Grow { count: 1 }; 15]);
    last(format!("grow, {entries} entries"), draft, 15)
}

/// Propagations of a literal and one atom that is new, a difference having bounds beside it, which are on the trail by then; or on the same trail
/// decisions that bring that atom alone
fn one_atom_each(rule: &str, constants: u8, entries: usize, kind: Atoms) -> Near {
    let mut draft = Draft::new(constants);
    draft.version = if rule == "decide" { 2 } else { 1 };
    let [count, first] = match (kind, entries) {
        (Atoms::Bounds, 10) => [4, 0],
        (Atoms::Bounds, _) => [10, 0],
        (Atoms::Differences, 10) => [2, 1],
        (Atoms::Differences, _) => [10, 1],
    };
    draft.propagations(entries - 2 * count - 6 * first, kind);
    let sides = [draft.atom(4, 0), draft.atom(0, 4), draft.atom(5, 0), draft.atom(0, 5)];
    for k in 0..(count + first) as u8 {
        let own = literal(true, 5 + k / 8, 1);
        let three = [k / 4, k / 2, k].map(|digit| digit % 2 + 1);
        let (clause, others) = if kind == Atoms::Bounds {
            let atom = draft.atom(4, 0);
            (draft.clause(4, vec![atom], vec![own]), vec![k % constants + 1])
        } else {
            let atom = draft.atom(4, 5);
            (draft.clause(5, [&sides[..], &[atom]].concat(), vec![own]), vec![1, 2])
        };
        let instance = [&three[..], &others].concat();
        // The first difference comes with its bounds.
        let step = if rule == "propagate" || (k as usize) < first {
            propagate(clause, instance)
        } else {
            let atoms = draft.clauses[clause as usize - 1].atoms.len() as u8;
            decide_with(clause, atoms, instance)
        };
        draft.steps.push(step);
    }
    let name = if kind == Atoms::Bounds { "bounds" } else { "differences" };
    last(format!("{rule}, {name}, {constants} constants, {entries} entries"), draft, count)
}

/// Decisions that bring 24 atoms each, of 16 constants, on a trail of bounds
fn decides_with_most(entries: usize) -> Near {
    let count = entries / 40;
    let mut draft = Draft::new(16);
    draft.version = 2;
    draft.propagations(entries - 25 * count, Atoms::Bounds);
    let sides: Vec<Atom> = (0..12).flat_map(|_| [draft.atom(1, 0), draft.atom(0, 1)]).collect();
    let clause = draft.clause(3, sides, vec![literal(true, 7, 1)]);
    for k in 1..=count as u8 {
        let instance = vec![k, 1, 1];
        let source = |number| Source { clause, number, stands: true, instance: instance.clone() };
        let atoms = (1..=24).map(source).collect();
        draft.steps.push(Step::Decide { clause, literal: 1, positive: true, instance, atoms });
    }
    last(format!("decide, 24 atoms each, 16 constants, {entries} entries"), draft, count)
}

/// On a trail of bounds between two decisions that are denied together: the Conflict alone, or the Backtrack alone.
fn ends(rule: &str, constants: u8, entries: usize) -> Near {
    let mut draft = Draft::new(constants);
    let first = draft.clause(1, vec![], vec![literal(true, 8, 1)]);
    let next = draft.clause(3, vec![], vec![literal(true, 7, 1)]);
    draft.steps.push(decide(first, vec![1]));
    draft.propagations(entries - 2, Atoms::Bounds);
    draft.steps.push(decide(next, vec![1; 3]));
    // The first atom of the trail: it is not appended again.
    let atom = Atom { p: 4, q: 0, c: FAR + 1 };
    let denied = draft.clause(4, vec![atom], vec![literal(false, 7, 1), literal(false, 8, 4)]);
    draft.steps.push(conflict(denied, vec![1; 4]));
    if rule == "backtrack" {
        draft.steps.push(Step::Backtrack { literal: 1 });
    }
    last(format!("{rule}, {constants} constants, {entries} entries"), draft, 1)
}

/// Decisions, and propagations on the same trail: of literals alone, and with an atom each and 2, 4 and 16 constants
pub fn pairs() -> Vec<[Near; 2]> {
    let both = ["decide", "propagate"];
    let lengths = [10, 80, 160];
    let mut pairs: Vec<_> = lengths.map(|entries| both.map(|rule| alone(rule, entries))).into();
    for kind in [Atoms::Bounds, Atoms::Differences] {
        for constants in [2, 4, 16] {
            let pair = |entries| both.map(|rule| one_atom_each(rule, constants, entries, kind));
            pairs.extend(lengths.map(pair));
        }
    }
    pairs
}

/// Every other rule on trails of 10, 80 and 160 entries, those that test atoms with 2, 4 and 16 constants; and decisions that bring 24 atoms
pub fn others() -> Vec<Near> {
    let mut rows = Vec::new();
    for rule in [skips, resolves, factorizes, grows] {
        rows.extend([10, 80, 160].map(rule));
    }
    for rule in ["conflict", "backtrack"] {
        for constants in [2, 4, 16] {
            rows.extend([10, 80, 160].map(|entries| ends(rule, constants, entries)));
        }
    }
    rows.extend([80, 160].map(decides_with_most));
    rows
}

/// All of these
pub fn all() -> Vec<Near> {
    pairs().into_iter().flatten().chain(others()).collect()
}
