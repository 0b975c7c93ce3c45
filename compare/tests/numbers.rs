//! The numbers behind each yes, on files made for them: no constants, one, and as many as there may be; numbers on both sides of 0, at a
//! distance, and as far from it as a file brings them, denials of atoms too; the longest text.

use checker::clause::{Atom, Clause, Literal};
use checker::file::{write, RunFile};
use checker::limits;
use checker::step::{Source, Step};
use compare::beside::Buffer;

fn clause(variables: u8, atoms: Vec<Atom>, literals: &[(bool, u8, &[u8])]) -> Clause {
    let literal = |&(positive, predicate, variables): &(bool, u8, &[u8])| {
        let mut arguments = [0; limits::ARITY];
        arguments[..variables.len()].copy_from_slice(variables);
        Literal { positive, predicate, arguments }
    };
    Clause { variables, atoms, literals: literals.iter().map(literal).collect() }
}

fn at_most(x: u8, c: i32) -> Atom {
    Atom { p: x, q: 0, c }
}

fn at_least(x: u8, c: i32) -> Atom {
    Atom { p: 0, q: x, c: -c }
}

fn propagate(clause: u8, literal: u8, instance: &[u8]) -> Step {
    Step::Propagate { clause, literal, instance: instance.to_vec() }
}

fn decide(clause: u8, literal: u8, instance: &[u8]) -> Step {
    decide_with(clause, literal, instance, Vec::new())
}

fn decide_with(clause: u8, literal: u8, instance: &[u8], atoms: Vec<Source>) -> Step {
    Step::Decide { clause, literal, positive: true, instance: instance.to_vec(), atoms }
}

fn conflict(clause: u8, instance: &[u8]) -> Step {
    Step::Conflict { clause, instance: instance.to_vec() }
}

/// Compares a file whose predicates all have that arity, in each version that it can be of. All its steps are accepted, and these are the
/// numbers handed on.
fn hands_on(constants: u8, arity: u8, clauses: Vec<Clause>, steps: Vec<Step>, numbers: &[&[i32]]) {
    let brings = |step: &Step| matches!(step, Step::Decide { atoms, .. } if !atoms.is_empty());
    let first = if steps.iter().any(brings) { 2 } else { 1 };
    let arities = vec![arity; limits::PREDICATES];
    let mut file = RunFile { version: first, constants, arities, clauses, steps };
    for version in first..=2 {
        file.version = version;
        let told = Buffer::default().compare(&write(&file).bytes);
        let run = told.expect("no difference").expect("a file in order");
        assert!(run.tried.iter().all(|tried| tried.answer.is_ok()), "{:?}", run.tried);
        let handed: Vec<_> =
            run.tried.iter().filter_map(|tried| tried.numbers.as_deref()).collect();
        assert_eq!(handed, numbers, "version {version}");
    }
}

#[test]
fn no_constants() {
    let clauses = vec![
        clause(0, vec![], &[(true, 1, &[])]),
        clause(0, vec![], &[(false, 1, &[]), (false, 2, &[])]),
    ];
    let steps = vec![
        propagate(1, 1, &[]),
        decide(2, 2, &[]),
        conflict(2, &[]),
        Step::Backtrack { literal: 2 },
    ];
    hands_on(0, 0, clauses, steps, &[&[], &[], &[], &[]]);
}

/// P1(x) where x is in one band, ¬P1(x) ∨ ¬P2(x) where it is in another: Propagate, Conflict and Backtrack. Between the first two a decision
/// brings nothing, and hands on the numbers before it.
fn one_constant(first: Atom, second: Atom, numbers: &[&[i32]; 3]) {
    let clauses = vec![
        clause(1, vec![first], &[(true, 1, &[1])]),
        clause(1, vec![second], &[(false, 1, &[1]), (false, 2, &[1])]),
    ];
    let steps = vec![
        propagate(1, 1, &[1]),
        decide(2, 2, &[1]),
        conflict(2, &[1]),
        Step::Backtrack { literal: 2 },
    ];
    hands_on(1, 1, clauses, steps, &[numbers[0], numbers[0], numbers[1], numbers[2]]);
}

#[test]
fn one() {
    let far = limits::C;
    one_constant(at_least(1, 5), at_most(1, 9), &[&[5], &[5], &[5]]);
    one_constant(at_most(1, -5), at_least(1, -9), &[&[-5], &[-5], &[-5]]);
    one_constant(at_least(1, -3), at_most(1, 3), &[&[0], &[0], &[0]]);
    one_constant(at_least(1, 3), at_least(1, far), &[&[3], &[far], &[far]]);
    one_constant(at_most(1, 3), at_most(1, -far), &[&[0], &[-far], &[-far]]);
}

/// Two variables at a distance, between bounds at the ends of the range
fn apart(c: i32) -> Vec<Atom> {
    let far = limits::C;
    let ends = [at_most(1, far), at_least(1, -far), at_most(2, far), at_least(2, -far)];
    [&ends[..], &[Atom { p: 1, q: 2, c }]].concat()
}

/// P1(x, y) where x and y are at a distance, of each two constants that follow one another: each step moves one more constant.
#[test]
fn sixteen_in_a_chain() {
    let distance = 133_333;
    let clauses = vec![clause(2, apart(-distance), &[(true, 1, &[1, 2])])];
    let steps: Vec<Step> = (1..16).rev().map(|x| propagate(1, 1, &[x, x + 1])).collect();
    let mut numbers = Vec::new();
    for moved in 1..16 {
        // So many of the constants before the last are at their distance from the next, the others just below.
        let behind = |back: i32| -distance * back.min(moved) - (back - moved).max(0);
        // The last is 0, or as much above it as the least of those that are bounded would be below −1,000,000.
        let last = (-limits::C - behind(moved)).max(0);
        numbers.push((0..16).rev().map(|back| last + behind(back)).collect::<Vec<i32>>());
    }
    let numbers: Vec<&[i32]> = numbers.iter().map(Vec::as_slice).collect();
    hands_on(16, 2, clauses, steps, &numbers);
}

/// As far from 0 as the numbers of a file come: the order puts 15 constants behind one at an end of the range.
#[test]
fn sixteen_at_the_ends_of_the_range() {
    let far = limits::C;
    for (atom, constant, ends) in
        [(at_least(1, far), 1, far..=far + 15), (at_most(1, -far), 16, -far - 15..=-far)]
    {
        let clauses = vec![clause(1, vec![atom], &[(true, 1, &[1])])];
        let numbers: Vec<i32> = ends.collect();
        hands_on(16, 1, clauses, vec![propagate(1, 1, &[constant])], &[&numbers]);
    }
}

/// The same by decisions that deny those atoms: one further
#[test]
fn sixteen_beyond_the_ends_of_the_range() {
    let far = limits::C;
    for (atom, constant, ends) in
        [(at_most(1, far), 1, far + 1..=far + 16), (at_least(1, -far), 16, -far - 16..=-far - 1)]
    {
        let clauses = vec![clause(1, vec![atom], &[(true, 1, &[1])])];
        let source = Source { clause: 1, number: 1, stands: false, instance: vec![constant] };
        let numbers: Vec<i32> = ends.collect();
        hands_on(16, 1, clauses, vec![decide_with(1, 1, &[1], vec![source])], &[&numbers]);
    }
}

/// 2,000 steps that all hand numbers on: the trail fills, Grow empties it, and so on from 3 constants to 16. There is room for the text, and
/// of a buffer as long the bytes past it stay; slots of ends past the first two do.
#[test]
fn many_lines() {
    let clauses: Vec<Clause> = (1..=8)
        .map(|predicate| clause(3, vec![at_most(1, -limits::C)], &[(true, predicate, &[1, 2, 3])]))
        .collect();
    let (mut constants, mut steps) = (3u8, Vec::new());
    while steps.len() < limits::STEPS {
        // The last constant first: its atom comes once, and every other step appends its literal alone.
        let n = constants as usize;
        let all = (0..8 * n * n).map(|k| {
            let three = [constants, (k / 8 / n % n) as u8 + 1, (k / 8 % n) as u8 + 1];
            propagate((k % 8) as u8 + 1, 1, &three)
        });
        steps.extend(all.take(limits::TRAIL - 1));
        steps.push(Step::Grow { count: 1 });
        constants += 1;
    }
    steps.truncate(limits::STEPS);
    let lines = steps.iter().filter(|step| step.rule() == 1).count();
    let arities = vec![3; limits::PREDICATES];
    let file = write(&RunFile { version: 1, constants: 3, arities, clauses, steps }).bytes;
    let run = Buffer::default().compare(&file).expect("no difference").expect("a file in order");
    assert_eq!(run.tried.len(), limits::STEPS);
    let handed: Vec<_> = run.tried.iter().filter_map(|tried| tried.numbers.as_deref()).collect();
    assert_eq!(handed.len(), lines);
    let longest = handed.iter().max_by_key(|numbers| numbers.len()).expect("a line");
    assert!(longest.len() > 10 && longest.iter().all(|&number| number <= -limits::C));
}
