//! The kinds of run file: what the input looks like and how it is played.

use super::length::file_of_length;
use super::player::{play, Moment, Temper, Wish};
use super::problem::{first_state, Shape};
use crate::clause::{Atom, Clause, Literal};
use crate::file::{step_length, write, RunFile};
use crate::limits;
use crate::random::Random;
use crate::rules::answers;
use crate::state::State;
use crate::step::{brings_atoms, Step};

/// A file as it should be.
pub fn run_file(random: &mut Random, version: u16) -> RunFile {
    let mut kinds: Vec<(usize, Kind)> = vec![
        (120, few_constants),
        (140, many_clauses),
        (60, no_variables),
        (120, implications),
        (100, close_bounds),
        (120, bands),
        (110, wide_clauses),
        (60, two_wide_clauses),
        (50, full_trail),
        (50, full_trail_and_conflict),
        (20, eight_literals),
        (60, many_learned),
        (20, same_clause_again),
        (60, odd_corners),
        (40, far_bounds),
        (70, far_apart),
        (8, long_run),
        (2, longest),
    ];
    if brings_atoms(version) {
        kinds.extend::<[(usize, Kind); 6]>([
            (160, sides_of_bands),
            (120, many_brought),
            (80, ends_of_the_range),
            (120, atoms_that_meet),
            (120, full_trail_of_atoms),
            (8, as_long_as_may_be),
        ]);
    }
    let weights: Vec<usize> = kinds.iter().map(|(weight, _)| *weight).collect();
    kinds[random.weighted(&weights)].1(random, version)
}

type Kind = fn(&mut Random, u16) -> RunFile;

/// Plays the input of a shape.
fn played(random: &mut Random, version: u16, shape: &Shape, temper: &Temper) -> RunFile {
    let first = first_state(random, version, shape);
    let steps = play(random, temper, first.clone());
    file_of(first, steps)
}

/// Steps that there is no room for in a file are left out.
fn file_of(first: State, steps: Vec<Step>) -> RunFile {
    let mut file = RunFile {
        version: first.version,
        constants: first.constants as u8,
        arities: first.arities,
        clauses: first.input,
        steps,
    };
    let mut length = write(&file).bytes.len();
    while length > limits::FILE_BYTES {
        let last = file.steps.pop().expect("clauses alone have room");
        length -= step_length(&last, file.version);
    }
    file
}

/// A shape to begin with: few constants and small clauses, mostly without atoms.
fn small() -> Shape {
    Shape {
        constants: 1..=3,
        predicates: 1..=4,
        arities: 0..=2,
        clauses: 3..=12,
        literals: 1..=4,
        atoms: 1..=4,
        variables: 4,
        reuse: 50,
        without_atoms: 60,
        differences: 25,
        repeats: 15,
        reach: 40,
        tight: 10,
        leaning: 50,
        satisfiable: false,
    }
}

/// A temper to begin with: up to so many steps, mostly with a wish.
fn temper(random: &mut Random, version: u16, steps: usize) -> Temper {
    let wish = any_wish(random, version);
    let soon = random.percent(50);
    let (propagate, decide, conflict) =
        random.pick(&[(100, 1, 1000), (1000, 1, 20), (100, 3, 20), (4, 4, 8), (2, 8, 8)]);
    let (resolve, factorize, skip, backtrack) = random.pick(&[
        (4, 4, 4, 4),
        (100, 20, 20, 1),
        (20, 20, 20, 1),
        (50, 50, 5, 1),
        (2, 1, 1, 10),
    ]);
    let mut temper = Temper {
        steps,
        propagate,
        decide,
        conflict,
        grow: random.pick(&[0, 0, 1]),
        resolve,
        factorize,
        skip,
        backtrack,
        grow_when_stuck: random.percent(30),
        grow_most: random.pick(&[1, 1, 1, limits::CONSTANTS]),
        quiet_until: 0,
        newest: random.pick(&[0, 50, 90]),
        against: random.pick(&[50, 90]),
        brings: 0,
        brought: 0..=0,
        denied: 0,
        past_refutation: random.percent(50),
        wish,
        moment: Moment::Step(random.below(if soon { 25 } else { steps.max(1) })),
        behind: if random.percent(25) { random.within(1..=4) } else { 0 },
    };
    if brings_atoms(version) {
        temper.brings = random.pick(&[10, 50, 90]);
        temper.brought = random.pick(&[1..=1, 1..=2, 1..=3, 1..=8]);
        temper.denied = random.pick(&[0, 30, 50, 100]);
    }
    temper
}

/// Up to so many steps from any state of a run, the last of which may be refused.
pub fn onward(random: &mut Random, state: State, steps: usize) -> Vec<Step> {
    let temper = temper(random, state.version, steps);
    play(random, &temper, state)
}

/// A rule with a number that refuses it, mostly.
fn any_wish(random: &mut Random, version: u16) -> Option<Wish> {
    let (rule, numbers) = random.pick(&answers(version));
    let number = random.pick(numbers);
    (number != 0 && random.percent(90)).then_some((rule, number))
}

/// Sets one of these wishes, in so many cases of a hundred.
fn wish_for(
    random: &mut Random,
    percent: usize,
    wishes: &[Wish],
    moment: Moment,
    temper: &mut Temper,
) {
    if random.percent(percent) {
        temper.wish = Some(random.pick(wishes));
        temper.moment = moment;
    }
}

/// What is refused after a refutation, and by which number.
const AFTER_REFUTATION: [Wish; 8] =
    [(1, 9), (2, 9), (3, 9), (8, 9), (4, 10), (5, 10), (7, 10), (6, 14)];

fn wish_after_refutation(random: &mut Random, temper: &mut Temper) {
    if random.percent(25) {
        temper.past_refutation = true;
        wish_for(random, 100, &AFTER_REFUTATION, Moment::Refuted, temper);
    }
}

/// Few constants: many conflicts, resolutions and refutations.
fn few_constants(random: &mut Random, version: u16) -> RunFile {
    let shape = Shape {
        clauses: random.pick(&[3..=8, 6..=16, 10..=24]),
        literals: random.pick(&[2..=2, 2..=3, 2..=4, 1..=4]),
        satisfiable: random.percent(30),
        ..small()
    };
    let steps = random.pick(&[0, 10, 60, 150, 300]);
    let mut temper = temper(random, version, steps);
    wish_after_refutation(random, &mut temper);
    played(random, version, &shape, &temper)
}

/// Many clauses for few ground literals: conflict after conflict, with long resolutions between, until
/// there is a refutation.
fn many_clauses(random: &mut Random, version: u16) -> RunFile {
    let shape = Shape {
        constants: 1..=2,
        predicates: 4..=8,
        arities: random.pick(&[0..=1, 0..=2, 1..=1, 1..=3]),
        clauses: random.pick(&[16..=24, 24..=48, 40..=48]),
        literals: random.pick(&[2..=3, 3..=3, 3..=4]),
        variables: random.pick(&[3, 6, 9]),
        reuse: random.pick(&[10, 50]),
        without_atoms: random.pick(&[30, 90]),
        reach: random.pick(&[50, 1_000]),
        tight: 0,
        ..small()
    };
    let steps = random.pick(&[100, 300, 600]);
    let mut temper = temper(random, version, steps);
    eager(random, &mut temper);
    wish_after_refutation(random, &mut temper);
    played(random, version, &shape, &temper)
}

/// Mostly propagates before deciding, and resolves before backtracking.
fn eager(random: &mut Random, temper: &mut Temper) {
    if random.percent(70) {
        (temper.propagate, temper.decide, temper.conflict) =
            random.pick(&[(1_000, 1, 1_000), (1_000, 1, 50), (100, 5, 20)]);
        (temper.resolve, temper.factorize, temper.skip, temper.backtrack) =
            random.pick(&[(100, 20, 20, 1), (20, 20, 20, 1), (50, 50, 5, 1)]);
        temper.newest = 90;
    }
}

/// Clauses without variables; constants may be missing altogether.
fn no_variables(random: &mut Random, version: u16) -> RunFile {
    let shape = Shape {
        constants: 0..=1,
        predicates: 2..=8,
        arities: 0..=0,
        clauses: 4..=24,
        literals: random.pick(&[0..=3, 1..=3, 1..=3, 2..=3]),
        variables: random.below(2),
        ..small()
    };
    let mut temper = temper(random, version, 80);
    wish_after_refutation(random, &mut temper);
    played(random, version, &shape, &temper)
}

/// Facts of the first predicates, implications from earlier predicates to later ones, and goals, which
/// deny the last ones: long chains of propagations, and long resolutions back along them.
fn implications(random: &mut Random, version: u16) -> RunFile {
    let shape = Shape {
        constants: 1..=4,
        predicates: 4..=8,
        arities: random.pick(&[0..=1, 0..=2, 1..=3]),
        clauses: 10..=30,
        literals: 1..=4,
        variables: 5,
        reuse: 65,
        without_atoms: 50,
        repeats: 10,
        reach: 60,
        tight: 5,
        ..small()
    };
    let mut first = first_state(random, version, &shape);
    for clause in &mut first.input {
        turn_into_implication(random, clause);
    }
    let mut temper = temper(random, version, 250);
    (temper.propagate, temper.decide, temper.conflict) =
        random.pick(&[(10, 0, 1), (10, 1, 4), (20, 1, 20)]);
    (temper.resolve, temper.factorize, temper.skip, temper.backtrack) =
        random.pick(&[(20, 5, 5, 1), (5, 20, 5, 1), (10, 0, 1, 1)]);
    wish_after_refutation(random, &mut temper);
    let steps = play(random, &temper, first.clone());
    file_of(first, steps)
}

/// Sets a clause's signs: the literal of the last predicate positive, the others negative. Without a
/// literal of a middle or first predicate it is a goal; a single literal of a late one is denied.
fn turn_into_implication(random: &mut Random, clause: &mut Clause) {
    let last = clause.literals.iter().map(|literal| literal.predicate).max().unwrap_or(0);
    let alone = clause.literals.len() == 1;
    let goal = if alone { last > 2 } else { random.percent(15) };
    let head = clause.literals.iter().position(|literal| literal.predicate == last);
    for (index, literal) in clause.literals.iter_mut().enumerate() {
        literal.positive = Some(index) == head && !goal;
    }
}

/// Many atoms whose bounds lie close together, so that the constraint test often says no.
fn close_bounds(random: &mut Random, version: u16) -> RunFile {
    let shape = Shape {
        constants: 1..=5,
        literals: random.pick(&[1..=2, 1..=4]),
        atoms: 1..=8,
        without_atoms: 15,
        differences: 35,
        reach: random.pick(&[6, 12, 30]),
        tight: random.pick(&[0, 20, 60, 90]),
        repeats: 25,
        ..small()
    };
    let mut temper = temper(random, version, 100);
    let moment = Moment::Step(random.below(20));
    wish_for(random, 60, &[(1, 13), (3, 13), (1, 13), (3, 13), (4, 14)], moment, &mut temper);
    played(random, version, &shape, &temper)
}

/// Clauses that hold on bands of numbers, as rules on product codes do: what they say together hangs on
/// the bands that meet.
fn bands(random: &mut Random, version: u16) -> RunFile {
    let arities: Vec<u8> = (0..random.within(1..=4)).map(|_| random.within(1..=2) as u8).collect();
    let input = (0..random.within(4..=16)).map(|_| clause_on_bands(random, &arities)).collect();
    let first = State::first(version, random.within(1..=4), arities, input);
    let mut temper = temper(random, version, 150);
    eager(random, &mut temper);
    temper.decide = random.pick(&[0, 1, 20]);
    let moment = Moment::Step(random.below(20));
    wish_for(random, 40, &[(1, 13), (3, 13)], moment, &mut temper);
    let steps = play(random, &temper, first.clone());
    file_of(first, steps)
}

/// A fact, denial or implication without atoms.
fn clause_of_literals(random: &mut Random, arities: &[u8]) -> Clause {
    let mut clause = Clause { variables: 0, atoms: Vec::new(), literals: Vec::new() };
    for _ in 0..random.pick(&[1, 1, 2, 2, 3]) {
        let index = random.below(arities.len());
        let mut arguments = Vec::new();
        for _ in 0..arities[index] {
            if clause.variables == 0 || random.percent(60) {
                clause.variables += 1;
            }
            arguments.push(random.within(1..=clause.variables.into()) as u8);
        }
        clause.literals.push(of(random.percent(50), index as u8 + 1, &arguments));
    }
    clause
}

/// A clause whose variables lie in bands, some at a distance from each other.
fn clause_on_bands(random: &mut Random, arities: &[u8]) -> Clause {
    let mut clause = clause_of_literals(random, arities);
    for variable in 1..=clause.variables {
        let least = random.whole(0..=30);
        let most = least + random.whole(0..=14);
        clause.atoms.push(Atom { p: 0, q: variable, c: -least });
        clause.atoms.push(Atom { p: variable, q: 0, c: most });
    }
    for variable in 2..=clause.variables {
        if random.percent(40) {
            let c = random.whole(-12..=12);
            let (p, q) = random.pick(&[(variable, variable - 1), (variable - 1, variable)]);
            clause.atoms.push(Atom { p, q, c });
        }
    }
    random.shuffle(&mut clause.atoms);
    clause
}

/// Clauses that hold from a number on or up to one, and of numbers far from each other: of the numbers behind a yes
/// each hangs on bounds and differences of others.
fn far_apart(random: &mut Random, version: u16) -> RunFile {
    let reach = random.pick(&[12, 300, 20_000, limits::C]);
    let arities: Vec<u8> = (0..random.within(2..=5)).map(|_| random.within(1..=3) as u8).collect();
    let clauses = random.within(8..=30);
    let input = (0..clauses).map(|_| clause_far_apart(random, &arities, reach)).collect();
    let constants = random.pick(&[1..=2, 2..=5, 2..=16, 6..=16, 16..=16]);
    let first = State::first(version, random.within(constants), arities, input);
    let mut temper = temper(random, version, 120);
    (temper.propagate, temper.decide, temper.conflict) =
        random.pick(&[(100, 5, 10), (20, 1, 20), (10, 10, 10)]);
    temper.moment = Moment::Step(random.within(20..=100));
    let steps = play(random, &temper, first.clone());
    file_of(first, steps)
}

/// A fact, implication or goal with a bound of some variables on one side, and differences, which have bounds at the
/// ends of c's range beside them where they have no others.
fn clause_far_apart(random: &mut Random, arities: &[u8], reach: i32) -> Clause {
    let mut clause = clause_of_literals(random, arities);
    let head = random.below(clause.literals.len());
    let goal = clause.literals.len() > 1 && random.percent(15);
    for (index, literal) in clause.literals.iter_mut().enumerate() {
        literal.positive = index == head && !goal;
    }
    for variable in 1..=clause.variables {
        let end = if random.percent(10) {
            random.pick(&[-limits::C, limits::C])
        } else {
            random.whole(-reach..=reach)
        };
        // A variable that is in no literal needs a bound.
        match random.below(if clause.occurs(variable) { 4 } else { 2 }) {
            0 => clause.atoms.push(Atom { p: variable, q: 0, c: end }),
            1 => clause.atoms.push(Atom { p: 0, q: variable, c: end }),
            _ => {}
        }
    }
    for variable in 2..=clause.variables {
        if random.percent(50) {
            let (p, q) = random.pick(&[(variable, variable - 1), (variable - 1, variable)]);
            for variable in [p, q] {
                if !clause.atoms.iter().any(|atom| atom.bounds_above(variable)) {
                    clause.atoms.push(Atom { p: variable, q: 0, c: limits::C });
                }
                if !clause.atoms.iter().any(|atom| atom.bounds_below(variable)) {
                    clause.atoms.push(Atom { p: 0, q: variable, c: limits::C });
                }
            }
            clause.atoms.push(Atom { p, q, c: random.whole(-reach..=reach / 4) });
        }
    }
    random.shuffle(&mut clause.atoms);
    clause
}

/// Bounds at the ends of c's range.
fn far_bounds(random: &mut Random, version: u16) -> RunFile {
    let shape = Shape {
        constants: 1..=16,
        literals: 1..=3,
        atoms: 1..=6,
        without_atoms: 20,
        differences: 50,
        reach: limits::C,
        tight: 5,
        ..small()
    };
    let temper = temper(random, version, 100);
    played(random, version, &shape, &temper)
}

/// Wide clauses on one or two constants: Resolve comes to the clause limits.
fn wide_clauses(random: &mut Random, version: u16) -> RunFile {
    let shape = Shape {
        constants: 1..=2,
        predicates: 2..=4,
        clauses: 6..=16,
        repeats: 20,
        leaning: random.pick(&[75, 85]),
        satisfiable: random.percent(40),
        ..small()
    };
    let shape = match random.below(4) {
        // many literals of few variables
        0 => {
            let literals = random.pick(&[3..=8, 6..=8]);
            Shape { literals, arities: 0..=1, variables: 4, reuse: 60, ..shape }
        }
        // many variables
        1 => Shape { literals: 2..=5, arities: 2..=3, variables: 12, reuse: 8, ..shape },
        // many atoms
        2 => Shape {
            literals: 1..=4,
            arities: 1..=2,
            atoms: 6..=24,
            variables: 6,
            without_atoms: 10,
            differences: 15,
            reach: 2_000,
            tight: 0,
            ..shape
        },
        _ => Shape { literals: 2..=8, arities: 0..=3, variables: 12, reuse: 30, ..shape },
    };
    let mut temper = temper(random, version, 120);
    eager(random, &mut temper);
    temper.against = 90;
    let moment = Moment::Step(random.below(25));
    wish_for(random, 50, &[(4, 18), (4, 18), (1, 12), (3, 12)], moment, &mut temper);
    played(random, version, &shape, &temper)
}

/// Two clauses that resolve on one predicate, and together come near the clause limits.
fn two_wide_clauses(random: &mut Random, version: u16) -> RunFile {
    let shape = Shape {
        constants: 1..=2,
        predicates: 2..=3,
        arities: random.pick(&[0..=0, 1..=1, 2..=3]),
        clauses: 2..=2,
        literals: 3..=5,
        atoms: random.pick(&[1..=4, 9..=15]),
        variables: random.pick(&[3, 6, 8]),
        reuse: random.pick(&[5, 40]),
        without_atoms: 0,
        differences: 10,
        repeats: random.pick(&[0, 10]),
        reach: 2_000,
        tight: 0,
        leaning: 100,
        ..small()
    };
    let mut first = first_state(random, version, &shape);
    let arity = random.below(limits::ARITY + 1) as u8;
    first.arities.push(arity);
    let predicate = first.arities.len() as u8;
    for (index, clause) in first.input.iter_mut().enumerate() {
        clause.variables = clause.variables.max(1);
        let variables: Vec<u8> =
            (0..arity).map(|_| random.within(1..=clause.variables.into()) as u8).collect();
        let place = random.below(clause.literals.len() + 1);
        clause.literals.insert(place, of(index == 0, predicate, &variables));
        if !clause.every_variable_occurs() {
            clause.atoms.push(loose_bound(random, 1));
        }
    }
    random.shuffle(&mut first.input);
    let mut temper = temper(random, version, 60);
    (temper.propagate, temper.decide, temper.conflict, temper.grow) = (100, 2, 100, 0);
    (temper.resolve, temper.factorize, temper.skip, temper.backtrack) = (100, 1, 20, 1);
    (temper.against, temper.newest) = (100, 90);
    wish_for(random, 70, &[(4, 18)], Moment::Step(0), &mut temper);
    let steps = play(random, &temper, first.clone());
    file_of(first, steps)
}

/// Many constants and a quiet player: the trail fills up.
fn full_trail(random: &mut Random, version: u16) -> RunFile {
    let shape = Shape {
        constants: 6..=16,
        predicates: 2..=5,
        arities: 1..=3,
        literals: 1..=3,
        atoms: 1..=random.pick(&[3, 12, 24]),
        variables: 8,
        without_atoms: 40,
        differences: 20,
        reach: 5_000,
        tight: random.pick(&[0, 10, 30]),
        satisfiable: true,
        ..small()
    };
    let steps = random.within(60..=400);
    let mut temper = temper(random, version, steps);
    temper.propagate = random.within(1..=20);
    temper.quiet_until = random.pick(&[0, 100, 140, 155, 160]);
    temper.grow = 0;
    let wishes = [(1, 18), (1, 18), (2, 18), (1, 11), (2, 11), (1, 12), (1, 13), (1, 13), (7, 18)];
    let moment = Moment::Trail(random.pick(&[150, 155, 160, 160]));
    wish_for(random, 80, &wishes, moment, &mut temper);
    played(random, version, &shape, &temper)
}

/// A trail nearly full, then conflicts whose atoms are new: Backtrack has little room. The conflict has
/// two literals, so that Backtrack goes back no further than to the newest decisions.
fn full_trail_and_conflict(random: &mut Random, version: u16) -> RunFile {
    let arity = random.within(2..=3) as u8;
    let (p, q): (Vec<u8>, Vec<u8>) = ((1..=arity).collect(), (arity + 1..=2 * arity).collect());
    let denial = Clause {
        variables: 2 * arity,
        atoms: (0..random.within(1..=12)).map(|_| loose_bound(random, 2 * arity)).collect(),
        literals: vec![of(false, 1, &p), of(false, 2, &q)],
    };
    // With a clause at the end that serves Decide, and Propagate in a few files.
    let served = vec![of(true, 1, &p), of(true, 1, &q)];
    let served = Clause { variables: 2 * arity, atoms: Vec::new(), literals: served };
    let first = State::first(version, random.within(14..=16), vec![arity; 2], vec![denial, served]);
    let steps = random.within(200..=320);
    let mut temper = temper(random, version, steps);
    temper.quiet_until = random.within(148..=160);
    temper.newest = 100;
    temper.against = random.pick(&[50, 100]);
    (temper.propagate, temper.decide, temper.grow) = (random.pick(&[0, 1, 10]), 10, 0);
    (temper.conflict, temper.resolve, temper.backtrack) = (20, 1, 20);
    temper.wish = None;
    wish_for(random, 60, &[(7, 18), (7, 18), (1, 18), (2, 18)], Moment::Trail(1), &mut temper);
    let steps = play(random, &temper, first.clone());
    file_of(first, steps)
}

/// A bound of one of the variables that keeps all constants well apart from it.
fn loose_bound(random: &mut Random, variables: u8) -> Atom {
    let variable = random.within(1..=variables.into()) as u8;
    let c = random.whole(900..=2_000);
    random.pick(&[Atom { p: variable, q: 0, c }, Atom { p: 0, q: variable, c }])
}

/// Clauses of eight literals that are false one after the other: refusal 12 at every place.
fn eight_literals(random: &mut Random, version: u16) -> RunFile {
    let shape = Shape {
        constants: 1..=2,
        predicates: 5..=8,
        arities: 0..=1,
        clauses: 1..=3,
        literals: 8..=8,
        repeats: 0,
        leaning: random.pick(&[90, 100]),
        ..small()
    };
    let steps = random.within(4..=16);
    let mut temper = temper(random, version, steps);
    temper.against = 100;
    (temper.propagate, temper.decide, temper.conflict, temper.grow) = (0, 1, 0, 0);
    let moment = Moment::Step(random.within(3..=12));
    wish_for(random, 90, &[(1, 12), (3, 12)], moment, &mut temper);
    played(random, version, &shape, &temper)
}

fn of(positive: bool, predicate: u8, variables: &[u8]) -> Literal {
    let mut arguments = [0; limits::ARITY];
    arguments[..variables.len()].copy_from_slice(variables);
    Literal { positive, predicate, arguments }
}

/// Nothing to refute and Backtrack at hand: learned clauses come to their limit.
fn many_learned(random: &mut Random, version: u16) -> RunFile {
    let shape = Shape {
        constants: 4..=12,
        predicates: 2..=4,
        arities: 1..=3,
        clauses: 6..=20,
        literals: random.pick(&[1..=3, 2..=4]),
        repeats: random.pick(&[15, 50]),
        reach: 3_000,
        tight: 0,
        satisfiable: true,
        ..small()
    };
    let steps = random.within(200..=900);
    let mut temper = temper(random, version, steps);
    temper.conflict = 40;
    temper.grow_when_stuck = true;
    if random.percent(25) {
        eager(random, &mut temper);
    }
    let moment = Moment::Learned(limits::LEARNED_CLAUSES);
    wish_for(random, 60, &[(7, 18), (7, 18), (7, 16), (7, 15)], moment, &mut temper);
    played(random, version, &shape, &temper)
}

/// A clause with one literal twice, learned again and again up to the limit, whole and factorized.
fn same_clause_again(random: &mut Random, version: u16) -> RunFile {
    let arity = random.within(2..=3) as u8;
    let (p, q): (Vec<u8>, Vec<u8>) = ((1..=arity).collect(), (arity + 1..=2 * arity).collect());
    let mut denial = Clause {
        variables: 2 * arity,
        atoms: (0..random.below(4)).map(|_| loose_bound(random, 2 * arity)).collect(),
        literals: vec![of(false, 1, &p), of(false, 1, &p), of(false, 2, &q)],
    };
    random.shuffle(&mut denial.literals);
    let first = State::first(version, random.within(8..=16), vec![arity; 2], vec![denial]);
    let mut temper = temper(random, version, 360);
    (temper.against, temper.newest) = (100, random.pick(&[50, 90]));
    (temper.propagate, temper.decide, temper.conflict, temper.grow) = (0, 10, 40, 0);
    (temper.factorize, temper.skip, temper.backtrack) = (1, 1, 10);
    temper.wish = None;
    let moment = Moment::Learned(limits::LEARNED_CLAUSES);
    wish_for(random, 80, &[(7, 15), (7, 16), (7, 18)], moment, &mut temper);
    let steps = play(random, &temper, first.clone());
    file_of(first, steps)
}

/// Counts at the ends of their ranges: nothing at all, or as much as there may be.
fn odd_corners(random: &mut Random, version: u16) -> RunFile {
    let shape = Shape {
        constants: random.pick(&[0..=0, 1..=1, 16..=16, 0..=16]),
        predicates: random.pick(&[0..=0, 1..=1, 8..=8]),
        arities: random.pick(&[0..=0, 3..=3, 0..=3]),
        clauses: random.pick(&[0..=0, 1..=1, 48..=48, 0..=48]),
        literals: random.pick(&[0..=0, 0..=8, 8..=8, 1..=2]),
        atoms: random.pick(&[0..=0, 0..=24, 24..=24]),
        variables: random.within(1..=limits::VARIABLES),
        without_atoms: 30,
        reach: random.pick(&[2, 1_000]),
        ..small()
    };
    let steps = random.pick(&[0, 1, 3, 40, 120]);
    let mut temper = temper(random, version, steps);
    temper.grow = random.within(1..=3);
    played(random, version, &shape, &temper)
}

/// As many steps as a file may have: the trail fills, Grow empties it, and so on.
fn long_run(random: &mut Random, version: u16) -> RunFile {
    let shape = Shape {
        constants: 1..=2,
        predicates: 8..=8,
        arities: random.pick(&[2..=3, 3..=3]),
        clauses: 20..=48,
        literals: 1..=4,
        reach: 900_000,
        tight: 0,
        without_atoms: random.pick(&[80, 100]),
        satisfiable: true,
        ..small()
    };
    let mut temper = temper(random, version, limits::STEPS);
    (temper.propagate, temper.decide, temper.conflict, temper.grow) = (3, 20, 1, 0);
    (temper.resolve, temper.factorize, temper.skip, temper.backtrack) = (1, 1, 8, 2);
    (temper.grow_when_stuck, temper.grow_most) = (true, 1);
    temper.wish = None;
    played(random, version, &shape, &temper)
}

/// The longest file there is: every clause full, every step a Decide of twelve variables.
fn longest(random: &mut Random, version: u16) -> RunFile {
    let shape = Shape {
        constants: 1..=16,
        predicates: 8..=8,
        arities: 3..=3,
        clauses: 48..=48,
        literals: 8..=8,
        atoms: 24..=24,
        variables: 12,
        reuse: 0,
        without_atoms: 0,
        ..small()
    };
    let first = first_state(random, version, &shape);
    let decisions = random.pick(&[10, 100, 160]);
    let mut temper = temper(random, version, decisions);
    (temper.propagate, temper.decide, temper.conflict, temper.grow) = (0, 1, 0, 0);
    temper.grow_when_stuck = false;
    temper.wish = None;
    let mut steps = play(random, &temper, first.clone());
    while steps.len() < limits::STEPS {
        steps.push(decide_of_twelve(random, first.constants));
    }
    file_of(first, steps)
}

fn decide_of_twelve(random: &mut Random, constants: usize) -> Step {
    Step::Decide {
        clause: random.within(1..=limits::INPUT_CLAUSES) as u8,
        literal: random.within(1..=limits::LITERALS) as u8,
        positive: random.percent(50),
        instance: (0..limits::VARIABLES).map(|_| random.within(1..=constants) as u8).collect(),
        atoms: Vec::new(),
    }
}

// Kinds of version 2

/// The reasons against a decision, those of its atoms among them.
const AGAINST_DECIDE: [Wish; 8] =
    [(2, 10), (2, 10), (2, 11), (2, 11), (2, 13), (2, 13), (2, 13), (2, 18)];

/// Clauses that hold on bands, and decisions that say on which side of a band a number lies: what can be propagated
/// and what conflicts hangs on the sides.
fn sides_of_bands(random: &mut Random, version: u16) -> RunFile {
    let arities: Vec<u8> = (0..random.within(1..=4)).map(|_| random.within(1..=2) as u8).collect();
    let input = (0..random.within(4..=16)).map(|_| clause_on_bands(random, &arities)).collect();
    let first = State::first(version, random.within(1..=5), arities, input);
    let mut temper = temper(random, version, 200);
    (temper.propagate, temper.decide, temper.conflict) =
        random.pick(&[(20, 20, 100), (5, 20, 50), (100, 20, 100), (1, 1, 10)]);
    temper.brings = random.pick(&[80, 100]);
    temper.brought = random.pick(&[1..=1, 1..=2, 1..=4, 2..=8]);
    let wishes = [&AGAINST_DECIDE[..], &[(1, 13), (3, 13), (6, 15), (7, 16)]].concat();
    let moment = Moment::Step(random.below(60));
    wish_for(random, 70, &wishes, moment, &mut temper);
    let steps = play(random, &temper, first.clone());
    file_of(first, steps)
}

/// Clauses of many atoms, and decisions that bring up to as many as they may.
fn many_brought(random: &mut Random, version: u16) -> RunFile {
    let shape = Shape {
        constants: random.pick(&[1..=4, 4..=16, 12..=16]),
        predicates: 2..=5,
        arities: 1..=3,
        literals: random.pick(&[1..=2, 1..=3]),
        atoms: random.pick(&[8..=24, 20..=24]),
        variables: random.within(4..=limits::VARIABLES),
        without_atoms: 10,
        differences: random.pick(&[0, 20, 40]),
        reach: random.pick(&[30, 5_000]),
        tight: random.pick(&[0, 10, 40]),
        satisfiable: random.percent(50),
        ..small()
    };
    let mut temper = temper(random, version, 150);
    (temper.propagate, temper.decide, temper.conflict) =
        random.pick(&[(1, 10, 20), (0, 10, 5), (10, 10, 40)]);
    temper.grow_when_stuck = random.percent(50);
    temper.brings = random.pick(&[60, 100]);
    temper.brought = random.pick(&[4..=24, 20..=24, 24..=24]);
    let moment = Moment::Step(random.below(20));
    wish_for(random, 60, &AGAINST_DECIDE, moment, &mut temper);
    played(random, version, &shape, &temper)
}

/// Atoms at the ends of c's range, brought as they stand and denied.
fn ends_of_the_range(random: &mut Random, version: u16) -> RunFile {
    let arities: Vec<u8> = (0..random.within(1..=4)).map(|_| random.within(1..=2) as u8).collect();
    let input = (0..random.within(2..=12)).map(|_| clause_at_ends(random, &arities)).collect();
    let constants = random.pick(&[1..=2, 2..=5, 6..=16, 16..=16]);
    let first = State::first(version, random.within(constants), arities, input);
    let mut temper = temper(random, version, 120);
    (temper.propagate, temper.decide, temper.conflict) =
        random.pick(&[(1, 10, 10), (10, 10, 10), (10, 3, 20)]);
    temper.brings = 100;
    temper.denied = random.pick(&[30, 50, 70]);
    let moment = Moment::Step(random.below(30));
    wish_for(random, 50, &AGAINST_DECIDE, moment, &mut temper);
    let steps = play(random, &temper, first.clone());
    file_of(first, steps)
}

/// A clause whose variables are bounded on one side or on both, at the ends of the range or next to them, some of them at
/// such a distance from each other.
fn clause_at_ends(random: &mut Random, arities: &[u8]) -> Clause {
    let mut clause = clause_of_literals(random, arities);
    let end = |random: &mut Random| {
        let near = random.pick(&[0, 0, 0, 1, 2]);
        random.pick(&[limits::C - near, near - limits::C])
    };
    for variable in 1..=clause.variables {
        let [above, below] = [end(random), end(random)];
        let above = Atom { p: variable, q: 0, c: above };
        let below = Atom { p: 0, q: variable, c: below };
        match random.below(if clause.occurs(variable) { 4 } else { 3 }) {
            0 => clause.atoms.push(above),
            1 => clause.atoms.push(below),
            2 => clause.atoms.extend([above, below]),
            _ => {}
        }
    }
    for variable in 2..=clause.variables {
        let bounded = |variable: u8| {
            clause.atoms.iter().any(|atom| atom.bounds_above(variable))
                && clause.atoms.iter().any(|atom| atom.bounds_below(variable))
        };
        if bounded(variable) && bounded(variable - 1) {
            let (p, q) = random.pick(&[(variable, variable - 1), (variable - 1, variable)]);
            clause.atoms.push(Atom { p, q, c: end(random) });
        }
    }
    random.shuffle(&mut clause.atoms);
    clause
}

/// Few different atoms and their denials, in clauses and on the trail: what a decision names is often there already.
fn atoms_that_meet(random: &mut Random, version: u16) -> RunFile {
    let arities: Vec<u8> = (0..random.within(2..=4)).map(|_| random.within(1..=2) as u8).collect();
    let ends: Vec<i32> = (0..random.within(1..=3)).map(|_| random.whole(-4..=4)).collect();
    let mut input = Vec::new();
    for _ in 0..random.within(3..=10) {
        let mut clause = clause_of_literals(random, &arities);
        for variable in 1..=clause.variables {
            let above = Atom { p: variable, q: 0, c: random.pick(&ends) };
            match random.below(3) {
                0 => clause.atoms.push(above),
                1 => clause.atoms.push(above.denial()),
                _ => {}
            }
        }
        if !clause.every_variable_occurs() {
            continue;
        }
        input.push(clause);
    }
    let first = State::first(version, random.within(1..=4), arities, input);
    let mut temper = temper(random, version, 80);
    (temper.propagate, temper.decide, temper.conflict) =
        random.pick(&[(10, 10, 10), (2, 10, 20), (20, 10, 1)]);
    temper.brings = random.pick(&[60, 100]);
    let moment = Moment::Step(random.below(25));
    wish_for(random, 80, &AGAINST_DECIDE, moment, &mut temper);
    let steps = play(random, &temper, first.clone());
    file_of(first, steps)
}

/// Many constants, and decisions with many atoms: the trail fills up by them, and little room is left.
fn full_trail_of_atoms(random: &mut Random, version: u16) -> RunFile {
    let shape = Shape {
        constants: 6..=16,
        predicates: 2..=5,
        arities: 1..=3,
        literals: 1..=3,
        atoms: random.pick(&[1..=6, 6..=24]),
        variables: 8,
        without_atoms: 10,
        differences: random.pick(&[0, 20]),
        reach: random.pick(&[60, 5_000]),
        tight: random.pick(&[0, 10]),
        satisfiable: true,
        ..small()
    };
    let mut temper = temper(random, version, 300);
    (temper.propagate, temper.decide, temper.grow) = (random.pick(&[0, 1, 10]), 10, 0);
    temper.quiet_until = random.pick(&[100, 140, 160, 160]);
    temper.brings = random.pick(&[80, 100]);
    temper.brought = random.pick(&[1..=4, 1..=24, 16..=24]);
    let room = [(2, 18), (2, 18), (2, 18), (1, 18), (7, 18)];
    let wishes = [&AGAINST_DECIDE[..], &room].concat();
    let moment = Moment::Trail(random.pick(&[130, 137, 150, 158, 159, 160, 160]));
    wish_for(random, 90, &wishes, moment, &mut temper);
    played(random, version, &shape, &temper)
}

/// As many bytes as a file may have, or a few more; all steps are accepted where it is not too long.
fn as_long_as_may_be(random: &mut Random, _: u16) -> RunFile {
    let most = limits::FILE_BYTES;
    let length =
        random.pick(&[most, most, most, most - 1, most + 1, most + 1, most + 2, most + 40]);
    file_of_length(random, length).expect("a file of that length")
}
