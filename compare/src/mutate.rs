//! Files changed at random: a file in order in its clauses and steps, so that most of what comes of it is in order too; any file in its bytes.

use checker::clause::{Atom, Clause, Literal};
use checker::file::{read, write, RunFile};
use checker::generate::onward;
use checker::limits;
use checker::random::Random;
use checker::state::State;
use checker::step::{Source, Step};

/// A player's steps are put in, at most so many at a time.
const ONWARD: usize = 24;
/// None are put in behind so many.
const MOST: usize = 200;

/// A file that comes of one, or of one and parts of another.
pub fn mutated(random: &mut Random, file: &[u8], other: &[u8]) -> Vec<u8> {
    let Ok(mut changed) = read(file) else { return with_bytes_changed(random, file) };
    let other = read(other).ok();
    for _ in 0..random.within(0..=3) {
        change(random, &mut changed, other.as_ref());
    }
    if random.percent(60) {
        play(random, &mut changed);
    }
    let bytes = write(&changed).bytes;
    match random.below(1_000) {
        0..=98 => with_bytes_changed(random, &bytes),
        99 => stretched(random, bytes),
        _ => bytes,
    }
}

/// More bytes behind a file's: as many as a file may have, or a few more.
fn stretched(random: &mut Random, mut bytes: Vec<u8>) -> Vec<u8> {
    let length = limits::FILE_BYTES + random.pick(&[0, 0, 1, 1, 1, 2, 500]);
    bytes.resize(length.max(bytes.len()), random.pick(&[0, 1, 6]));
    bytes
}

fn change(random: &mut Random, file: &mut RunFile, other: Option<&RunFile>) {
    match random.below(12) {
        0..=3 => change_steps(random, &mut file.steps),
        4..=6 => change_step(random, file),
        7..=9 => change_clauses(random, file),
        10 => match other {
            Some(other) => splice(random, file, other),
            None => change_steps(random, &mut file.steps),
        },
        _ => change_front(random, file),
    }
}

/// A range of a list that is not empty
fn range(random: &mut Random, length: usize) -> std::ops::Range<usize> {
    let start = random.below(length);
    let most = (length - start).min(8);
    start..start + random.within(1..=most)
}

/// Steps go, come twice, change places or end earlier.
fn change_steps(random: &mut Random, steps: &mut Vec<Step>) {
    if steps.is_empty() {
        return;
    }
    let range = range(random, steps.len());
    match random.below(4) {
        0 => drop(steps.drain(range)),
        1 => {
            let twice = steps[range].to_vec();
            let at = random.below(steps.len() + 1);
            steps.splice(at..at, twice);
        }
        2 => {
            let (one, two) = (random.below(steps.len()), random.below(steps.len()));
            steps.swap(one, two);
        }
        _ => steps.truncate(range.end),
    }
    steps.truncate(limits::STEPS);
}

/// A number near an old one, or a small one, or any.
fn near(random: &mut Random, old: u8) -> u8 {
    match random.below(8) {
        0..=2 => old.wrapping_add(1),
        3..=5 => old.wrapping_sub(1),
        6 => random.below(17) as u8,
        _ => random.byte(),
    }
}

/// One argument of one step, or a step that is new.
fn change_step(random: &mut Random, file: &mut RunFile) {
    if file.steps.is_empty() || random.percent(30) {
        let at = random.below(file.steps.len() + 1);
        let step = any_step(random, file);
        file.steps.insert(at, step);
        return;
    }
    let index = random.below(file.steps.len());
    match &mut file.steps[index] {
        Step::Propagate { clause, literal, instance } => match random.below(3) {
            0 => *clause = near(random, *clause),
            1 => *literal = near(random, *literal),
            _ => change_instance(random, instance),
        },
        Step::Decide { clause, literal, positive, instance, atoms } => match random.below(8) {
            0 => *clause = near(random, *clause),
            1 => *literal = near(random, *literal),
            2 => *positive = !*positive,
            3 => change_instance(random, instance),
            _ => change_atoms_brought(random, *clause, instance.clone(), atoms),
        },
        Step::Conflict { clause, instance } => match random.below(2) {
            0 => *clause = near(random, *clause),
            _ => change_instance(random, instance),
        },
        Step::Resolve { literal } | Step::Backtrack { literal } => {
            *literal = near(random, *literal)
        }
        Step::Factorize { first, second } => {
            let one = if random.percent(50) { first } else { second };
            *one = near(random, *one);
        }
        Step::Skip => file.steps.insert(index, Step::Skip),
        Step::Grow { count } => *count = near(random, *count),
    }
    file.steps.truncate(limits::STEPS);
}

/// An atom more, of a clause and instance that are given or near them; one fewer; one twice, or with its denial; two in another order; or another
/// clause, number, sign or instance.
fn change_atoms_brought(
    random: &mut Random,
    clause: u8,
    instance: Vec<u8>,
    atoms: &mut Vec<Source>,
) {
    if atoms.is_empty() || random.percent(30) {
        let (number, stands) = (1 + random.below(6) as u8, random.percent(50));
        let mut source = Source { clause, number, stands, instance };
        if random.percent(30) {
            source.clause = near(random, clause);
            change_instance(random, &mut source.instance);
        }
        let at = random.below(atoms.len() + 1);
        atoms.insert(at, source);
    } else {
        let (index, other) = (random.below(atoms.len()), random.below(atoms.len()));
        match random.below(8) {
            0 => drop(atoms.remove(index)),
            1 => {
                let again = atoms[index].clone();
                atoms.push(Source { stands: again.stands ^ random.percent(50), ..again });
            }
            2 => atoms.swap(index, other),
            3 => atoms[index].clause = near(random, atoms[index].clause),
            4 => atoms[index].number = near(random, atoms[index].number),
            5 | 6 => atoms[index].stands ^= true,
            _ => change_instance(random, &mut atoms[index].instance),
        }
    }
    // Now and then one more than there may be.
    atoms.truncate(limits::BROUGHT + random.percent(10) as usize);
}

fn change_instance(random: &mut Random, instance: &mut Vec<u8>) {
    match random.below(8) {
        0 if instance.len() < limits::INSTANCE => instance.push(1),
        1 => drop(instance.pop()),
        _ if instance.is_empty() => {}
        _ => {
            let index = random.below(instance.len());
            instance[index] = near(random, instance[index]);
        }
    }
}

/// A step whose numbers mostly name something
fn any_step(random: &mut Random, file: &RunFile) -> Step {
    let clause = random.below(file.clauses.len() + 3) as u8;
    let held = file.clauses.get((clause as usize).wrapping_sub(1));
    let variables = held.map_or(random.below(4), |held| held.variables.into());
    let instance: Vec<u8> =
        (0..variables).map(|_| 1 + random.below(file.constants.max(1).into()) as u8).collect();
    let literal = random.below(limits::LITERALS / 2) as u8;
    match random.below(8) {
        0 => Step::Propagate { clause, literal, instance },
        1 => {
            let mut atoms = Vec::new();
            for _ in 0..random.pick(&[0, 0, 1, 2]) {
                change_atoms_brought(random, clause, instance.clone(), &mut atoms);
            }
            Step::Decide { clause, literal, positive: random.percent(50), instance, atoms }
        }
        2 => Step::Conflict { clause, instance },
        3 => Step::Resolve { literal },
        4 => Step::Factorize { first: literal, second: random.below(4) as u8 },
        5 => Step::Skip,
        6 => Step::Backtrack { literal },
        _ => Step::Grow { count: random.below(4) as u8 },
    }
}

fn change_clauses(random: &mut Random, file: &mut RunFile) {
    let predicates = file.arities.len();
    if file.clauses.is_empty() {
        file.clauses.push(Clause { variables: 0, atoms: Vec::new(), literals: Vec::new() });
    }
    let index = random.below(file.clauses.len());
    match random.below(10) {
        0 => drop(file.clauses.remove(index)),
        1 if file.clauses.len() <= limits::INPUT_CLAUSES => {
            let again = file.clauses[index].clone();
            file.clauses.push(again);
        }
        2..=5 => change_atoms(random, &mut file.clauses[index]),
        _ => change_literals(random, &mut file.clauses[index], predicates, &file.arities),
    }
}

fn place(random: &mut Random, clause: &Clause) -> u8 {
    random.below(clause.variables as usize + 1) as u8
}

/// A bound or difference more, one fewer, or another c.
fn change_atoms(random: &mut Random, clause: &mut Clause) {
    if clause.atoms.is_empty() || random.percent(30) {
        let (p, q) = (place(random, clause), place(random, clause));
        if clause.atoms.len() <= limits::ATOMS {
            clause.atoms.push(Atom { p, q, c: random.whole(-9..=9) });
        }
        return;
    }
    let index = random.below(clause.atoms.len());
    let (p, q) = (place(random, clause), place(random, clause));
    let atom = &mut clause.atoms[index];
    match random.below(8) {
        0 => drop(clause.atoms.remove(index)),
        1 => atom.p = p,
        2 => atom.q = q,
        3 => (atom.p, atom.q) = (atom.q, atom.p),
        4 => atom.c = random.pick(&[limits::C, limits::C - 1, -limits::C, 1 - limits::C, 0]),
        5 => atom.c = atom.c.wrapping_neg(),
        _ => atom.c = atom.c.wrapping_add(random.whole(-2..=2)),
    }
}

/// A literal more, one fewer, another sign, predicate or argument; or a variable more or fewer.
fn change_literals(random: &mut Random, clause: &mut Clause, predicates: usize, arities: &[u8]) {
    let predicate = 1 + random.below(predicates.max(1)) as u8;
    let arity = arities.get(predicate as usize - 1).copied().unwrap_or(0) as usize;
    let mut arguments = [0; limits::ARITY];
    for argument in &mut arguments[..arity] {
        *argument = place(random, clause).max(1);
    }
    let some = Literal { positive: random.percent(50), predicate, arguments };
    if clause.literals.is_empty() || random.percent(30) {
        if clause.literals.len() <= limits::LITERALS {
            clause.literals.push(some);
        }
        return;
    }
    let index = random.below(clause.literals.len());
    match random.below(6) {
        0 => drop(clause.literals.remove(index)),
        1 => clause.literals[index] = some,
        2 => clause.variables = near(random, clause.variables).min(limits::VARIABLES as u8 + 1),
        3 => {
            let again = clause.literals[index];
            if clause.literals.len() <= limits::LITERALS {
                clause.literals.push(again);
            }
        }
        _ => clause.literals[index].positive ^= true,
    }
}

/// The version, constants, or an arity.
fn change_front(random: &mut Random, file: &mut RunFile) {
    if random.percent(30) {
        file.version = 3 - file.version;
        return;
    }
    if file.arities.is_empty() || random.percent(60) {
        file.constants = near(random, file.constants).min(limits::CONSTANTS as u8 + 1);
        return;
    }
    let index = random.below(file.arities.len());
    file.arities[index] = random.below(limits::ARITY + 1) as u8;
}

/// Some steps of the other file, and now and then a clause.
fn splice(random: &mut Random, file: &mut RunFile, other: &RunFile) {
    if !other.steps.is_empty() {
        let range = range(random, other.steps.len());
        let at = random.below(file.steps.len() + 1);
        file.steps.splice(at..at, other.steps[range].to_vec());
        file.steps.truncate(limits::STEPS);
    }
    if !other.clauses.is_empty() && file.clauses.len() <= limits::INPUT_CLAUSES {
        file.clauses.push(random.pick(&other.clauses));
    }
}

/// Takes the steps that are refused out, up to somewhere, goes on from there by a player's steps, and puts the others behind, mostly again
/// without those that are refused. A file that is bad stays as it is.
fn play(random: &mut Random, file: &mut RunFile) {
    // Read again, so that nothing is left in it that no file says, as arguments past an arity.
    let Ok(again) = read(&write(file).bytes) else { return };
    let (mut state, steps) = (again.first_state(), again.steps);
    let (first, rest) = steps.split_at(random.within(0..=steps.len()));
    let mut played = accepted(&mut state, first);
    if played.len() < MOST {
        let count = random.within(1..=ONWARD);
        let more = onward(random, state.clone(), count);
        let refused = accepted(&mut state, &more).len() < more.len();
        played.extend(more);
        if refused {
            file.steps = played;
            return;
        }
    }
    if random.percent(80) {
        played.extend(accepted(&mut state, rest));
    } else {
        played.extend_from_slice(rest);
    }
    played.truncate(limits::STEPS);
    file.steps = played;
}

/// The steps that are accepted one after the other, without those that are not.
fn accepted(state: &mut State, steps: &[Step]) -> Vec<Step> {
    steps.iter().filter(|step| state.take(step).is_ok()).cloned().collect()
}

/// Bytes set, flipped, put in, taken out, cut off or put behind.
fn with_bytes_changed(random: &mut Random, file: &[u8]) -> Vec<u8> {
    let mut bytes = file.to_vec();
    for _ in 0..random.within(1..=3) {
        if bytes.is_empty() {
            bytes.push(random.byte());
        }
        let at = random.below(bytes.len());
        match random.below(8) {
            0 => bytes[at] ^= 1 << random.below(8),
            1 => bytes[at] = random.byte(),
            2 | 3 => bytes[at] = near(random, bytes[at]),
            4 => bytes.insert(at, random.below(9) as u8),
            5 => drop(bytes.remove(at)),
            6 => bytes.truncate(at),
            _ => bytes.push(random.byte()),
        }
    }
    bytes
}
