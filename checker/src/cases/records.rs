//! Cases of merging, admission and steps, packed for `crates/rule_cases`, whose source says where everything
//! stands. Each case is packed to the same width, so that the program has nothing to parse; what does not fit
//! is an error. Of the atoms that a decision is to bring there is room for two, the first and one that stands in
//! every other slot.

use super::{cases, RunKind, Words};
use crate::admission::{ClauseRecord, LiteralRecord, SourceRecord, StepRecord};
use crate::clause::Atom;
use crate::limits;

const NAME: usize = 24;
const ATOMS: usize = 6 * 6;
const LITERALS: usize = 6 * 5;
const STEPS: usize = 10 * 52;

/// The cases one after the other.
pub fn packed_records(text: &[u8]) -> Vec<u8> {
    cases(&String::from_utf8_lossy(text)).iter().flat_map(|case| packed(case)).collect()
}

fn packed(case: &str) -> Vec<u8> {
    let (name, rest) = case.split_once(' ').unwrap_or((case, ""));
    let mut words = Words::of(rest);
    let (kind, record) = match words.byte() {
        kind @ (1 | 4 | 5) => (kind, Record::of_merging(&mut words, kind == 4)),
        kind => {
            let RunKind { version, each } = RunKind::of(kind);
            let record = Record::of_run(&mut words, version);
            let shown = !record.steps.is_empty();
            assert_eq!(each, shown, "{name}: the program prints a state after each step");
            (if each { 0 } else { 9 }, record)
        }
    };
    [fitted(name.as_bytes(), NAME), vec![name.len() as u8, kind], record.bytes()].concat()
}

/// What a case has besides its name and what is done.
struct Record {
    literals: [u8; 2],
    /// Constants, predicates and clauses.
    counts: [u8; 3],
    arities: Vec<u8>,
    /// That of a run.
    version: u8,
    /// Two clauses, packed. In a run the first stands at a place of the table, the second in every other.
    clauses: [Vec<u8>; 2],
    place: usize,
    steps: Vec<StepRecord>,
}

impl Record {
    fn of_merging(words: &mut Words, two: bool) -> Record {
        let first = words.given();
        let second = if two { words.given() } else { (ClauseRecord::blank(), Vec::new()) };
        Record {
            literals: [words.byte(), words.byte()],
            counts: [0; 3],
            arities: Vec::new(),
            version: 0,
            clauses: [first, second].map(|(clause, instance)| clause_bytes(&clause, &instance)),
            place: 0,
            steps: Vec::new(),
        }
    }

    fn of_run(words: &mut Words, version: u16) -> Record {
        let counts = [words.byte(), words.byte(), words.byte()];
        let arities = words.bytes();
        let (place, clauses) = one_and_others(&words.clauses(), counts[2].into());
        let mut steps = Vec::new();
        while !words.at_end() {
            steps.push(words.step(version));
        }
        let version = version as u8;
        Record { literals: [0; 2], counts, arities, version, clauses, place, steps }
    }

    fn bytes(&self) -> Vec<u8> {
        let steps: Vec<u8> = self.steps.iter().flat_map(step_bytes).collect();
        [
            self.literals.to_vec(),
            self.counts.to_vec(),
            vec![self.place as u8, self.steps.len() as u8],
            fitted(&self.arities, limits::PREDICATES),
            vec![self.version],
            self.clauses.concat(),
            fitted(&steps, STEPS),
        ]
        .concat()
    }
}

/// A table of clauses as one at a place and another in every other place. Past the clauses of a case the table
/// is blank where it is looked at, and else it has the first clause again.
fn one_and_others(clauses: &[ClauseRecord], count: usize) -> (usize, [Vec<u8>; 2]) {
    assert!(clauses.len() <= limits::INPUT_CLAUSES, "more clauses than the table has places");
    let past = clauses.first().filter(|_| count <= clauses.len()).cloned();
    let mut table = clauses.to_vec();
    table.resize(limits::INPUT_CLAUSES, past.unwrap_or(ClauseRecord::blank()));
    let table: Vec<Vec<u8>> = table.iter().map(|clause| clause_bytes(clause, &[])).collect();
    let others = |place: usize| &table[(place + 1) % table.len()];
    let alone = |&place: &usize| {
        (0..table.len()).all(|index| index == place || table[index] == *others(place))
    };
    let place = (0..table.len()).find(alone).expect("one clause, and one in every other place");
    (place, [table[place].clone(), others(place).clone()])
}

/// So many bytes: zeros past those that are given, of which zeros alone are cut.
fn fitted(bytes: &[u8], width: usize) -> Vec<u8> {
    assert!(bytes.iter().skip(width).all(|&byte| byte == 0), "no room in {width} bytes: {bytes:?}");
    let mut bytes = bytes.to_vec();
    bytes.resize(width, 0);
    bytes
}

fn clause_bytes(clause: &ClauseRecord, instance: &[u8]) -> Vec<u8> {
    let atoms: Vec<u8> = clause.atoms.iter().flat_map(atom_bytes).collect();
    let literals: Vec<u8> = clause.literals.iter().flat_map(literal_bytes).collect();
    [
        vec![clause.variables, clause.atom_count, clause.literal_count],
        fitted(&atoms, ATOMS),
        fitted(&literals, LITERALS),
        fitted(instance, limits::INSTANCE),
    ]
    .concat()
}

fn atom_bytes(atom: &Atom) -> Vec<u8> {
    let size = fitted(&atom.c.unsigned_abs().to_le_bytes(), 3);
    [vec![atom.p, atom.q, (atom.c < 0) as u8], size].concat()
}

fn literal_bytes(literal: &LiteralRecord) -> Vec<u8> {
    [&[literal.sign, literal.predicate], &literal.arguments[..]].concat()
}

fn step_bytes(step: &StepRecord) -> Vec<u8> {
    let numbers = [
        step.rule,
        step.clause,
        step.literal,
        step.second,
        step.sign,
        step.count,
        step.instance_count,
    ];
    let [first, others @ ..] = step.atoms.each_ref().map(source_bytes);
    let alike = others.iter().all(|other| *other == others[0]);
    assert!(alike, "one atom, and one in every other slot");
    [&numbers[..], &step.instance, &[step.atom_count], &first, &others[0]].concat()
}

fn source_bytes(source: &SourceRecord) -> Vec<u8> {
    let numbers = [source.clause, source.number, source.sign, source.instance_count];
    [&numbers[..], &source.instance].concat()
}
