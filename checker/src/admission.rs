//! Clause records and steps offered without a file.
//!
//! "Clause records or a step offered to the library without a file meet 3 to 7 in the same way before
//! anything else; the place is then the number of the first bad clause, or 0 for a step or for counts
//! and arities, which are judged first."

use crate::clause::{Atom, Clause, Literal};
use crate::constraint::Numbers;
use crate::limits;
use crate::refusal::{demand, Refusal};
use crate::state::State;
use crate::step::{brings_atoms, Source, Step};

/// A literal as offered. Argument slots past the arity are not looked at.
#[derive(Clone, Copy, Debug)]
pub struct LiteralRecord {
    pub sign: u8,
    pub predicate: u8,
    pub arguments: [u8; limits::ARITY],
}

/// A clause as offered. Slots past a count are not looked at.
#[derive(Clone, Debug)]
pub struct ClauseRecord {
    pub variables: u8,
    pub atom_count: u8,
    pub atoms: [Atom; limits::ATOMS],
    pub literal_count: u8,
    pub literals: [LiteralRecord; limits::LITERALS],
}

/// An atom that a decision is to bring, as offered. Constants past the instance's count are not looked at.
#[derive(Clone, Copy, Debug, Default)]
pub struct SourceRecord {
    pub clause: u8,
    pub number: u8,
    pub sign: u8,
    pub instance_count: u8,
    pub instance: [u8; limits::INSTANCE],
}

/// A step as offered: a rule number and every argument a rule may have. Those of other rules, constants past the
/// instance's count and atoms past theirs are not looked at. In a state of version 1 no atoms are, nor how many.
#[derive(Clone, Debug, Default)]
pub struct StepRecord {
    pub rule: u8,
    pub clause: u8,
    /// The literal, and the first one of Factorize.
    pub literal: u8,
    /// The second literal of Factorize.
    pub second: u8,
    pub sign: u8,
    pub instance_count: u8,
    pub instance: [u8; limits::INSTANCE],
    /// Grow's count.
    pub count: u8,
    /// The atoms that Decide is to bring.
    pub atom_count: u8,
    pub atoms: [SourceRecord; limits::BROUGHT],
}

/// Admits clause records: the first state over them, for steps of that version, or the refusal.
pub fn admit(
    version: u16,
    constants: u8,
    predicates: u8,
    arities: &[u8; limits::PREDICATES],
    clauses: &[ClauseRecord],
) -> Result<State, Refusal> {
    let counts_fit = constants as usize <= limits::CONSTANTS
        && predicates as usize <= limits::PREDICATES
        && clauses.len() <= limits::INPUT_CLAUSES;
    demand(counts_fit, Refusal::new(3, 0))?;
    let arities = &arities[..predicates as usize];
    demand(arities.iter().all(|&arity| arity as usize <= limits::ARITY), Refusal::new(3, 0))?;
    let mut input = Vec::new();
    for (index, record) in clauses.iter().enumerate() {
        let clause =
            admit_clause(record, arities).map_err(|number| Refusal::new(number, index + 1))?;
        input.push(clause);
    }
    Ok(State::first(version, constants.into(), arities.to_vec(), input))
}

/// One clause record, judged in the order of the file's fields: the clause or the refusal's number.
fn admit_clause(record: &ClauseRecord, arities: &[u8]) -> Result<Clause, u8> {
    let counts_fit = record.variables as usize <= limits::VARIABLES
        && record.atom_count as usize <= limits::ATOMS
        && record.literal_count as usize <= limits::LITERALS;
    if !counts_fit {
        return Err(3);
    }
    let atoms = record.atoms[..record.atom_count as usize].to_vec();
    if !atoms.iter().all(|atom| is_sound(atom, record.variables)) {
        return Err(4);
    }
    let mut literals = Vec::new();
    for literal in &record.literals[..record.literal_count as usize] {
        literals.push(admit_literal(literal, record.variables, arities).ok_or(4)?);
    }
    let clause = Clause { variables: record.variables, atoms, literals };
    match clause.class_refusal() {
        Some(number) => Err(number),
        None => Ok(clause),
    }
}

fn is_sound(atom: &Atom, variables: u8) -> bool {
    atom.p <= variables
        && atom.q <= variables
        && (atom.p, atom.q) != (0, 0)
        && (-limits::C..=limits::C).contains(&atom.c)
}

fn admit_literal(record: &LiteralRecord, variables: u8, arities: &[u8]) -> Option<Literal> {
    let index = (record.predicate as usize).checked_sub(1)?;
    let arity = *arities.get(index)? as usize;
    let used = &record.arguments[..arity];
    if record.sign > 1 || !used.iter().all(|argument| (1..=variables).contains(argument)) {
        return None;
    }
    let mut arguments = [0; limits::ARITY];
    arguments[..arity].copy_from_slice(used);
    Some(Literal { positive: record.sign == 1, predicate: record.predicate, arguments })
}

impl StepRecord {
    /// The step offered to a state of that version: 7 for an unknown rule, else 3 for a count, then 4 for a sign of
    /// Decide.
    pub fn step(&self, version: u16) -> Result<Step, Refusal> {
        let step = match self.rule {
            1 => Step::Propagate {
                clause: self.clause,
                literal: self.literal,
                instance: self.instance()?,
            },
            2 => self.decide(version)?,
            3 => Step::Conflict { clause: self.clause, instance: self.instance()? },
            4 => Step::Resolve { literal: self.literal },
            5 => Step::Factorize { first: self.literal, second: self.second },
            6 => Step::Skip,
            7 => Step::Backtrack { literal: self.literal },
            8 => Step::Grow { count: self.count },
            _ => return Err(Refusal::at_zero(7)),
        };
        Ok(step)
    }

    fn instance(&self) -> Result<Vec<u8>, Refusal> {
        first_of(&self.instance, self.instance_count)
    }

    /// "4 for its sign above 1, 3 for the counts", of the literal and of any atom.
    fn decide(&self, version: u16) -> Result<Step, Refusal> {
        let (clause, literal, positive) = (self.clause, self.literal, self.sign == 1);
        let instance = self.instance()?;
        let records = match brings_atoms(version) {
            true => first_of(&self.atoms, self.atom_count)?,
            false => Vec::new(),
        };
        let atoms: Result<Vec<Source>, Refusal> =
            records.iter().map(SourceRecord::source).collect();
        let atoms = atoms?;
        let signs_fit = self.sign <= 1 && records.iter().all(|record| record.sign <= 1);
        demand(signs_fit, Refusal::at_zero(4))?;
        Ok(Step::Decide { clause, literal, positive, instance, atoms })
    }
}

impl SourceRecord {
    /// The atom named, its sign not yet judged.
    fn source(&self) -> Result<Source, Refusal> {
        let instance = first_of(&self.instance, self.instance_count)?;
        let (clause, number, stands) = (self.clause, self.number, self.sign == 1);
        Ok(Source { clause, number, stands, instance })
    }
}

/// As many of the slots as the count says, 3 if there are not so many.
fn first_of<T: Clone>(slots: &[T], count: u8) -> Result<Vec<T>, Refusal> {
    Ok(slots.get(..count as usize).ok_or(Refusal::at_zero(3))?.to_vec())
}

impl State {
    /// Takes a step offered without a file, as [`State::take`] does.
    pub fn offer(&mut self, record: &StepRecord) -> Result<Option<Numbers>, Refusal> {
        self.take(&record.step(self.version)?)
    }
}
