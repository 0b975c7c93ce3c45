//! The run file: read field by field, and written.
//!
//! "Little-endian. The three letters DRF, version 1 (16 bits); constants; predicates and an arity
//! each; input clauses, then each: variables, atoms, literals, the atoms (p, q one byte each, c four
//! bytes), the literals (sign 0 negative or 1 positive, predicate, arguments). Then the number of
//! steps (16 bits, at most 2,000) and each step: rule number and its arguments in the order above, an
//! instance as a count (at most 12) and constants. Other numbers are one byte."
//!
//! "File version 2: a Decide step ends with a count (at most 24) of atoms, each as clause, atom number, sign (1 as it
//! stands, 0 denied), instance." (the request "Decisions that bring bounds")

use crate::clause::{Atom, Clause, Literal};
use crate::limits;
use crate::refusal::Refusal;
use crate::state::State;
use crate::step::{brings_atoms, Source, Step};

pub const MARK: [u8; 3] = *b"DRF";
pub const VERSIONS: [u16; 2] = [1, 2];

/// What a run file holds. In version 1 the atoms of decisions are no part of it.
#[derive(Clone, Debug, PartialEq, Eq)]
pub struct RunFile {
    pub version: u16,
    pub constants: u8,
    pub arities: Vec<u8>,
    pub clauses: Vec<Clause>,
    pub steps: Vec<Step>,
}

impl RunFile {
    /// The state that its first step meets.
    pub fn first_state(&self) -> State {
        let (arities, clauses) = (self.arities.clone(), self.clauses.clone());
        State::first(self.version, self.constants.into(), arities, clauses)
    }
}

/// The kinds of field, in the order in which they first come. `File` stands for the file as a whole, `Clause` for a
/// whole clause and `Surplus` for the bytes after the last step. Those from `BroughtCount` to `BroughtConstant` are of
/// the atoms that a decision brings.
#[derive(Clone, Copy, Debug, PartialEq, Eq, PartialOrd, Ord, Hash)]
pub enum Field {
    File,
    Mark,
    Version,
    Constants,
    Predicates,
    Arity,
    Clauses,
    Variables,
    Atoms,
    Literals,
    P,
    Q,
    C,
    Sign,
    Predicate,
    Argument,
    Clause,
    Steps,
    Rule,
    StepClause,
    StepLiteral,
    StepSign,
    InstanceCount,
    InstanceConstant,
    BroughtCount,
    BroughtClause,
    BroughtNumber,
    BroughtSign,
    BroughtInstanceCount,
    BroughtConstant,
    GrowCount,
    Surplus,
}

/// Why a file is bad: the refusal, and the kind of field it was given at.
#[derive(Clone, Copy, Debug, PartialEq, Eq)]
pub struct BadFile {
    pub refusal: Refusal,
    pub field: Field,
}

/// Reads a file. "A file is judged field by field, a clause's 5 then 6 at its end; the place is the
/// byte where the field, clause or surplus begins."
pub fn read(bytes: &[u8]) -> Result<RunFile, BadFile> {
    // "22, before all others, a file above 65,536 bytes, place 65,536"
    if bytes.len() > limits::FILE_BYTES {
        return Err(bad(22, limits::FILE_BYTES, Field::File));
    }
    read_fields(bytes)
}

/// The same of a file of any length.
pub fn read_fields(bytes: &[u8]) -> Result<RunFile, BadFile> {
    let mut reader = Reader { bytes, at: 0 };
    let version = reader.mark_and_version()?;
    let constants = reader.count(Field::Constants, limits::CONSTANTS)?;
    let predicates = reader.count(Field::Predicates, limits::PREDICATES)?;
    let mut arities = Vec::new();
    for _ in 0..predicates {
        arities.push(reader.count(Field::Arity, limits::ARITY)?);
    }
    let mut clauses = Vec::new();
    for _ in 0..reader.count(Field::Clauses, limits::INPUT_CLAUSES)? {
        clauses.push(reader.clause(&arities)?);
    }
    let mut steps = Vec::new();
    for _ in 0..reader.number_of_steps()? {
        steps.push(reader.step(version)?);
    }
    reader.end()?;
    Ok(RunFile { version, constants, arities, clauses, steps })
}

struct Reader<'a> {
    bytes: &'a [u8],
    at: usize,
}

fn bad(number: u8, place: usize, field: Field) -> BadFile {
    BadFile { refusal: Refusal::new(number, place), field }
}

impl Reader<'_> {
    /// The next field, as many bytes as it has. 1: "the file ends inside a field"; a field missing
    /// altogether counts as one the file ends inside of.
    fn field<const BYTES: usize>(&mut self, field: Field) -> Result<[u8; BYTES], BadFile> {
        let found = self.bytes[self.at..].first_chunk::<BYTES>();
        let found = *found.ok_or(bad(1, self.at, field))?;
        self.at += BYTES;
        Ok(found)
    }

    fn byte(&mut self, field: Field) -> Result<u8, BadFile> {
        Ok(self.field::<1>(field)?[0])
    }

    /// A byte that must lie in a range, else the refusal of that number at it.
    fn byte_within(
        &mut self,
        field: Field,
        range: std::ops::RangeInclusive<usize>,
        number: u8,
    ) -> Result<u8, BadFile> {
        let place = self.at;
        let byte = self.byte(field)?;
        if range.contains(&byte.into()) {
            Ok(byte)
        } else {
            Err(bad(number, place, field))
        }
    }

    /// 3: "a count or arity above its limit"
    fn count(&mut self, field: Field, limit: usize) -> Result<u8, BadFile> {
        self.byte_within(field, 0..=limit, 3)
    }

    /// 4: "a clause number, sign or constant c out of its range": here a number or sign.
    fn number(
        &mut self,
        field: Field,
        range: std::ops::RangeInclusive<usize>,
    ) -> Result<u8, BadFile> {
        self.byte_within(field, range, 4)
    }

    /// 2: "mark or version wrong". The version.
    fn mark_and_version(&mut self) -> Result<u16, BadFile> {
        if self.field(Field::Mark)? != MARK {
            return Err(bad(2, 0, Field::Mark));
        }
        let place = self.at;
        let version = u16::from_le_bytes(self.field(Field::Version)?);
        if !VERSIONS.contains(&version) {
            return Err(bad(2, place, Field::Version));
        }
        Ok(version)
    }

    fn clause(&mut self, arities: &[u8]) -> Result<Clause, BadFile> {
        let place = self.at;
        let variables = self.count(Field::Variables, limits::VARIABLES)?;
        let atom_count = self.count(Field::Atoms, limits::ATOMS)?;
        let literal_count = self.count(Field::Literals, limits::LITERALS)?;
        let mut atoms = Vec::new();
        for _ in 0..atom_count {
            atoms.push(self.atom(variables)?);
        }
        let mut literals = Vec::new();
        for _ in 0..literal_count {
            literals.push(self.literal(variables, arities)?);
        }
        let clause = Clause { variables, atoms, literals };
        match clause.class_refusal() {
            Some(number) => Err(bad(number, place, Field::Clause)),
            None => Ok(clause),
        }
    }

    fn atom(&mut self, variables: u8) -> Result<Atom, BadFile> {
        let p = self.number(Field::P, 0..=variables.into())?;
        // "for both places 0 the field is q"
        let least = if p == 0 { 1 } else { 0 };
        let q = self.number(Field::Q, least..=variables.into())?;
        let place = self.at;
        let c = i32::from_le_bytes(self.field(Field::C)?);
        if !(-limits::C..=limits::C).contains(&c) {
            return Err(bad(4, place, Field::C));
        }
        Ok(Atom { p, q, c })
    }

    fn literal(&mut self, variables: u8, arities: &[u8]) -> Result<Literal, BadFile> {
        let positive = self.number(Field::Sign, 0..=1)? == 1;
        let predicate = self.number(Field::Predicate, 1..=arities.len())?;
        let arity = arities[predicate as usize - 1] as usize;
        let mut arguments = [0; limits::ARITY];
        for argument in &mut arguments[..arity] {
            *argument = self.number(Field::Argument, 1..=variables.into())?;
        }
        Ok(Literal { positive, predicate, arguments })
    }

    fn number_of_steps(&mut self) -> Result<usize, BadFile> {
        let place = self.at;
        let steps = u16::from_le_bytes(self.field(Field::Steps)?) as usize;
        if steps > limits::STEPS {
            return Err(bad(3, place, Field::Steps));
        }
        Ok(steps)
    }

    fn step(&mut self, version: u16) -> Result<Step, BadFile> {
        let place = self.at;
        let step = match self.byte(Field::Rule)? {
            1 => Step::Propagate {
                clause: self.byte(Field::StepClause)?,
                literal: self.byte(Field::StepLiteral)?,
                instance: self.instance()?,
            },
            2 => Step::Decide {
                clause: self.byte(Field::StepClause)?,
                literal: self.byte(Field::StepLiteral)?,
                positive: self.number(Field::StepSign, 0..=1)? == 1,
                instance: self.instance()?,
                atoms: if brings_atoms(version) { self.sources()? } else { Vec::new() },
            },
            3 => {
                Step::Conflict { clause: self.byte(Field::StepClause)?, instance: self.instance()? }
            }
            4 => Step::Resolve { literal: self.byte(Field::StepLiteral)? },
            5 => Step::Factorize {
                first: self.byte(Field::StepLiteral)?,
                second: self.byte(Field::StepLiteral)?,
            },
            6 => Step::Skip,
            7 => Step::Backtrack { literal: self.byte(Field::StepLiteral)? },
            8 => Step::Grow { count: self.byte(Field::GrowCount)? },
            // 7: "unknown rule"
            _ => return Err(bad(7, place, Field::Rule)),
        };
        Ok(step)
    }

    fn instance(&mut self) -> Result<Vec<u8>, BadFile> {
        self.constants(Field::InstanceCount, Field::InstanceConstant)
    }

    /// An instance whose count and constants are fields of these kinds.
    fn constants(&mut self, count: Field, constant: Field) -> Result<Vec<u8>, BadFile> {
        let count = self.count(count, limits::INSTANCE)?;
        (0..count).map(|_| self.byte(constant)).collect()
    }

    /// The atoms that a decision is to bring.
    fn sources(&mut self) -> Result<Vec<Source>, BadFile> {
        let count = self.count(Field::BroughtCount, limits::BROUGHT)?;
        (0..count).map(|_| self.source()).collect()
    }

    fn source(&mut self) -> Result<Source, BadFile> {
        Ok(Source {
            clause: self.byte(Field::BroughtClause)?,
            number: self.byte(Field::BroughtNumber)?,
            stands: self.number(Field::BroughtSign, 0..=1)? == 1,
            instance: self.constants(Field::BroughtInstanceCount, Field::BroughtConstant)?,
        })
    }

    /// 8: "bytes after the last step"
    fn end(&self) -> Result<(), BadFile> {
        if self.at < self.bytes.len() {
            return Err(bad(8, self.at, Field::Surplus));
        }
        Ok(())
    }
}

/// A file being written, with the place of each field.
#[derive(Clone, Debug, Default)]
pub struct Written {
    pub bytes: Vec<u8>,
    /// Each field written and the byte where it begins.
    pub fields: Vec<(Field, usize)>,
}

/// Writes a file. What it holds is not judged.
pub fn write(file: &RunFile) -> Written {
    let mut written = Written::default();
    written.field(Field::Mark, &MARK);
    written.field(Field::Version, &file.version.to_le_bytes());
    written.byte(Field::Constants, file.constants);
    written.byte(Field::Predicates, file.arities.len() as u8);
    for &arity in &file.arities {
        written.byte(Field::Arity, arity);
    }
    written.byte(Field::Clauses, file.clauses.len() as u8);
    for clause in &file.clauses {
        written.clause(clause, &file.arities);
    }
    written.field(Field::Steps, &(file.steps.len() as u16).to_le_bytes());
    for step in &file.steps {
        written.step(step, file.version);
    }
    written
}

/// How many bytes a step has in a file of that version.
pub fn step_length(step: &Step, version: u16) -> usize {
    let mut written = Written::default();
    written.step(step, version);
    written.bytes.len()
}

/// Clauses as they stand in a file, without their number.
pub fn clause_bytes(clauses: &[Clause], arities: &[u8]) -> Vec<u8> {
    let mut written = Written::default();
    for clause in clauses {
        written.clause(clause, arities);
    }
    written.bytes
}

impl Written {
    fn field(&mut self, field: Field, bytes: &[u8]) {
        self.fields.push((field, self.bytes.len()));
        self.bytes.extend_from_slice(bytes);
    }

    fn byte(&mut self, field: Field, byte: u8) {
        self.field(field, &[byte]);
    }

    fn clause(&mut self, clause: &Clause, arities: &[u8]) {
        self.byte(Field::Variables, clause.variables);
        self.byte(Field::Atoms, clause.atoms.len() as u8);
        self.byte(Field::Literals, clause.literals.len() as u8);
        for atom in &clause.atoms {
            self.byte(Field::P, atom.p);
            self.byte(Field::Q, atom.q);
            self.field(Field::C, &atom.c.to_le_bytes());
        }
        for literal in &clause.literals {
            self.byte(Field::Sign, literal.positive.into());
            self.byte(Field::Predicate, literal.predicate);
            // A predicate that there is not has no arguments.
            let index = (literal.predicate as usize).wrapping_sub(1);
            let arity = arities.get(index).copied().unwrap_or(0);
            for &argument in &literal.arguments[..arity.into()] {
                self.byte(Field::Argument, argument);
            }
        }
    }

    fn step(&mut self, step: &Step, version: u16) {
        self.byte(Field::Rule, step.rule());
        match step {
            Step::Propagate { clause, literal, instance } => {
                self.byte(Field::StepClause, *clause);
                self.byte(Field::StepLiteral, *literal);
                self.instance(instance);
            }
            Step::Decide { clause, literal, positive, instance, atoms } => {
                self.byte(Field::StepClause, *clause);
                self.byte(Field::StepLiteral, *literal);
                self.byte(Field::StepSign, (*positive).into());
                self.instance(instance);
                if brings_atoms(version) {
                    self.sources(atoms);
                }
            }
            Step::Conflict { clause, instance } => {
                self.byte(Field::StepClause, *clause);
                self.instance(instance);
            }
            Step::Resolve { literal } | Step::Backtrack { literal } => {
                self.byte(Field::StepLiteral, *literal);
            }
            Step::Factorize { first, second } => {
                self.byte(Field::StepLiteral, *first);
                self.byte(Field::StepLiteral, *second);
            }
            Step::Skip => {}
            Step::Grow { count } => self.byte(Field::GrowCount, *count),
        }
    }

    fn instance(&mut self, instance: &[u8]) {
        self.constants(Field::InstanceCount, Field::InstanceConstant, instance);
    }

    fn constants(&mut self, count: Field, constant: Field, instance: &[u8]) {
        self.byte(count, instance.len() as u8);
        for &number in instance {
            self.byte(constant, number);
        }
    }

    fn sources(&mut self, atoms: &[Source]) {
        self.byte(Field::BroughtCount, atoms.len() as u8);
        for Source { clause, number, stands, instance } in atoms {
            self.byte(Field::BroughtClause, *clause);
            self.byte(Field::BroughtNumber, *number);
            self.byte(Field::BroughtSign, (*stands).into());
            self.constants(Field::BroughtInstanceCount, Field::BroughtConstant, instance);
        }
    }
}
