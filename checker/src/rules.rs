//! The eight rules. "A step's reasons are tried in rising order": each rule asks for them one after
//! the other and leaves at the first that refuses. A refused step leaves the state as it was.

use crate::clause::{Atom, Clause, Closure, Literal};
use crate::constraint::{self, Numbers};
use crate::limits;
use crate::merge::{merged, Groups};
use crate::refusal::{demand, Refusal};
use crate::state::{Entry, Origin, State};
use crate::step::{brings_atoms, Source, Step};

/// Of each rule the numbers by which it can be answered.
pub type Answers = [(u8, &'static [u8]); 8];

/// The answers each rule can give, 0 for accepted. 17 can't happen.
pub const ANSWERS: Answers = [
    (1, &[0, 9, 10, 11, 12, 13, 18]),
    (2, &[0, 9, 10, 11, 13, 18]),
    (3, &[0, 9, 10, 12, 13]),
    (4, &[0, 9, 10, 14, 15, 18]),
    (5, &[0, 9, 10, 15]),
    (6, &[0, 9, 14, 15]),
    (7, &[0, 9, 10, 15, 16, 18]),
    (8, &[0, 9, 10, 18]),
];

/// The same in one version: "13 now also for Decide" needs atoms that it brings.
pub fn answers(version: u16) -> Answers {
    let mut answers = ANSWERS;
    if !brings_atoms(version) {
        answers[1].1 = &[0, 9, 10, 11, 18];
    }
    answers
}

/// The answer to an accepted step.
#[derive(Clone, Debug, PartialEq, Eq)]
pub struct Accepted {
    pub change: Change,
    /// "Accepted Propagate, Conflict and Backtrack hand these on" (the request "Show the numbers behind a yes"), and so
    /// does Decide (the request "Decisions that bring bounds"): the numbers of the constraint test, for the constants.
    /// The other rules have none.
    pub numbers: Option<Numbers>,
}

/// What an accepted step changes in the state.
#[derive(Clone, Debug, PartialEq, Eq)]
pub enum Change {
    /// Propagate: the entries are appended.
    Propagated(Vec<Entry>),
    /// Decide: the entries are appended, k grows by one.
    Decided(Vec<Entry>),
    /// Conflict, Resolve, Factorize: the conflict now standing.
    Conflict(Closure),
    /// Skip: the last entry goes.
    Skipped,
    /// Backtrack: the trail is cut to a length, the entries are appended, k is the level.
    Learned { kept: usize, entries: Vec<Entry>, level: usize },
    /// Grow: so many constants are added.
    Grown(usize),
}

impl Accepted {
    fn with_numbers(numbers: Numbers, change: Change) -> Accepted {
        Accepted { change, numbers: Some(numbers) }
    }

    fn without_numbers(change: Change) -> Accepted {
        Accepted { change, numbers: None }
    }
}

impl State {
    /// Takes a proposed step: the state becomes the next one, or stays as it is if the step is
    /// refused. The numbers that an accepted step hands on, if it is of a rule that does.
    pub fn take(&mut self, step: &Step) -> Result<Option<Numbers>, Refusal> {
        let Accepted { change, numbers } = self.judge(step)?;
        self.apply(change);
        Ok(numbers)
    }

    /// What a proposed step would change and hand on, or the refusal.
    pub fn judge(&self, step: &Step) -> Result<Accepted, Refusal> {
        match step {
            Step::Propagate { clause, literal, instance } => {
                self.propagate(*clause, *literal, instance)
            }
            Step::Decide { clause, literal, positive, instance, atoms } => {
                // "Version 1 decisions bring none."
                let named = if brings_atoms(self.version) { &atoms[..] } else { &[] };
                self.decide(*clause, *literal, *positive, instance, named)
            }
            Step::Conflict { clause, instance } => self.conflict(*clause, instance),
            Step::Resolve { literal } => self.resolve(*literal),
            Step::Factorize { first, second } => self.factorize(*first, *second),
            Step::Skip => self.skip(),
            Step::Backtrack { literal } => self.backtrack(*literal),
            Step::Grow { count } => self.grow(*count),
        }
    }

    /// Makes a change that [`State::judge`] found for this state.
    pub fn apply(&mut self, change: Change) {
        match change {
            Change::Propagated(entries) => self.trail.extend(entries),
            Change::Decided(entries) => {
                self.trail.extend(entries);
                self.level += 1;
            }
            Change::Conflict(conflict) => self.conflict = Some(conflict),
            Change::Skipped => {
                let last = self.trail.pop();
                // "A decision skipped lowers k by one."
                self.level -= last.is_some_and(|entry| entry.is_decision()) as usize;
            }
            Change::Learned { kept, entries, level } => {
                self.trail.truncate(kept);
                self.trail.extend(entries);
                self.learned.extend(self.conflict.take().map(|conflict| conflict.clause));
                self.level = level;
            }
            Change::Grown(count) => {
                self.constants += count;
                self.trail.clear();
                self.level = 0;
            }
        }
    }

    /// "**1 Propagate** (clause, literal L, instance)."
    fn propagate(&self, clause: u8, literal: u8, instance: &[u8]) -> Result<Accepted, Refusal> {
        self.demand_no_conflict()?;
        let held = self.demand_clause(clause, instance)?;
        let own = demand_literal(held, literal)?.at(instance);
        // "L's instance is undefined"
        demand(self.is_undefined(&own), Refusal::at_zero(11))?;
        // "every literal with another instance is false"
        self.demand_false(held, instance, Some(&own))?;
        // "trail atoms and the clause's atoms together are possible"
        let atoms = held.ground_atoms(instance);
        let numbers = self.numbers_with(self.trail.len(), &atoms).ok_or(Refusal::at_zero(13))?;
        let instance = instance.to_vec();
        let origin = Origin { decision: false, clause, literal, instance, brought: 0 };
        let entries = self.propagated(self.trail.len(), own, origin, &atoms);
        demand(self.trail.len() + entries.len() <= limits::TRAIL, Refusal::at_zero(18))?;
        Ok(Accepted::with_numbers(numbers, Change::Propagated(entries)))
    }

    /// "**2 Decide** (clause, literal, sign, instance)", and the atoms named for it to bring.
    fn decide(
        &self,
        clause: u8,
        literal: u8,
        positive: bool,
        instance: &[u8],
        named: &[Source],
    ) -> Result<Accepted, Refusal> {
        self.demand_no_conflict()?;
        let held = self.demand_clause(clause, instance)?;
        let own = demand_literal(held, literal)?.at(instance);
        let atoms = self.demand_atoms(named)?;
        // "The atom of the literal, with the sign given, is undefined."
        let decided = Literal { positive, ..own };
        demand(self.is_undefined(&decided), Refusal::at_zero(11))?;
        self.demand_undefined(&atoms)?;
        // "13 now also for Decide"
        let trail = self.trail.len();
        let numbers = self.numbers_with(trail, &atoms).ok_or(Refusal::at_zero(13))?;
        demand(trail + 1 + atoms.len() <= limits::TRAIL, Refusal::at_zero(18))?;
        let (instance, brought) = (instance.to_vec(), atoms.len());
        let origin = Origin { decision: true, clause, literal, instance, brought };
        // "Atoms follow the literal in the order named."
        let sources = named.iter().cloned().map(Some);
        let mut entries = vec![Entry::Foreground(decided, origin)];
        entries.extend(atoms.into_iter().zip(sources).map(|(a, from)| Entry::Background(a, from)));
        Ok(Accepted::with_numbers(numbers, Change::Decided(entries)))
    }

    /// "**3 Conflict** (clause, instance)."
    fn conflict(&self, clause: u8, instance: &[u8]) -> Result<Accepted, Refusal> {
        self.demand_no_conflict()?;
        let held = self.demand_clause(clause, instance)?;
        // "All literals false"
        self.demand_false(held, instance, None)?;
        // "trail and clause atoms together possible"
        let atoms = held.ground_atoms(instance);
        let numbers = self.numbers_with(self.trail.len(), &atoms).ok_or(Refusal::at_zero(13))?;
        // "The clause becomes the conflict.", "the Conflict rule itself merges nothing"
        let conflict = Closure { clause: held.clone(), instance: instance.to_vec() };
        Ok(Accepted::with_numbers(numbers, Change::Conflict(conflict)))
    }

    /// "**4 Resolve** (literal L')."
    fn resolve(&self, literal: u8) -> Result<Accepted, Refusal> {
        let resolvent = self.resolvent(literal)?;
        // "clause limits counted after merging"
        demand(resolvent.clause.within_limits(), Refusal::at_zero(18))?;
        Ok(Accepted::without_numbers(Change::Conflict(resolvent)))
    }

    /// The conflict that Resolve would give, its limits not yet counted.
    pub fn resolvent(&self, literal: u8) -> Result<Closure, Refusal> {
        let conflict = self.demand_conflict()?;
        let own = demand_literal(&conflict.clause, literal)?;
        // "The last entry is a propagated literal, the complement of L'."
        let (last, origin) = match self.trail.last() {
            Some(Entry::Foreground(last, origin)) if !origin.decision => (last, origin),
            _ => return Err(Refusal::at_zero(14)),
        };
        let complement = own.at(&conflict.instance).complement();
        demand(*last == complement, Refusal::at_zero(15))?;
        let (reason, reason_own) = self.reason(origin);
        Ok(resolvent(conflict, literal, &reason, reason_own))
    }

    /// "**5 Factorize** (two different literals with the same instance)."
    fn factorize(&self, first: u8, second: u8) -> Result<Accepted, Refusal> {
        let conflict = self.demand_conflict()?;
        let one = demand_literal(&conflict.clause, first)?;
        let other = demand_literal(&conflict.clause, second)?;
        demand(first != second, Refusal::at_zero(10))?;
        let same = one.at(&conflict.instance) == other.at(&conflict.instance);
        demand(same, Refusal::at_zero(15))?;
        Ok(Accepted::without_numbers(Change::Conflict(factor(conflict, first, second))))
    }

    /// "**6 Skip**."
    fn skip(&self) -> Result<Accepted, Refusal> {
        let conflict = self.demand_conflict()?;
        let last = self.trail.last().ok_or(Refusal::at_zero(14))?;
        // "The last entry goes, if it is an atom or if its complement is not in the conflict."
        if let Some(literal) = last.literal() {
            let in_conflict = conflict.ground_literals().contains(&literal.complement());
            demand(!in_conflict, Refusal::at_zero(15))?;
        }
        Ok(Accepted::without_numbers(Change::Skipped))
    }

    /// "**7 Backtrack** (literal L, the others D)."
    fn backtrack(&self, literal: u8) -> Result<Accepted, Refusal> {
        let conflict = self.demand_conflict()?;
        let own = demand_literal(&conflict.clause, literal)?.at(&conflict.instance);
        let others = without(&conflict.ground_literals(), literal);
        // "L's instance is not in D"
        demand(!others.contains(&own), Refusal::at_zero(15))?;
        // "i is the largest level in D, 0 if D is empty; L's level is above i"
        let level_of = |literal| self.level_of(literal).expect("a conflict's literals are false");
        let level = others.iter().map(level_of).max().unwrap_or(0);
        demand(level_of(&own) > level, Refusal::at_zero(16))?;
        // "The trail is cut just before decision i + 1."
        let kept = self.length_before_decision(level + 1);
        // "Kept atoms and conflict atoms together are possible."
        let atoms = conflict.ground_atoms();
        let numbers = self.numbers_with(kept, &atoms).ok_or(Refusal::at_zero(17))?;
        // "The conflict is learned; L and its new atoms are appended as Propagate would append them
        // from the learned clause; k is i, no conflict."
        let clause = (self.clauses() + 1) as u8;
        let instance = conflict.instance.clone();
        let origin = Origin { decision: false, clause, literal, instance, brought: 0 };
        let entries = self.propagated(kept, own, origin, &atoms);
        let room =
            kept + entries.len() <= limits::TRAIL && self.learned.len() < limits::LEARNED_CLAUSES;
        demand(room, Refusal::at_zero(18))?;
        Ok(Accepted::with_numbers(numbers, Change::Learned { kept, entries, level }))
    }

    /// "**8 Grow** (count)."
    fn grow(&self, count: u8) -> Result<Accepted, Refusal> {
        self.demand_no_conflict()?;
        demand(count > 0, Refusal::at_zero(10))?;
        let room = self.constants + count as usize <= limits::CONSTANTS;
        demand(room, Refusal::at_zero(18))?;
        Ok(Accepted::without_numbers(Change::Grown(count.into())))
    }

    /// 9: "conflict standing for 1, 2, 3, 8"
    fn demand_no_conflict(&self) -> Result<(), Refusal> {
        demand(self.conflict.is_none(), Refusal::at_zero(9))
    }

    /// 9: "none for 4 to 7"
    fn demand_conflict(&self) -> Result<&Closure, Refusal> {
        self.conflict.as_ref().ok_or(Refusal::at_zero(9))
    }

    /// 10: "no such clause [..] or constant; wrong instance count"
    fn demand_clause(&self, number: u8, instance: &[u8]) -> Result<&Clause, Refusal> {
        let clause = self.clause(number).ok_or(Refusal::at_zero(10))?;
        let right_count = instance.len() == clause.variables as usize;
        let is_constant = |&constant: &u8| (1..=self.constants).contains(&(constant as usize));
        demand(right_count && instance.iter().all(is_constant), Refusal::at_zero(10))?;
        Ok(clause)
    }

    /// The ground atom of a source: "1 as it stands, 0 denied". 10 for its clause, instance or number: "10 also for a
    /// bad atom number".
    pub fn demand_atom(&self, source: &Source) -> Result<Atom, Refusal> {
        let held = self.demand_clause(source.clause, &source.instance)?;
        let index = (source.number as usize).checked_sub(1).ok_or(Refusal::at_zero(10))?;
        let atom = held.atoms.get(index).ok_or(Refusal::at_zero(10))?.at(&source.instance);
        Ok(if source.stands { atom } else { atom.denial() })
    }

    fn demand_atoms(&self, named: &[Source]) -> Result<Vec<Atom>, Refusal> {
        named.iter().map(|source| self.demand_atom(source)).collect()
    }

    /// "11 also when an atom so brought, or its denial, is on the trail or brought before it"
    fn demand_undefined(&self, atoms: &[Atom]) -> Result<(), Refusal> {
        for (index, atom) in atoms.iter().enumerate() {
            let stands = |atom: &Atom| {
                self.has_atom(self.trail.len(), atom) || atoms[..index].contains(atom)
            };
            demand(!stands(atom) && !stands(&atom.denial()), Refusal::at_zero(11))?;
        }
        Ok(())
    }

    /// 12: "names the first literal from the left whose instance is not false, of those that must
    /// be". Literals with the instance `own` need not be.
    fn demand_false(
        &self,
        clause: &Clause,
        instance: &[u8],
        own: Option<&Literal>,
    ) -> Result<(), Refusal> {
        for (index, literal) in clause.literals.iter().enumerate() {
            let literal = literal.at(instance);
            let must_be_false = own != Some(&literal);
            demand(!must_be_false || self.is_false(&literal), Refusal::new(12, index + 1))?;
        }
        Ok(())
    }

    /// The constraint test of the atoms among the first `kept` trail entries together with `atoms`.
    fn numbers_with(&self, kept: usize, atoms: &[Atom]) -> Option<Numbers> {
        let trail_atoms = self.trail[..kept].iter().filter_map(Entry::atom);
        let all: Vec<Atom> = trail_atoms.chain(atoms).copied().collect();
        constraint::test(self.constants, &all).expect("a state's atoms meet the test's demands")
    }

    /// "Appended: L, then the atoms not yet on the trail, in clause order, each once." The trail
    /// asked is its first `kept` entries.
    fn propagated(&self, kept: usize, own: Literal, origin: Origin, atoms: &[Atom]) -> Vec<Entry> {
        let mut entries = vec![Entry::Foreground(own, origin)];
        for atom in atoms {
            let entry = Entry::Background(*atom, None);
            if !self.has_atom(kept, atom) && !entries.contains(&entry) {
                entries.push(entry);
            }
        }
        entries
    }
}

/// 10: "no such [..] literal"
fn demand_literal(clause: &Clause, number: u8) -> Result<&Literal, Refusal> {
    let index = (number as usize).checked_sub(1).ok_or(Refusal::at_zero(10))?;
    clause.literals.get(index).ok_or(Refusal::at_zero(10))
}

/// The literals without the one of that number.
fn without(literals: &[Literal], number: u8) -> Vec<Literal> {
    let mut rest = literals.to_vec();
    rest.remove(number as usize - 1);
    rest
}

/// "The reason's variables are renamed apart, then merged argument by argument. New conflict: the
/// old literals without L', then the reason's without its own; old atoms, then the reason's."
pub fn resolvent(conflict: &Closure, literal: u8, reason: &Closure, reason_own: u8) -> Closure {
    let old = &conflict.clause;
    // "renamed reason variables follow the conflict's"
    let rename = |variable: u8| if variable == 0 { 0 } else { old.variables + variable };
    let reason_atoms = reason.clause.atoms.iter().map(|atom| atom.map(rename));
    let reason_literals: Vec<Literal> =
        reason.clause.literals.iter().map(|literal| literal.map(rename)).collect();

    let mut groups = Groups::apart(conflict.instance.len() + reason.instance.len());
    groups.merge_arguments(
        &old.literals[literal as usize - 1],
        &reason_literals[reason_own as usize - 1],
    );
    let atoms: Vec<Atom> = old.atoms.iter().copied().chain(reason_atoms).collect();
    let mut literals = without(&old.literals, literal);
    literals.extend(without(&reason_literals, reason_own));
    let instance = [&conflict.instance[..], &reason.instance[..]].concat();
    merged(&groups, &atoms, &literals, &instance)
}

/// "Their variables are merged; the one with the larger number goes."
pub fn factor(conflict: &Closure, first: u8, second: u8) -> Closure {
    let old = &conflict.clause;
    let mut groups = Groups::apart(old.variables.into());
    groups.merge_arguments(&old.literals[first as usize - 1], &old.literals[second as usize - 1]);
    let literals = without(&old.literals, first.max(second));
    merged(&groups, &old.atoms, &literals, &conflict.instance)
}
