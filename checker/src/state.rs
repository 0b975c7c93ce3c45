//! The state of a run, and what can be asked of its trail.

use crate::clause::{Atom, Clause, Closure, Literal};
use crate::merge::{merged, Groups};
use crate::step::Source;

/// "A foreground entry keeps its step: Propagate's clause, literal and instance (after Backtrack,
/// those of the learned clause), or Decide's with the sign." The sign is the entry's own. The atoms that a decision
/// brought keep their sources themselves; of them it keeps how many they were.
#[derive(Clone, Debug, PartialEq, Eq)]
pub struct Origin {
    pub decision: bool,
    pub clause: u8,
    pub literal: u8,
    pub instance: Vec<u8>,
    /// How many atoms a decision brought, 0 of a propagated literal.
    pub brought: usize,
}

/// An entry of the trail: a ground literal with its step, or a ground atom, with its source if a decision brought it.
#[derive(Clone, Debug, PartialEq, Eq)]
pub enum Entry {
    Foreground(Literal, Origin),
    Background(Atom, Option<Source>),
}

/// "A state is predicates with arities, trail, input clauses, learned clauses, constants, level k,
/// and a conflict (clause with instance) or none."
///
/// Only admission makes a state and only steps change it; the fields are open to be looked at.
#[derive(Clone, Debug, PartialEq, Eq)]
pub struct State {
    /// That of the file: "Version 1 decisions bring none" (the request "Decisions that bring bounds").
    pub version: u16,
    /// The arity of each predicate.
    pub arities: Vec<u8>,
    pub trail: Vec<Entry>,
    pub input: Vec<Clause>,
    pub learned: Vec<Clause>,
    /// How many constants there are.
    pub constants: usize,
    /// The level k.
    pub level: usize,
    pub conflict: Option<Closure>,
}

impl Entry {
    pub fn is_decision(&self) -> bool {
        matches!(self, Entry::Foreground(_, origin) if origin.decision)
    }

    /// The entry's literal, none for an atom.
    pub fn literal(&self) -> Option<&Literal> {
        match self {
            Entry::Foreground(literal, _) => Some(literal),
            Entry::Background(..) => None,
        }
    }

    /// The entry's atom, none for a literal.
    pub fn atom(&self) -> Option<&Atom> {
        match self {
            Entry::Foreground(..) => None,
            Entry::Background(atom, _) => Some(atom),
        }
    }

    /// The source of an atom that a decision brought.
    pub fn source(&self) -> Option<&Source> {
        match self {
            Entry::Foreground(..) => None,
            Entry::Background(_, source) => source.as_ref(),
        }
    }
}

impl State {
    /// The first state over judged input: empty trail, no learned clauses, level 0, no conflict.
    pub fn first(version: u16, constants: usize, arities: Vec<u8>, input: Vec<Clause>) -> State {
        State {
            version,
            arities,
            trail: Vec::new(),
            input,
            learned: Vec::new(),
            constants,
            level: 0,
            conflict: None,
        }
    }

    /// The clause of that number: "Numbers start at 1; learned clauses are numbered after the input
    /// ones."
    pub fn clause(&self, number: u8) -> Option<&Clause> {
        let index = (number as usize).checked_sub(1)?;
        match index.checked_sub(self.input.len()) {
            None => self.input.get(index),
            Some(index) => self.learned.get(index),
        }
    }

    /// The number of clauses, input and learned.
    pub fn clauses(&self) -> usize {
        self.input.len() + self.learned.len()
    }

    fn on_trail(&self, literal: &Literal) -> bool {
        self.trail.iter().any(|entry| entry.literal() == Some(literal))
    }

    /// "A literal is undefined if neither it nor its complement is on the trail".
    pub fn is_undefined(&self, literal: &Literal) -> bool {
        !self.on_trail(literal) && !self.on_trail(&literal.complement())
    }

    /// A literal is "false if its complement is" on the trail.
    pub fn is_false(&self, literal: &Literal) -> bool {
        self.on_trail(&literal.complement())
    }

    /// Whether an atom is among the first `kept` entries, whichever step brought it.
    pub fn has_atom(&self, kept: usize, atom: &Atom) -> bool {
        self.trail[..kept].iter().any(|entry| entry.atom() == Some(atom))
    }

    /// "The level of a trail literal, shared by its complement, is the number of decisions up to and
    /// including it." None for an undefined literal.
    pub fn level_of(&self, literal: &Literal) -> Option<usize> {
        let complement = literal.complement();
        let mut decisions = 0;
        for entry in &self.trail {
            decisions += entry.is_decision() as usize;
            if let Some(found) = entry.literal() {
                if found == literal || *found == complement {
                    return Some(decisions);
                }
            }
        }
        None
    }

    /// How many entries stand before the decision of that number, all of them if there is none.
    pub fn length_before_decision(&self, number: usize) -> usize {
        let mut decisions = 0;
        for (index, entry) in self.trail.iter().enumerate() {
            decisions += entry.is_decision() as usize;
            if decisions == number {
                return index;
            }
        }
        self.trail.len()
    }

    /// The reason of a propagated literal, with the number L has in it: "the clause after merging L
    /// with all literals of the same instance; L keeps its place, the others go."
    pub fn reason(&self, origin: &Origin) -> (Closure, u8) {
        let clause = self.clause(origin.clause).expect("an entry's clause is held");
        let own = clause.literals[origin.literal as usize - 1];
        let own_instance = own.at(&origin.instance);
        let mut groups = Groups::apart(clause.variables.into());
        let mut literals = Vec::new();
        let mut own_number = 0;
        for (index, literal) in clause.literals.iter().enumerate() {
            if index == origin.literal as usize - 1 {
                literals.push(*literal);
                own_number = literals.len() as u8;
            } else if literal.at(&origin.instance) == own_instance {
                groups.merge_arguments(&own, literal);
            } else {
                literals.push(*literal);
            }
        }
        (merged(&groups, &clause.atoms, &literals, &origin.instance), own_number)
    }
}
