//! Proposed steps.

/// "File version 2: a Decide step ends with a count (at most 24) of atoms" (the request "Decisions that bring bounds").
pub fn brings_atoms(version: u16) -> bool {
    version >= 2
}

/// An atom as a decision names it: "each as clause, atom number, sign (1 as it stands, 0 denied), instance" (the request
/// "Decisions that bring bounds").
#[derive(Clone, Debug, PartialEq, Eq)]
pub struct Source {
    pub clause: u8,
    pub number: u8,
    /// As it stands, else denied.
    pub stands: bool,
    pub instance: Vec<u8>,
}

/// A proposed step: a rule with its arguments. The numbers are those proposed, not yet judged. The atoms of a decision
/// are those that it is to bring, in a version in which it may.
#[derive(Clone, Debug, PartialEq, Eq)]
pub enum Step {
    Propagate { clause: u8, literal: u8, instance: Vec<u8> },
    Decide { clause: u8, literal: u8, positive: bool, instance: Vec<u8>, atoms: Vec<Source> },
    Conflict { clause: u8, instance: Vec<u8> },
    Resolve { literal: u8 },
    Factorize { first: u8, second: u8 },
    Skip,
    Backtrack { literal: u8 },
    Grow { count: u8 },
}

/// The rules' names in small letters, by number from 1.
pub const RULE_NAMES: [&str; 8] =
    ["propagate", "decide", "conflict", "resolve", "factorize", "skip", "backtrack", "grow"];

impl Step {
    /// The number of the step's rule.
    pub fn rule(&self) -> u8 {
        match self {
            Step::Propagate { .. } => 1,
            Step::Decide { .. } => 2,
            Step::Conflict { .. } => 3,
            Step::Resolve { .. } => 4,
            Step::Factorize { .. } => 5,
            Step::Skip => 6,
            Step::Backtrack { .. } => 7,
            Step::Grow { .. } => 8,
        }
    }

    /// The name of the step's rule.
    pub fn rule_name(&self) -> &'static str {
        RULE_NAMES[self.rule() as usize - 1]
    }
}
