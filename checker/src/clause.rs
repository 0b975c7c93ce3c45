//! Atoms, literals, clauses and their instances; the clause class.

use crate::limits;

/// "An atom (p, q, c) means p − q ≤ c." In a clause a place is a variable or 0, the number zero;
/// in a ground atom it is a constant or 0.
#[derive(Clone, Copy, Debug, PartialEq, Eq, Hash)]
pub struct Atom {
    pub p: u8,
    pub q: u8,
    pub c: i32,
}

/// "A literal is a sign, a predicate and as many variables as its arity." The slots past the arity
/// hold 0. A ground literal has constants instead of variables.
#[derive(Clone, Copy, Debug, PartialEq, Eq, Hash)]
pub struct Literal {
    pub positive: bool,
    pub predicate: u8,
    pub arguments: [u8; limits::ARITY],
}

/// "A clause has variables 1..v, a list of background atoms (its constraint) and a list of
/// foreground literals."
#[derive(Clone, Debug, PartialEq, Eq)]
pub struct Clause {
    pub variables: u8,
    pub atoms: Vec<Atom>,
    pub literals: Vec<Literal>,
}

/// A clause with an instance: a constant for each of its variables.
#[derive(Clone, Debug, PartialEq, Eq)]
pub struct Closure {
    pub clause: Clause,
    pub instance: Vec<u8>,
}

/// The constant an instance puts for a variable. Place 0 and the slots past an arity stay 0.
pub fn constant_for(instance: &[u8], variable: u8) -> u8 {
    if variable == 0 {
        0
    } else {
        instance[variable as usize - 1]
    }
}

impl Atom {
    /// The atom with each place replaced.
    pub fn map(self, replace: impl Fn(u8) -> u8) -> Atom {
        Atom { p: replace(self.p), q: replace(self.q), c: self.c }
    }

    /// The atom with "variables replaced by constants".
    pub fn at(self, instance: &[u8]) -> Atom {
        self.map(|variable| constant_for(instance, variable))
    }

    /// "The denial of p − q ≤ c is q − p ≤ −c − 1" (the request "Decisions that bring bounds").
    pub fn denial(self) -> Atom {
        Atom { p: self.q, q: self.p, c: -self.c - 1 }
    }

    /// A bound (x, 0, c), for a variable x.
    pub fn bounds_above(&self, variable: u8) -> bool {
        self.p == variable && self.q == 0
    }

    /// A bound (0, x, c), for a variable x.
    pub fn bounds_below(&self, variable: u8) -> bool {
        self.p == 0 && self.q == variable
    }

    /// "an atom with two variables (equal or not)"
    pub fn is_difference(&self) -> bool {
        self.p != 0 && self.q != 0
    }
}

impl Literal {
    /// The literal with each argument replaced.
    pub fn map(self, replace: impl Fn(u8) -> u8) -> Literal {
        Literal { arguments: self.arguments.map(replace), ..self }
    }

    /// The literal with "variables replaced by constants".
    pub fn at(self, instance: &[u8]) -> Literal {
        self.map(|variable| constant_for(instance, variable))
    }

    pub fn complement(self) -> Literal {
        Literal { positive: !self.positive, ..self }
    }
}

impl Clause {
    pub fn occurs(&self, variable: u8) -> bool {
        self.atoms.iter().any(|atom| atom.p == variable || atom.q == variable)
            || self.literals.iter().any(|literal| literal.arguments.contains(&variable))
    }

    /// "Each variable occurs in an atom or literal."
    pub fn every_variable_occurs(&self) -> bool {
        (1..=self.variables).all(|variable| self.occurs(variable))
    }

    fn is_bounded(&self, variable: u8) -> bool {
        self.atoms.iter().any(|atom| atom.bounds_above(variable))
            && self.atoms.iter().any(|atom| atom.bounds_below(variable))
    }

    /// "A variable in an atom with two variables (equal or not) also has, in that clause, an atom
    /// bounding it above (x, 0, c) and one bounding it below (0, x, c)."
    pub fn every_difference_is_bounded(&self) -> bool {
        self.atoms
            .iter()
            .filter(|atom| atom.is_difference())
            .all(|atom| self.is_bounded(atom.p) && self.is_bounded(atom.q))
    }

    /// "a clause's 5 then 6 at its end": the refusal number, or none.
    pub fn class_refusal(&self) -> Option<u8> {
        if !self.every_variable_occurs() {
            Some(5)
        } else if !self.every_difference_is_bounded() {
            Some(6)
        } else {
            None
        }
    }

    /// "A clause is a record of at most 12 variables, 24 atoms and 8 literals."
    pub fn within_limits(&self) -> bool {
        self.variables as usize <= limits::VARIABLES
            && self.atoms.len() <= limits::ATOMS
            && self.literals.len() <= limits::LITERALS
    }

    /// The clause's atoms under an instance, in clause order.
    pub fn ground_atoms(&self, instance: &[u8]) -> Vec<Atom> {
        self.atoms.iter().map(|atom| atom.at(instance)).collect()
    }

    /// The clause's literals under an instance, in clause order.
    pub fn ground_literals(&self, instance: &[u8]) -> Vec<Literal> {
        self.literals.iter().map(|literal| literal.at(instance)).collect()
    }
}

impl Closure {
    pub fn ground_literals(&self) -> Vec<Literal> {
        self.clause.ground_literals(&self.instance)
    }

    pub fn ground_atoms(&self) -> Vec<Atom> {
        self.clause.ground_atoms(&self.instance)
    }

    /// "A conflict without literals is a refutation."
    pub fn is_refutation(&self) -> bool {
        self.clause.literals.is_empty()
    }
}
