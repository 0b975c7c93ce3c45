//! Merging of variables: "a merged group takes its smallest number (renamed reason variables follow
//! the conflict's). An atom equal to an earlier one goes, also where no variables meet. Variables
//! that no longer occur go, and numbers close up in order."

use crate::clause::{constant_for, Atom, Clause, Closure, Literal};

/// Which variables have been merged.
pub struct Groups {
    /// For each variable the smallest number of its group; index 0 stands for place 0.
    smallest: Vec<u8>,
}

impl Groups {
    /// Each of the variables 1..v in a group of its own.
    pub fn apart(variables: usize) -> Groups {
        Groups { smallest: (0..=variables as u8).collect() }
    }

    /// The number that a variable's group takes. Place 0 stays.
    pub fn number_of(&self, variable: u8) -> u8 {
        self.smallest[variable as usize]
    }

    fn merge(&mut self, one: u8, other: u8) {
        let (one, other) = (self.number_of(one), self.number_of(other));
        let (smaller, larger) = (one.min(other), one.max(other));
        for number in &mut self.smallest {
            if *number == larger {
                *number = smaller;
            }
        }
    }

    /// The variables of two literals of one predicate are merged "argument by argument".
    pub fn merge_arguments(&mut self, one: &Literal, other: &Literal) {
        for (&a, &b) in one.arguments.iter().zip(&other.arguments) {
            self.merge(a, b);
        }
    }
}

/// The clause that merging leaves of these atoms and literals, with its instance. Variables of one
/// group have the same constant in `instance`.
pub fn merged(groups: &Groups, atoms: &[Atom], literals: &[Literal], instance: &[u8]) -> Closure {
    let literals: Vec<Literal> =
        literals.iter().map(|literal| literal.map(|variable| groups.number_of(variable))).collect();
    let mut kept: Vec<Atom> = Vec::new();
    for atom in atoms {
        let atom = atom.map(|place| groups.number_of(place));
        if !kept.contains(&atom) {
            kept.push(atom);
        }
    }
    close_up(kept, literals, instance)
}

/// "Variables that no longer occur go, and numbers close up in order."
fn close_up(atoms: Vec<Atom>, literals: Vec<Literal>, instance: &[u8]) -> Closure {
    let old = Clause { variables: instance.len() as u8, atoms, literals };
    // The new number of each variable that occurs, 0 for those that go; index 0 is place 0.
    let mut new_number = vec![0u8; instance.len() + 1];
    let mut new_instance = Vec::new();
    for variable in (1..=old.variables).filter(|&variable| old.occurs(variable)) {
        new_instance.push(constant_for(instance, variable));
        new_number[variable as usize] = new_instance.len() as u8;
    }
    let renumber = |variable: u8| new_number[variable as usize];
    let clause = Clause {
        variables: new_instance.len() as u8,
        atoms: old.atoms.iter().map(|atom| atom.map(renumber)).collect(),
        literals: old.literals.iter().map(|literal| literal.map(renumber)).collect(),
    };
    Closure { clause, instance: new_instance }
}
