//! Questions to a solver, in SMT-LIB 2: predicates are free, variables and constants whole numbers.

use crate::clause::{Atom, Clause, Literal};
use std::fmt::Write;

/// Asks if whole numbers exist for the constants that keep their order and make every atom true.
pub fn set_question(constants: usize, atoms: &[Atom]) -> String {
    let mut text = constants_in_order(constants);
    for atom in atoms {
        line(&mut text, format_args!("(assert {})", atom_term(atom, "b")));
    }
    text + "(check-sat)\n"
}

/// Asks of numbers for the constants if they keep the order and make every atom true.
pub fn numbers_hold(atoms: &[Atom], numbers: &[i32]) -> String {
    let mut text = constants_in_order(numbers.len());
    for atom in atoms {
        line(&mut text, format_args!("(assert {})", atom_term(atom, "b")));
    }
    for (index, &number) in numbers.iter().enumerate() {
        line(&mut text, format_args!("(assert (= b{} {}))", index + 1, numeral(number)));
    }
    text + "(check-sat)\n"
}

/// Asks if there is a choice for zero and the constants "in which nothing exceeds 0, the order holds and every atom
/// holds as a difference", and which is larger at some place than the one that these numbers are of. That one has a 0
/// somewhere, since else each of its numbers could be larger by 1; so it is zero's 0 and these numbers, less the largest
/// of them all.
pub fn numbers_exceeded(atoms: &[Atom], numbers: &[i32]) -> String {
    let mut text = constants_in_order(numbers.len());
    line(&mut text, format_args!("(declare-const zero Int)"));
    let most = numbers.iter().fold(0, |most, &number| most.max(number));
    let mut larger = Vec::new();
    for (index, number) in [&[0], numbers].concat().into_iter().enumerate() {
        let name = place(index as u8, "b", "zero");
        line(&mut text, format_args!("(assert (<= {name} 0))"));
        larger.push(format!("(> {name} {})", numeral(number - most)));
    }
    for atom in atoms {
        line(&mut text, format_args!("(assert {})", difference(atom, "b", "zero")));
    }
    line(&mut text, format_args!("(assert (or {}))", larger.join(" ")));
    text + "(check-sat)\n"
}

/// Declares the constants b1, b2, .. and says that they are in order.
fn constants_in_order(constants: usize) -> String {
    let mut text = "(set-logic QF_LIA)\n".to_string();
    for constant in 1..=constants {
        line(&mut text, format_args!("(declare-const b{constant} Int)"));
    }
    for second in 2..=constants {
        line(&mut text, format_args!("(assert (< b{} b{second}))", second - 1));
    }
    text
}

/// Declares the predicates and says that every clause holds for all whole numbers.
pub fn theory(arities: &[u8], clauses: &[Clause]) -> String {
    let mut text = String::new();
    for (index, &arity) in arities.iter().enumerate() {
        let sorts = vec!["Int"; arity.into()].join(" ");
        line(&mut text, format_args!("(declare-fun P{} ({sorts}) Bool)", index + 1));
    }
    for clause in clauses {
        line(&mut text, format_args!("(assert {})", clause_term(clause)));
    }
    text
}

/// Says that a clause does not hold for some whole numbers c1, c2, ..
pub fn denial(clause: &Clause) -> String {
    let mut text = String::new();
    for variable in 1..=clause.variables {
        line(&mut text, format_args!("(declare-const c{variable} Int)"));
    }
    line(&mut text, format_args!("(assert (not {}))", body(clause, "c")));
    text
}

/// Says that a predicate is not true of these numbers.
pub fn not_true(predicate: u8, arguments: &[i32]) -> String {
    let arguments: Vec<String> = arguments.iter().map(|&number| numeral(number)).collect();
    format!("(assert (not (P{predicate} {})))\n", arguments.join(" "))
}

fn line(text: &mut String, words: std::fmt::Arguments) {
    writeln!(text, "{words}").expect("a string takes all that is written");
}

/// "It says: for all whole numbers, if every atom holds then some literal does."
fn clause_term(clause: &Clause) -> String {
    if clause.variables == 0 {
        return body(clause, "x");
    }
    let variables: Vec<String> =
        (1..=clause.variables).map(|variable| format!("(x{variable} Int)")).collect();
    format!("(forall ({}) {})", variables.join(" "), body(clause, "x"))
}

fn body(clause: &Clause, name: &str) -> String {
    let atoms: Vec<String> = clause.atoms.iter().map(|atom| atom_term(atom, name)).collect();
    let literals: Vec<String> =
        clause.literals.iter().map(|literal| literal_term(literal, name)).collect();
    format!("(=> (and true {}) (or false {}))", atoms.join(" "), literals.join(" "))
}

/// A variable or constant, or what zero is called
fn place(number: u8, name: &str, zero: &str) -> String {
    match number {
        0 => zero.to_string(),
        _ => format!("{name}{number}"),
    }
}

fn numeral(number: i32) -> String {
    match number {
        0.. => number.to_string(),
        _ => format!("(- {})", number.unsigned_abs()),
    }
}

/// "An atom (p, q, c) means p − q ≤ c."
fn atom_term(atom: &Atom, name: &str) -> String {
    difference(atom, name, "0")
}

fn difference(atom: &Atom, name: &str, zero: &str) -> String {
    let (p, q) = (place(atom.p, name, zero), place(atom.q, name, zero));
    format!("(<= (- {p} {q}) {})", numeral(atom.c))
}

fn literal_term(literal: &Literal, name: &str) -> String {
    let arguments: Vec<String> = literal
        .arguments
        .iter()
        .filter(|&&variable| variable > 0)
        .map(|&variable| format!("{name}{variable}"))
        .collect();
    let positive = match arguments.len() {
        0 => format!("P{}", literal.predicate),
        _ => format!("(P{} {})", literal.predicate, arguments.join(" ")),
    };
    if literal.positive {
        positive
    } else {
        format!("(not {positive})")
    }
}
