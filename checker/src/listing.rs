//! Running a file, the listing, and the final state for reviewers.

use crate::clause::{Atom, Clause, Closure, Literal};
use crate::constraint::Numbers;
use crate::file::{self, BadFile, RunFile};
use crate::refusal::Refusal;
use crate::state::{Entry, State};
use crate::step::{Source, Step};
use std::fmt::Write;

/// A step that was tried.
#[derive(Clone, Debug)]
pub struct Tried {
    pub rule_name: &'static str,
    /// The trail's length and k, or the refusal.
    pub answer: Result<(usize, usize), Refusal>,
    /// The numbers that an accepted step hands on, if it is of a rule that does.
    pub numbers: Option<Numbers>,
}

/// A file's run.
#[derive(Clone, Debug)]
pub struct Run {
    pub tried: Vec<Tried>,
    /// The state at the end.
    pub state: State,
}

/// The last line of a run.
#[derive(Clone, Copy, Debug, PartialEq, Eq)]
pub enum Verdict {
    Refuted,
    Stopped,
    Open,
}

/// Reads a file and tries its steps.
pub fn run(bytes: &[u8]) -> Result<Run, BadFile> {
    let RunFile { version, constants, arities, clauses, steps } = file::read(bytes)?;
    Ok(try_steps(State::first(version, constants.into(), arities, clauses), &steps))
}

/// Tries steps one after the other. "It stops at a refused step."
pub fn try_steps(mut state: State, steps: &[Step]) -> Run {
    let mut tried = Vec::new();
    for step in steps {
        let (answer, numbers) = match state.take(step) {
            Ok(numbers) => (Ok((state.trail.len(), state.level)), numbers),
            Err(refusal) => (Err(refusal), None),
        };
        tried.push(Tried { rule_name: step.rule_name(), answer, numbers });
        if answer.is_err() {
            break;
        }
    }
    Run { tried, state }
}

impl Verdict {
    /// "Last line: `refuted` if the conflict has no literals, else `stopped` if a step was refused,
    /// else `open`."
    pub fn of(state: &State, refused: bool) -> Verdict {
        if state.conflict.as_ref().is_some_and(Closure::is_refutation) {
            Verdict::Refuted
        } else if refused {
            Verdict::Stopped
        } else {
            Verdict::Open
        }
    }
}

impl Run {
    pub fn verdict(&self) -> Verdict {
        Verdict::of(&self.state, self.tried.last().is_some_and(|tried| tried.answer.is_err()))
    }

    /// "One line per step tried: step number, rule name in small letters, trail length, k; or number,
    /// name, `refused`, refusal."
    pub fn listing(&self) -> String {
        self.lines(false)
    }

    /// The listing, and after the line of each accepted step that hands numbers on a line `numbers` and these, one
    /// space before each.
    pub fn listing_with_numbers(&self) -> String {
        self.lines(true)
    }

    fn lines(&self, with_numbers: bool) -> String {
        let mut text = String::new();
        for (index, Tried { rule_name, answer, numbers }) in self.tried.iter().enumerate() {
            let number = index + 1;
            let written = match answer {
                Ok((length, level)) => writeln!(text, "{number} {rule_name} {length} {level}"),
                Err(refusal) => writeln!(text, "{number} {rule_name} refused {}", refusal.number),
            };
            written.expect("a string takes all that is written");
            if let Some(numbers) = numbers.as_ref().filter(|_| with_numbers) {
                text.push_str(&numbers_line(numbers));
            }
        }
        text.push_str(match self.verdict() {
            Verdict::Refuted => "refuted\n",
            Verdict::Stopped => "stopped\n",
            Verdict::Open => "open\n",
        });
        text
    }
}

/// With no constants the line is just `numbers`.
fn numbers_line(numbers: &[i32]) -> String {
    let numbers: String = numbers.iter().map(|number| format!(" {number}")).collect();
    format!("numbers{numbers}\n")
}

/// "A bad file prints only `bad file`, number, place."
pub fn bad_file(bad: BadFile) -> String {
    format!("bad file {} {}\n", bad.refusal.number, bad.refusal.place)
}

/// The listing of a file.
pub fn listing(bytes: &[u8]) -> String {
    run(bytes).map_or_else(bad_file, |run| run.listing())
}

/// The listing of a file and then its final state.
pub fn inspection(bytes: &[u8]) -> String {
    run(bytes).map_or_else(bad_file, |run| run.listing() + &final_state(&run.state))
}

/// The same with the numbers behind each yes.
pub fn inspection_with_numbers(bytes: &[u8]) -> String {
    let text = |run: Run| run.listing_with_numbers() + &final_state(&run.state);
    run(bytes).map_or_else(bad_file, text)
}

/// A state, one line for its constants and level, each trail entry, each clause and the conflict.
pub fn final_state(state: &State) -> String {
    let mut lines = vec![format!("constants {} level {}", state.constants, state.level)];
    for (index, entry) in state.trail.iter().enumerate() {
        lines.push(format!("trail {} {}", index + 1, entry_text(entry, &state.arities)));
    }
    for (index, clause) in state.input.iter().chain(&state.learned).enumerate() {
        lines.push(format!("clause {} {}", index + 1, clause_text(clause, &state.arities)));
    }
    lines.push(format!("conflict {}", conflict_text(state.conflict.as_ref(), &state.arities)));
    lines.join("\n") + "\n"
}

/// A clause with its instance, or `none`.
pub fn conflict_text(conflict: Option<&Closure>, arities: &[u8]) -> String {
    conflict.map_or("none".to_string(), |Closure { clause, instance }| {
        format!("{} at {}", clause_text(clause, arities), tuple(instance))
    })
}

fn entry_text(entry: &Entry, arities: &[u8]) -> String {
    match entry {
        Entry::Background(atom, None) => atom_text(atom),
        Entry::Background(atom, Some(Source { clause, number, stands, instance })) => {
            let sign = u8::from(*stands);
            format!("{} brought {clause} {number} {sign} {}", atom_text(atom), tuple(instance))
        }
        Entry::Foreground(literal, origin) => format!(
            "{} {} {} {} {}",
            literal_text(literal, arities),
            if origin.decision { "decide" } else { "propagate" },
            origin.clause,
            origin.literal,
            tuple(&origin.instance),
        ),
    }
}

fn atom_text(atom: &Atom) -> String {
    format!("{}-{}<={}", atom.p, atom.q, atom.c)
}

fn literal_text(literal: &Literal, arities: &[u8]) -> String {
    let sign = if literal.positive { "" } else { "~" };
    let arity = arities[literal.predicate as usize - 1] as usize;
    format!("{sign}P{}{}", literal.predicate, tuple(&literal.arguments[..arity]))
}

/// `V [ATOMS] LITERALS`; a clause without literals ends at its atoms.
fn clause_text(clause: &Clause, arities: &[u8]) -> String {
    let atoms: Vec<String> = clause.atoms.iter().map(atom_text).collect();
    let mut fields = vec![clause.variables.to_string(), format!("[{}]", atoms.join(" "))];
    fields.extend(clause.literals.iter().map(|literal| literal_text(literal, arities)));
    fields.join(" ")
}

fn tuple(numbers: &[u8]) -> String {
    let numbers: Vec<String> = numbers.iter().map(u8::to_string).collect();
    format!("({})", numbers.join(","))
}
