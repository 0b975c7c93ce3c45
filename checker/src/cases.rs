//! Cases that are read from text. Those of `cases/runs.txt` are runs that a file can say: they are turned into
//! run files, packed for `crates/file_cases`, as are the damages of `cases/damages.txt`. Those of `cases/records.txt` are merging, admission and steps
//! offered without a file: they are packed for `crates/rule_cases`.
//!
//! A case is a name, a number that says what is done, and what it is done to. 0 and 9 are a run of version 1, 20 and
//! 29 one of version 2: the numbers of constants, predicates and clauses, the arities, the clauses, each as often as the
//! number before it says, and the steps, each list ended by a bar. 1 is the reason of a clause, 4 the resolvent of
//! two, 5 a clause factored, with the literals that are named, numbered from 0. A clause is its three
//! counts, its atoms, its literals and an instance, which in a run is not looked at, ended by bars too; a
//! step is a rule, a clause, two literals, a sign, Grow's count, the instance's count and the instance. In version 2
//! a decision goes on with the number of its atoms, a bar, and the atoms: each is a clause, its number, a sign, the
//! instance's count and the instance; a further bar ends them. Of two or more the last stands in all slots past it too.
//! Any other step may go on so behind one more bar, without a file: its atoms are offered and not looked at. A
//! line that begins with a blank goes on with the case before it; one that begins with # is passed over.
//! Whatever is no digit, minus sign or bar only parts numbers.

mod records;

pub use records::packed_records;

use crate::admission::{admit, ClauseRecord, LiteralRecord, SourceRecord, StepRecord};
use crate::clause::{Atom, Clause, Closure, Literal};
use crate::file::{write, RunFile};
use crate::limits;
use crate::listing::{self, conflict_text, final_state, inspection};
use crate::refusal::Refusal;
use crate::rules::{factor, resolvent};
use crate::state::{Origin, State};
use crate::step::brings_atoms;
use std::collections::VecDeque;

/// The file that is damaged.
const DAMAGED: &[u8] = include_bytes!("../../examples/first.drf");

/// What the cases come to: of each its name, and then what merging makes of it, or a run's answers and
/// states.
pub fn answers(text: &[u8]) -> String {
    cases(&String::from_utf8_lossy(text)).iter().map(|case| answer(case)).collect()
}

fn cases(text: &str) -> Vec<String> {
    let mut cases: Vec<String> = Vec::new();
    for line in text.lines() {
        match cases.last_mut() {
            Some(case) if line.starts_with(' ') => *case += line,
            _ => cases.push(line.to_string()),
        }
    }
    cases.retain(|case| !case.starts_with('#'));
    cases
}

fn answer(case: &str) -> String {
    let (name, rest) = case.split_once(' ').unwrap_or((case, ""));
    let mut words = Words::of(rest);
    let text = match words.byte() {
        1 => reason(&mut words),
        4 => resolved(&mut words),
        5 => factored(&mut words),
        kind => run(&mut words, RunKind::of(kind)),
    };
    format!("{name} {text}")
}

/// What is done with a run.
struct RunKind {
    version: u16,
    /// Whether each step is shown, or the end alone.
    each: bool,
}

impl RunKind {
    fn of(kind: u8) -> RunKind {
        let (version, each) = match kind {
            0 => (1, true),
            9 => (1, false),
            20 => (2, true),
            29 => (2, false),
            _ => panic!("{kind} says nothing that is done"),
        };
        RunKind { version, each }
    }
}

/// A run file with a name.
pub struct NamedFile {
    pub name: String,
    pub bytes: Vec<u8>,
}

/// The runs as files: the run itself, or for each of its steps the steps accepted before it and then the step.
pub fn run_files(text: &[u8]) -> Vec<NamedFile> {
    cases(&String::from_utf8_lossy(text)).iter().flat_map(|case| files_of(case)).collect()
}

fn files_of(case: &str) -> Vec<NamedFile> {
    let (name, rest) = case.split_once(' ').unwrap_or((case, ""));
    let mut words = Words::of(rest);
    let RunKind { version, each } = RunKind::of(words.byte());
    let table = words.table();
    let mut file = table.file(version);
    let mut files = Vec::new();
    let mut state = table.admitted(version);
    while !words.at_end() {
        let step = words.step(version).step(version).expect("a step that a file can say");
        file.steps.push(step.clone());
        let name = format!("{name}/{}", files.len() + 1);
        files.push(NamedFile { name, bytes: write(&file).bytes });
        if each && state.as_mut().is_ok_and(|state| state.take(&step).is_err()) {
            file.steps.pop();
        }
    }
    if each {
        files
    } else {
        vec![NamedFile { name: name.to_string(), bytes: write(&file).bytes }]
    }
}

/// Damaged copies of a file, named by the lines of the text that say the damages.
pub fn damaged_files(text: &[u8]) -> Vec<NamedFile> {
    let text = String::from_utf8_lossy(text);
    let lines = text.lines().filter(|line| !line.starts_with('#'));
    lines.map(|line| NamedFile { name: line.to_string(), bytes: damaged(line) }).collect()
}

/// A copy of the file that is damaged, 64 bytes of it and zeros past its end: so many bytes are kept, and some
/// are changed, each by its place and value.
fn damaged(line: &str) -> Vec<u8> {
    let mut numbers = line.split(' ').map(|word| word.parse::<usize>().expect("a number"));
    let kept = numbers.next().expect("how many bytes are kept");
    let mut bytes = [DAMAGED, &[0; 64]].concat()[..64].to_vec();
    while let (Some(place), Some(value)) = (numbers.next(), numbers.next()) {
        bytes[place] = value as u8;
    }
    bytes.truncate(kept);
    bytes
}

/// Files one after the other: the length of a name in a byte, the name, the length of the file in two bytes,
/// and the file.
pub fn packed(files: &[NamedFile]) -> Vec<u8> {
    let mut bytes = Vec::new();
    for file in files {
        let length = u16::try_from(file.bytes.len()).expect("a length that two bytes can say");
        bytes.push(file.name.len() as u8);
        bytes.extend(file.name.as_bytes());
        bytes.extend(length.to_le_bytes());
        bytes.extend(&file.bytes);
    }
    bytes
}

/// What files come to where they are judged: of each its name and the listing.
pub fn listings(files: &[NamedFile]) -> String {
    files.iter().map(|file| format!("{}\n{}", file.name, listing::listing(&file.bytes))).collect()
}

/// What files come to where they are inspected: of each its name, the number and place of the last answer, the listing and the final
/// state.
pub fn inspections(files: &[NamedFile]) -> String {
    let told = |file: &NamedFile| {
        let answer = listing::run(&file.bytes)
            .map_err(|bad| bad.refusal)
            .and_then(|run| run.tried.last().map_or(Ok(()), |tried| tried.answer.map(|_| ())));
        format!("{} {}\n{}", file.name, numbers(&answer), inspection(&file.bytes))
    };
    files.iter().map(told).collect()
}

/// Admission's answer, and after every step a line with its answer; the state after each step, or else at
/// the end.
fn run(words: &mut Words, RunKind { version, each }: RunKind) -> String {
    let opened = words.table().admitted(version);
    let mut text = format!("{}\n", numbers(&opened));
    // A refused file yields no state: the steps then meet that of no clauses.
    let mut state = opened.unwrap_or(State::first(version, 0, Vec::new(), Vec::new()));
    while !words.at_end() {
        let answer = state.offer(&words.step(version));
        text += &format!("step {}\n", numbers(&answer));
        if each {
            text += &final_state(&state);
        }
    }
    if !each {
        text += &final_state(&state);
    }
    text
}

/// The reason of a literal, and where that literal then stands, from 0.
fn reason(words: &mut Words) -> String {
    let given = words.closure();
    let literal = words.literal_number();
    let (reason, own) = match given {
        Some(Closure { clause, instance }) => {
            let origin = Origin { decision: false, clause: 1, literal, instance, brought: 0 };
            State::first(1, 0, Vec::new(), vec![clause]).reason(&origin)
        }
        None => (Closure::blank(), 1),
    };
    format!("{} {}\n", merged_text(Some(&reason)), own - 1)
}

fn resolved(words: &mut Words) -> String {
    let (conflict, reason) = (words.closure(), words.closure());
    let (literal, own) = (words.literal_number(), words.literal_number());
    let merged = conflict
        .zip(reason)
        .map(|(conflict, reason)| resolvent(&conflict, literal, &reason, own))
        .filter(|closure| closure.clause.within_limits());
    format!("{}\n", merged_text(merged.as_ref()))
}

fn factored(words: &mut Words) -> String {
    let conflict = words.closure();
    let (first, second) = (words.literal_number(), words.literal_number());
    let merged = conflict.map(|conflict| factor(&conflict, first, second));
    format!("{}\n", merged_text(merged.as_ref()))
}

/// As a conflict is printed. A case of merging names no arities: those are the arguments that are not 0.
fn merged_text(merged: Option<&Closure>) -> String {
    let mut arities = [0; limits::PREDICATES];
    for literal in merged.iter().flat_map(|closure| &closure.clause.literals) {
        let arguments = literal.arguments.iter().filter(|&&argument| argument != 0);
        arities[literal.predicate as usize - 1] = arguments.count() as u8;
    }
    conflict_text(merged, &arities)
}

/// "a number (0 for accepted) and a place"
fn numbers<T>(answer: &Result<T, Refusal>) -> String {
    match answer {
        Ok(_) => "0 0".to_string(),
        Err(refusal) => format!("{} {}", refusal.number, refusal.place),
    }
}

/// An array with these elements first, blank past them.
fn filled<T: Copy, const N: usize>(elements: &[T], blank: T) -> [T; N] {
    std::array::from_fn(|index| elements.get(index).copied().unwrap_or(blank))
}

#[derive(Clone, Copy, PartialEq)]
enum Word {
    Number { negative: bool, size: u32 },
    Bar,
}

/// The numbers and bars of a case that are still to be read.
struct Words(VecDeque<Word>);

impl Words {
    fn of(text: &str) -> Words {
        let mut words = VecDeque::new();
        let mut negative = false;
        let mut rest = text.chars().peekable();
        while let Some(letter) = rest.next() {
            if let Some(digit) = letter.to_digit(10) {
                let mut size = digit;
                while let Some(digit) = rest.peek().and_then(|letter| letter.to_digit(10)) {
                    size = 10 * size + digit;
                    rest.next();
                }
                words.push_back(Word::Number { negative, size });
            } else if letter == '|' {
                words.push_back(Word::Bar);
            }
            negative = letter == '-';
        }
        Words(words)
    }

    fn at_end(&self) -> bool {
        self.0.is_empty()
    }

    /// The next number with its sign, 0 if there is none.
    fn number(&mut self) -> (bool, u32) {
        match self.0.front() {
            Some(&Word::Number { negative, size }) => {
                self.0.pop_front();
                (negative, size)
            }
            _ => (false, 0),
        }
    }

    fn byte(&mut self) -> u8 {
        self.number().1 as u8
    }

    fn in_list(&self) -> bool {
        matches!(self.0.front(), Some(Word::Number { .. }))
    }

    fn at_bar(&self) -> bool {
        self.0.front() == Some(&Word::Bar)
    }

    fn past_bar(&mut self) {
        if self.at_bar() {
            self.0.pop_front();
        }
    }

    /// A list up to its bar.
    fn list<T>(&mut self, mut element: impl FnMut(&mut Words) -> T) -> Vec<T> {
        let mut list = Vec::new();
        while self.in_list() {
            list.push(element(self));
        }
        self.past_bar();
        list
    }

    fn bytes(&mut self) -> Vec<u8> {
        self.list(Words::byte)
    }

    fn atom(&mut self) -> Atom {
        let (p, q) = (self.byte(), self.byte());
        let (negative, size) = self.number();
        let c = size as i32;
        Atom { p, q, c: if negative { -c } else { c } }
    }

    fn literal(&mut self) -> LiteralRecord {
        let (negative, predicate) = self.number();
        let arguments = [self.byte(), self.byte(), self.byte()];
        LiteralRecord { sign: !negative as u8, predicate: predicate as u8, arguments }
    }

    /// A clause and an instance beside it.
    fn given(&mut self) -> (ClauseRecord, Vec<u8>) {
        let (variables, atom_count, literal_count) = (self.byte(), self.byte(), self.byte());
        self.past_bar();
        let blank = ClauseRecord::blank();
        let atoms = filled(&self.list(Words::atom), blank.atoms[0]);
        let literals = filled(&self.list(Words::literal), blank.literals[0]);
        let record = ClauseRecord { variables, atom_count, atoms, literal_count, literals };
        (record, self.bytes())
    }

    /// The clause that a record says, with its instance. None where a count is above its limit.
    fn closure(&mut self) -> Option<Closure> {
        let (record, instance) = self.given();
        let clause = record.clause()?;
        clause.within_limits().then_some(Closure { clause, instance })
    }

    /// A literal's number, which a case of merging counts from 0.
    fn literal_number(&mut self) -> u8 {
        self.byte() + 1
    }

    fn clauses(&mut self) -> Vec<ClauseRecord> {
        let repeated = self.list(|words| {
            let times = words.number().1 as usize;
            vec![words.given().0; times]
        });
        repeated.concat()
    }

    fn table(&mut self) -> Table {
        let (constants, predicates, count) = (self.byte(), self.byte(), self.byte());
        let arities = filled(&self.bytes(), 0);
        let mut clauses = self.clauses();
        clauses.resize(count.into(), ClauseRecord::blank());
        Table { constants, predicates, arities, clauses }
    }

    fn step(&mut self, version: u16) -> StepRecord {
        let (rule, clause, literal, second) = (self.byte(), self.byte(), self.byte(), self.byte());
        let (sign, count, instance_count) = (self.byte(), self.byte(), self.byte());
        let instance = filled(&self.bytes(), 0);
        let brings = rule == 2 && brings_atoms(version);
        let (atom_count, atoms) =
            if brings || self.at_bar() { self.sources() } else { (0, Vec::new()) };
        let past = match &atoms[..] {
            [_, .., last] => *last,
            _ => SourceRecord::default(),
        };
        let atoms = filled(&atoms, past);
        StepRecord {
            rule,
            clause,
            literal,
            second,
            sign,
            instance_count,
            instance,
            count,
            atom_count,
            atoms,
        }
    }

    /// How many atoms a decision is to bring, and these.
    fn sources(&mut self) -> (u8, Vec<SourceRecord>) {
        self.past_bar();
        let count = self.byte();
        self.past_bar();
        (count, self.list(Words::source))
    }

    fn source(&mut self) -> SourceRecord {
        let (clause, number, sign) = (self.byte(), self.byte(), self.byte());
        let instance_count = self.byte();
        let instance = filled(&self.bytes(), 0);
        SourceRecord { clause, number, sign, instance_count, instance }
    }
}

impl LiteralRecord {
    fn literal(&self) -> Literal {
        Literal { positive: self.sign == 1, predicate: self.predicate, arguments: self.arguments }
    }
}

impl Closure {
    fn blank() -> Closure {
        let clause = Clause { variables: 0, atoms: Vec::new(), literals: Vec::new() };
        Closure { clause, instance: Vec::new() }
    }
}

/// What a run starts from, as offered.
struct Table {
    constants: u8,
    predicates: u8,
    arities: [u8; limits::PREDICATES],
    clauses: Vec<ClauseRecord>,
}

impl Table {
    fn admitted(&self, version: u16) -> Result<State, Refusal> {
        admit(version, self.constants, self.predicates, &self.arities, &self.clauses)
    }

    /// The file that says the same, with no steps yet.
    fn file(&self, version: u16) -> RunFile {
        let mut arities = self.arities.to_vec();
        arities.resize(self.predicates.into(), 0);
        let clause = |record: &ClauseRecord| record.clause().expect("a clause that a file can say");
        let clauses = self.clauses.iter().map(clause).collect();
        RunFile { version, constants: self.constants, arities, clauses, steps: Vec::new() }
    }
}

impl ClauseRecord {
    /// The clause that a record says. None where it has not so many atoms or literals.
    fn clause(&self) -> Option<Clause> {
        let literals = self.literals.get(..self.literal_count.into())?;
        Some(Clause {
            variables: self.variables,
            atoms: self.atoms.get(..self.atom_count.into())?.to_vec(),
            literals: literals.iter().map(LiteralRecord::literal).collect(),
        })
    }

    fn blank() -> ClauseRecord {
        let literal = LiteralRecord { sign: 0, predicate: 0, arguments: [0; limits::ARITY] };
        ClauseRecord {
            variables: 0,
            atom_count: 0,
            atoms: [Atom { p: 0, q: 0, c: 0 }; limits::ATOMS],
            literal_count: 0,
            literals: [literal; limits::LITERALS],
        }
    }
}
