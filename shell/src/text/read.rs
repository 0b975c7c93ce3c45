//! A text is read line by line, and its run file written.

use super::fault::{cut, shown, Fault};
use super::fields::{opening, Field, Version, ATOM, ROOM_FOR_STEPS, WITH};
use super::names::{Constants, Predicates};
use super::tokens::{is_name, is_number, Line, Lines, MOST_BYTE};

/// The run file that a text says
pub fn file(text: &str) -> Result<Vec<u8>, Fault> {
    let mut lines = Lines::of(text);
    let number = version(lines.one("drf", "the version")?)?;
    let reader = Reader {
        version: Version::of_text(number),
        constants: Constants::read(lines.one("constants", "how many")?)?,
        predicates: Predicates::read(lines.one("predicates", "their arities")?)?,
    };
    let mut file = opening(number);
    file.push(reader.constants.count);
    file.push(reader.predicates.arities.len() as u8);
    file.extend(&reader.predicates.arities);
    reader.clauses_and_steps(&mut lines, &mut file)?;
    Ok(file)
}

fn version(mut line: Line) -> Result<u16, Fault> {
    let version = line.number(format_args!("a version from 0 to {}", u16::MAX))?;
    line.end("the end of the line")?;
    Ok(version)
}

/// Things that the file counts: how many there are, and their bytes
#[derive(Default)]
struct List {
    count: usize,
    bytes: Vec<u8>,
}

/// What the lines below the first three are read with
struct Reader<'a> {
    version: &'static Version,
    constants: Constants<'a>,
    predicates: Predicates<'a>,
}

impl Reader<'_> {
    fn clauses_and_steps(&self, lines: &mut Lines, file: &mut Vec<u8>) -> Result<(), Fault> {
        let mut line = lines.next();
        let mut clauses = List::default();
        while let Some(clause) = line.filter(|line| line.token() == "clause") {
            self.clause(clause, &mut clauses)?;
            line = lines.next();
        }
        let mut steps = List::default();
        while let Some(step) = line {
            self.step(step, &mut steps)?;
            line = lines.next();
        }
        file.push(clauses.count as u8);
        file.extend(clauses.bytes);
        file.extend((steps.count as u16).to_le_bytes());
        file.extend(steps.bytes);
        Ok(())
    }

    /// `clause 1 2 [1-0<=4120] P1(1,2)`
    fn clause(&self, mut line: Line, clauses: &mut List) -> Result<(), Fault> {
        line.room(clauses.count, MOST_BYTE, "clauses")?;
        clauses.count += 1;
        line.pass();
        let variables = variables(&mut line, clauses.count)?;
        let mut atoms = List::default();
        while !line.passes("]") {
            self.atom(&mut line, &mut atoms)?;
        }
        let mut literals = List::default();
        while line.token() == "~" || is_name(line.token()) {
            self.literal(&mut line, &mut literals)?;
        }
        line.end("`~`, a predicate or the end of the line")?;
        clauses.bytes.extend([variables, atoms.count as u8, literals.count as u8]);
        clauses.bytes.extend(atoms.bytes);
        clauses.bytes.extend(literals.bytes);
        Ok(())
    }

    /// `1-0<=4120`
    fn atom(&self, line: &mut Line, atoms: &mut List) -> Result<(), Fault> {
        if !is_number(line.token()) {
            return Err(line.fault("`]` or an atom p-q<=c"));
        }
        line.room(atoms.count, MOST_BYTE, "atoms")?;
        atoms.count += 1;
        atoms.bytes.push(line.byte("a place")?);
        line.one("-", "`-` and a place")?;
        atoms.bytes.push(line.byte("a place")?);
        line.one("<=", "`<=`")?;
        atoms.bytes.extend(c(line)?.to_le_bytes());
        Ok(())
    }

    /// `~P1(1,2)`
    fn literal(&self, line: &mut Line, literals: &mut List) -> Result<(), Fault> {
        line.room(literals.count, MOST_BYTE, "literals")?;
        literals.count += 1;
        literals.bytes.push((!line.passes("~")).into());
        let name = line.token();
        let predicate = self.predicates.one(line)?;
        literals.bytes.push(predicate);
        let place = *line;
        let arguments = tuple(line, "arguments", variable)?;
        let count = arguments.len();
        // What is not declared has no arity that it could miss.
        let arity = self.predicates.arity(predicate).unwrap_or(count);
        if arity != count {
            let plural = if arity == 1 { "" } else { "s" };
            let expected = format!("{arity} argument{plural} for {}", cut(name));
            return Err(place.fault_of(expected, count));
        }
        literals.bytes.extend(arguments);
        Ok(())
    }

    /// `1 propagate 1 1 (2,1)`, `2 decide 1 1 + (1) with 2 1 + (1), 2 2 ~ (1)`
    fn step(&self, mut line: Line, steps: &mut List) -> Result<(), Fault> {
        if line.token() == "clause" {
            return Err(line.fault("every clause before the first step"));
        }
        line.room(steps.count, ROOM_FOR_STEPS, "steps")?;
        steps.count += 1;
        let numbered = is_number(line.token());
        if numbered {
            line.given("step number", steps.count)?;
        }
        let or = if steps.count == 1 && !numbered { "`clause` or " } else { "" };
        let (rule, fields) = self.rule(&mut line, or)?;
        steps.bytes.push(rule);
        for field in fields {
            self.field(&mut line, *field, &mut steps.bytes)?;
        }
        let bringing = " (`decide` brings atoms, from `drf 2` on)";
        let hint = if line.token() == WITH { bringing } else { "" };
        line.end(format_args!("the end of the line{hint}"))
    }

    /// The number and the fields of the rule that the next token names
    fn rule(&self, line: &mut Line, or: &str) -> Result<(u8, &'static [Field]), Fault> {
        let rules = self.version.rules;
        let Some(index) = rules.iter().position(|rule| rule.name == line.token()) else {
            let names: Vec<&str> = rules.iter().map(|rule| rule.name).collect();
            return Err(line.fault(format!("{or}a rule ({})", names.join(", "))));
        };
        line.pass();
        Ok((index as u8 + 1, rules[index].fields))
    }

    fn field(&self, line: &mut Line, field: Field, file: &mut Vec<u8>) -> Result<(), Fault> {
        match field {
            Field::Number(what) => file.push(line.byte(what)?),
            Field::Sign(either) => {
                let positive = line.passes("+");
                if !positive {
                    line.one("~", format_args!("a sign ({either})"))?;
                }
                file.push(positive.into());
            }
            Field::Instance => {
                let constants =
                    tuple(line, "constants of the instance", |line| self.constants.one(line))?;
                file.push(constants.len() as u8);
                file.extend(constants);
            }
            Field::Brought => {
                let atoms = self.brought(line)?;
                file.push(atoms.count as u8);
                file.extend(atoms.bytes);
            }
        }
        Ok(())
    }

    /// `with 2 1 + (1), 2 2 ~ (1)` and the line's end; where nothing stands before that, no atom is brought.
    fn brought(&self, line: &mut Line) -> Result<List, Fault> {
        let mut atoms = List::default();
        let mut before = WITH;
        while line.passes(before) {
            line.room(atoms.count, MOST_BYTE, "atoms of a decision")?;
            atoms.count += 1;
            for field in ATOM {
                self.field(line, *field, &mut atoms.bytes)?;
            }
            before = ",";
        }
        line.end(format_args!("`{before}` or the end of the line"))?;
        Ok(atoms)
    }
}

/// How many variables a clause has, and the bracket behind that; the clause's own number may stand before it.
fn variables(line: &mut Line, clause: usize) -> Result<u8, Fault> {
    let mut behind = *line;
    behind.pass();
    let numbered = is_number(line.token()) && is_number(behind.token());
    if numbered {
        line.given("clause number", clause)?;
    }
    let variables = line.byte("a number of variables")?;
    // A single number may have been meant as the clause's.
    let or = if numbered { "" } else { " or a number of variables" };
    line.one("[", format_args!("`[`{or}"))?;
    Ok(variables)
}

fn variable(line: &mut Line) -> Result<u8, Fault> {
    line.number(format_args!("a variable (a number from 0 to {MOST_BYTE})"))
}

/// What the number at an atom's end is expected to be
const C: &str = "a number from -2147483648 to 2147483647";

fn c(line: &mut Line) -> Result<i32, Fault> {
    let place = *line;
    let (sign, expected) = if line.passes("-") { ("-", "the digits of a number") } else { ("", C) };
    let digits = line.token();
    if !is_number(digits) {
        return Err(line.fault(expected));
    }
    line.pass();
    let number = format!("{sign}{digits}");
    number.parse().map_err(|_| place.fault_of(C, shown(&number)))
}

/// Numbers in brackets, with a comma between every two
fn tuple(
    line: &mut Line,
    what: &str,
    number: impl Fn(&mut Line) -> Result<u8, Fault>,
) -> Result<Vec<u8>, Fault> {
    line.one("(", format_args!("`(` and the {what}"))?;
    let mut numbers = Vec::new();
    if line.passes(")") {
        return Ok(numbers);
    }
    let or = if is_number(line.token()) { "" } else { "`)` or " };
    let or_none = |fault: Fault| Fault { expected: or.to_string() + &fault.expected, ..fault };
    numbers.push(number(line).map_err(or_none)?);
    while !line.passes(")") {
        line.one(",", "`,` or `)`")?;
        line.room(numbers.len(), MOST_BYTE, what)?;
        numbers.push(number(line)?);
    }
    Ok(numbers)
}
