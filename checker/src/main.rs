//! `checker`: makes run files, counts what they come to, and puts questions to a solver.

use checker::clause::Atom;
use checker::constraint::{self, Numbers};
use checker::coverage::Coverage;
use checker::file;
use checker::generate::{generate_version, random_point, random_set, Point};
use checker::listing::{run, Verdict};
use checker::smt;
use checker::state::Entry;
use checker::table::{clauses_from, returned, run_file, GETS};
use std::fs;
use std::io::{self, Write};
use std::path::Path;
use std::process::ExitCode;

const USAGE: &str = "\
usage: checker generate SEED COUNT DIR [VERSION]
                                          writes COUNT run files to DIR, named by their seeds
       checker coverage SEED COUNT [VERSION]
                                          runs COUNT files and prints what they come to
       checker sets SEED COUNT            prints for COUNT sets of atoms the test's answer, sat or unsat
       checker ask-sets SEED COUNT        prints the same sets as questions to a solver
       checker ask-numbers SEED COUNT     prints, for the first COUNT possible sets, a question for the
                                          numbers behind the yes, which hold, and one for a larger choice
       checker tables SEED COUNT          prints for a point of each of COUNT lookup tables unsat where the
                                          table returns y at x, else sat
       checker ask-tables SEED COUNT      prints, for each of these points, a question for a model of the
                                          table's clauses in which Gets(x, y) is not true
       checker ask-decisions SEED COUNT [VERSION]
                                          prints the same two questions for the numbers that a decision
                                          hands on, one of each file that has one, up to COUNT decisions
       checker ask-refuted SEED COUNT [VERSION]
                                          prints, for each refuted run of COUNT files, a question for a
                                          model of its input clauses
       checker ask-learned SEED COUNT [VERSION]
                                          prints, for each learned clause of COUNT files, a question for
                                          a model of the input clauses in which it does not hold

SEED is the first of COUNT seeds, one after the other. Files are of VERSION, 1 where it is not given.";

/// The solver's time for one question, in milliseconds.
const TIME: usize = 1_000;
/// The same for a question about a table, which has to be answered.
const TABLE_TIME: usize = 60_000;

fn main() -> ExitCode {
    let words: Vec<String> = std::env::args().skip(1).collect();
    let words: Vec<&str> = words.iter().map(String::as_str).collect();
    match command(&words) {
        Ok(code) => code,
        Err(error) => {
            eprintln!("checker: {error}");
            ExitCode::FAILURE
        }
    }
}

fn command(words: &[&str]) -> io::Result<ExitCode> {
    let (word, seed, count, rest) = match words {
        [word, seed, count, rest @ ..] => (*word, number(seed)?, number(count)?, rest),
        _ => return Err(io::Error::other(USAGE)),
    };
    let seeds = seed..seed.saturating_add(count);
    let mut out = io::stdout().lock();
    match (word, rest) {
        ("generate", [dir, rest @ ..]) => {
            generate_files(version(rest)?, seeds, Path::new(dir))?;
        }
        ("coverage", rest) => return coverage(version(rest)?, seeds, &mut out),
        ("sets", []) => answer_sets(seeds, &mut out)?,
        ("ask-sets", []) => ask_sets(seeds, &mut out)?,
        ("ask-numbers", []) => ask_numbers(seed, count, &mut out)?,
        ("tables", []) => answer_tables(seeds, &mut out)?,
        ("ask-tables", []) => ask_tables(seeds, &mut out)?,
        ("ask-decisions", rest) => ask_decisions(version(rest)?, seed, count, &mut out)?,
        ("ask-refuted", rest) => ask_refuted(version(rest)?, seeds, &mut out)?,
        ("ask-learned", rest) => ask_learned(version(rest)?, seeds, &mut out)?,
        _ => return Err(io::Error::other(USAGE)),
    }
    Ok(ExitCode::SUCCESS)
}

type Seeds = std::ops::Range<u64>;

fn number(word: &str) -> io::Result<u64> {
    word.parse().map_err(|_| io::Error::other(format!("not a number: {word}")))
}

/// The version that the last word names.
fn version(words: &[&str]) -> io::Result<u16> {
    match words {
        [] => Ok(1),
        [word] => match word.parse() {
            Ok(version) if file::VERSIONS.contains(&version) => Ok(version),
            _ => Err(io::Error::other(format!("no version: {word}"))),
        },
        _ => Err(io::Error::other(USAGE)),
    }
}

fn generate_files(version: u16, seeds: Seeds, dir: &Path) -> io::Result<()> {
    fs::create_dir_all(dir)?;
    for seed in seeds {
        fs::write(dir.join(format!("{seed}.drf")), generate_version(version, seed))?;
    }
    Ok(())
}

fn coverage(version: u16, seeds: Seeds, out: &mut impl Write) -> io::Result<ExitCode> {
    let mut coverage = Coverage::of(version);
    for seed in seeds {
        coverage.run(&generate_version(version, seed));
    }
    out.write_all(coverage.report().as_bytes())?;
    Ok(if coverage.is_complete() { ExitCode::SUCCESS } else { ExitCode::FAILURE })
}

fn answer_sets(seeds: Seeds, out: &mut impl Write) -> io::Result<()> {
    for seed in seeds {
        let (constants, atoms) = random_set(seed);
        let numbers = constraint::test(constants, &atoms).expect("a set the test takes");
        writeln!(out, "{}", if numbers.is_some() { "sat" } else { "unsat" })?;
    }
    Ok(())
}

fn ask_sets(seeds: Seeds, out: &mut impl Write) -> io::Result<()> {
    for seed in seeds {
        let (constants, atoms) = random_set(seed);
        write!(out, "(reset)\n{}", smt::set_question(constants, &atoms))?;
    }
    Ok(())
}

/// Before a set's two questions the solver prints its seed.
fn ask_numbers(seed: u64, count: u64, out: &mut impl Write) -> io::Result<()> {
    let mut left = count;
    for seed in seed.. {
        if left == 0 {
            break;
        }
        let (constants, atoms) = random_set(seed);
        let Some(numbers) = constraint::numbers(constants, &atoms) else { continue };
        ask_of_numbers(seed, &atoms, &numbers, out)?;
        left -= 1;
    }
    Ok(())
}

fn ask_of_numbers(
    seed: u64,
    atoms: &[Atom],
    numbers: &[i32],
    out: &mut impl Write,
) -> io::Result<()> {
    let (hold, exceeded) =
        (smt::numbers_hold(atoms, numbers), smt::numbers_exceeded(atoms, numbers));
    write!(out, "(reset)\n(echo \"seed {seed}\")\n{hold}(reset)\n{exceeded}")
}

/// The same for numbers that decisions hand on, with the atoms on the trail after them.
fn ask_decisions(version: u16, seed: u64, count: u64, out: &mut impl Write) -> io::Result<()> {
    let mut left = count;
    for seed in seed.. {
        if left == 0 {
            break;
        }
        let decision = last_decision(&generate_version(version, seed));
        let Some((atoms, numbers)) = decision else { continue };
        ask_of_numbers(seed, &atoms, &numbers, out)?;
        left -= 1;
    }
    Ok(())
}

/// Of a file's accepted decisions with atoms on the trail the last one that brought some, or else the last: the trail's
/// atoms and the numbers.
fn last_decision(bytes: &[u8]) -> Option<(Vec<Atom>, Numbers)> {
    let file = file::read(bytes).ok()?;
    let mut state = file.first_state();
    let (mut last, mut has_brought) = (None, false);
    for step in &file.steps {
        let Ok(numbers) = state.take(step) else { break };
        let atoms: Vec<Atom> = state.trail.iter().filter_map(Entry::atom).copied().collect();
        let brings = state.trail.last().is_some_and(|entry| entry.source().is_some());
        if step.rule() == 2 && !atoms.is_empty() && (brings || !has_brought) {
            has_brought = brings;
            last = Some((atoms, numbers.expect("a decision hands numbers on")));
        }
    }
    last
}

fn answer_tables(seeds: Seeds, out: &mut impl Write) -> io::Result<()> {
    for seed in seeds {
        let Point { table, x, y } = random_point(seed);
        let returns = returned(&table.keys, &table.results, table.kind, x) == Some(y);
        writeln!(out, "{}", if returns { "unsat" } else { "sat" })?;
    }
    Ok(())
}

/// The clauses of a question are those that are read from the bytes written.
fn ask_tables(seeds: Seeds, out: &mut impl Write) -> io::Result<()> {
    for seed in seeds {
        let Point { mut table, x, y } = random_point(seed);
        let count = clauses_from(&table.keys, &table.results, table.kind, &mut table.out);
        let count = count.expect("a table in order, and room");
        let file = file::read(&run_file(table.keys.len() as u8, &table.out[..count]));
        let file = file.expect("a table's clauses in a file");
        let theory = smt::theory(&file.arities, &file.clauses);
        let denial = smt::not_true(GETS, &[x, y]);
        write!(out, "(reset)\n(set-option :timeout {TABLE_TIME})\n{theory}{denial}(check-sat)\n")?;
    }
    Ok(())
}

/// A question begins with a line that makes the solver print its name.
fn ask(name: &str, text: &str, out: &mut impl Write) -> io::Result<()> {
    write!(out, "(reset)\n(set-option :timeout {TIME})\n(echo \"{name}\")\n{text}(check-sat)\n")
}

fn ask_refuted(version: u16, seeds: Seeds, out: &mut impl Write) -> io::Result<()> {
    for seed in seeds {
        let Ok(run) = run(&generate_version(version, seed)) else { continue };
        if run.verdict() == Verdict::Refuted {
            let theory = smt::theory(&run.state.arities, &run.state.input);
            ask(&format!("seed {seed}"), &theory, out)?;
        }
    }
    Ok(())
}

fn ask_learned(version: u16, seeds: Seeds, out: &mut impl Write) -> io::Result<()> {
    for seed in seeds {
        let Ok(run) = run(&generate_version(version, seed)) else { continue };
        let theory = smt::theory(&run.state.arities, &run.state.input);
        for (index, clause) in run.state.learned.iter().enumerate() {
            // A clause that is held already says nothing new.
            let earlier = &run.state.learned[..index];
            if run.state.input.contains(clause) || earlier.contains(clause) {
                continue;
            }
            let number = run.state.input.len() + index + 1;
            let text = theory.clone() + &smt::denial(clause);
            ask(&format!("seed {seed} clause {number}"), &text, out)?;
        }
    }
    Ok(())
}
