//! usage: host FILE..
//! A host in Rust: judges each run file and inspects it without numbers and with them, and then makes the clauses of small tables, on several
//! threads at once, each with a stack of `drf::STACK` bytes, and prints what one of them was told. Status 0; 1 where a file can't be read or the
//! threads are told different things; 2 for no file.

use drf::{inspect, inspect_numbers, judge, refusal, table, Match, Refused, Told, Verdict};
use drf::{MOST_READ, MOST_TABLE, MOST_WITH_NUMBERS, STACK};
use std::env;
use std::ffi::OsString;
use std::fs::File;
use std::io::{self, Read, Write};
use std::path::Path;
use std::process::ExitCode;
use std::sync::Arc;
use std::thread::Builder;

const THREADS: usize = 4;

/// What was told of a file, with the text kept
#[derive(PartialEq)]
struct Kept {
    text: Vec<u8>,
    verdict: Verdict,
    number: u8,
    place: u64,
}

impl Kept {
    fn of(told: Told) -> Kept {
        let Told { text, verdict, number, place } = told;
        Kept { text: text.to_vec(), verdict, number, place }
    }

    fn print(&self, name: &str, to: &mut impl Write) -> io::Result<()> {
        let Kept { text, verdict, number, place } = self;
        writeln!(to, "{name}: {verdict}, number {number}, place {place}")?;
        to.write_all(text)
    }
}

/// The listing, the listing with the final state, and both with the numbers that steps hand on
type Texts = [Kept; 3];

fn texts(file: &[u8]) -> Result<Texts, drf::Short> {
    // Long enough for each
    let mut out = vec![0; MOST_WITH_NUMBERS];
    let listing = Kept::of(judge(file, &mut out)?);
    let inspection = Kept::of(inspect(file, &mut out)?);
    let numbered = Kept::of(inspect_numbers(file, &mut out)?);
    Ok([listing, inspection, numbered])
}

/// A table by its keys, each of which is its own result, and the kind of match
struct Table {
    name: &'static str,
    keys: [i32; 3],
    kind: Match,
}

const TABLES: [Table; 3] = [
    Table { name: "exact", keys: [4100, 4120, 4200], kind: Match::Exact },
    Table { name: "approximate", keys: [4100, 4120, 4200], kind: Match::Approximate },
    Table { name: "not in order", keys: [4120, 4100, 4200], kind: Match::Approximate },
];

/// What is made of each table
fn made() -> [Result<Vec<u8>, Refused>; 3] {
    TABLES.map(|Table { keys, kind, .. }| {
        let mut out = [0; MOST_TABLE];
        table(&keys, &keys, kind, &mut out).map(<[u8]>::to_vec)
    })
}

/// What all threads are told at this work
fn on_all<T: PartialEq + Send + 'static>(
    work: impl Fn() -> T + Clone + Send + 'static,
) -> io::Result<T> {
    let start = |_| Builder::new().stack_size(STACK).spawn(work.clone());
    let threads: Vec<_> = (0..THREADS).map(start).collect::<io::Result<_>>()?;
    let mut first: Option<T> = None;
    for thread in threads {
        let next = thread.join().map_err(|_| io::Error::other("a thread panics"))?;
        if first.as_ref().is_some_and(|first| *first != next) {
            return Err(io::Error::other("the threads are told different things"));
        }
        first = Some(next);
    }
    first.ok_or_else(|| io::Error::other("no thread"))
}

/// What all threads are told of a file
fn told(file: Vec<u8>) -> io::Result<Texts> {
    let file = Arc::new(file);
    on_all(move || texts(&file))?.map_err(io::Error::other)
}

fn tell(name: &Path) -> io::Result<Texts> {
    let mut file = Vec::new();
    File::open(name)?.take(MOST_READ as u64).read_to_end(&mut file)?;
    told(file)
}

fn print(name: &Path, texts: &Texts, to: &mut impl Write) -> io::Result<()> {
    writeln!(to, "{}", name.display())?;
    let [listing, inspection, numbered] = texts;
    listing.print("judge", to)?;
    inspection.print("inspect", to)?;
    numbered.print("inspect, numbers", to)
}

/// The bytes of clauses, a clause a line: three counts, of which the second is that of its atoms, six bytes for each of these, and four for the
/// literal.
fn print_clauses(mut clauses: &[u8], to: &mut impl Write) -> io::Result<()> {
    while let Some(atoms) = clauses.get(1) {
        let (clause, rest) = clauses.split_at(3 + 6 * usize::from(*atoms) + 4);
        let bytes: Vec<String> = clause.iter().map(|byte| format!("{byte:02x}")).collect();
        writeln!(to, "{}", bytes.join(" "))?;
        clauses = rest;
    }
    Ok(())
}

fn print_tables(to: &mut impl Write) -> io::Result<()> {
    for (Table { name, .. }, made) in TABLES.iter().zip(on_all(made)?) {
        let (clauses, number, place) = match made {
            Ok(clauses) => (clauses, refusal::ACCEPTED, 0),
            Err(Refused { number, place }) => (Vec::new(), number, place),
        };
        writeln!(to, "table, {name}: {} bytes, number {number}, place {place}", clauses.len())?;
        print_clauses(&clauses, to)?;
    }
    Ok(())
}

fn run(names: &[OsString]) -> io::Result<ExitCode> {
    let mut to = io::BufWriter::new(io::stdout());
    let mut status = ExitCode::SUCCESS;
    for name in names.iter().map(Path::new) {
        match tell(name) {
            Ok(texts) => print(name, &texts, &mut to)?,
            Err(fault) => {
                eprintln!("{}: {fault}", name.display());
                status = ExitCode::FAILURE;
            }
        }
    }
    print_tables(&mut to)?;
    to.flush()?;
    Ok(status)
}

fn main() -> ExitCode {
    let names: Vec<OsString> = env::args_os().skip(1).collect();
    if names.is_empty() {
        eprintln!("usage: host FILE..");
        return ExitCode::from(2);
    }
    run(&names).unwrap_or_else(|fault| {
        eprintln!("host: {fault}");
        ExitCode::FAILURE
    })
}
