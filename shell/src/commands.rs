//! The commands: what comes of one file.

use crate::status::Status;
use crate::streams::{reason, Source};
use crate::tables::{table, Form};
use drf::{Match, Short, Told, Verdict};
use drf::{MOST_INSPECTION, MOST_LISTING, MOST_READ, MOST_WITH_NUMBERS};
use shell::text::{self, MOST_TEXT};

pub struct Command {
    pub word: &'static str,
    /// It takes several files, else one.
    pub several: bool,
    pub task: Task,
}

/// What a command makes of a file
pub enum Task {
    Plain(fn(&Source) -> Outcome),
    /// By whether numbers are asked for
    Inspect(fn(&Source, bool) -> Outcome),
    /// By the options that go with `table` alone
    Table(fn(&Source, Match, Form) -> Outcome),
}

pub const COMMANDS: [Command; 5] = [
    Command { word: "judge", several: true, task: Task::Plain(judge) },
    Command { word: "inspect", several: true, task: Task::Inspect(inspect) },
    Command { word: "text", several: false, task: Task::Plain(text) },
    Command { word: "bytes", several: false, task: Task::Plain(bytes) },
    Command { word: "table", several: false, task: Task::Table(table) },
];

/// What comes of a file: something on standard output, or a line on standard error in its stead.
pub type Outcome = Result<Printed, Failed>;

pub struct Printed {
    pub status: Status,
    pub bytes: Vec<u8>,
}

pub struct Failed {
    pub status: Status,
    /// What is wrong with the file
    pub reason: String,
}

/// A function of the proved core
type Core = for<'a> fn(&[u8], &'a mut [u8]) -> Result<Told<'a>, Short>;

fn judge(source: &Source) -> Outcome {
    carried(drf::judge, MOST_LISTING, source)
}

fn inspect(source: &Source, numbers: bool) -> Outcome {
    if numbers {
        return carried(drf::inspect_numbers, MOST_WITH_NUMBERS, source);
    }
    carried(drf::inspect, MOST_INSPECTION, source)
}

/// What the core writes, byte for byte.
fn carried(core: Core, most: usize, source: &Source) -> Outcome {
    let file = read(source, MOST_READ)?;
    let mut buffer = vec![0; most];
    let told = core(&file, &mut buffer).expect("the buffer has room for every text");
    Ok(Printed { status: told.verdict.into(), bytes: told.text.to_vec() })
}

/// A bad file has no text: the core judges first.
fn text(source: &Source) -> Outcome {
    let file = read(source, MOST_READ)?;
    let mut buffer = vec![0; MOST_LISTING];
    let told = drf::judge(&file, &mut buffer).expect("the buffer has room for every listing");
    let Told { verdict, number, place, .. } = told;
    if verdict == Verdict::BadFile {
        let reason = format!("a bad file has no text: refusal {number} at byte {place}");
        return Err(Failed { status: Status::Bad, reason });
    }
    let text = text::text(&file).expect("every valid file has a text");
    Ok(Printed { status: Status::Done, bytes: text.into_bytes() })
}

/// One byte more than a text has at most shows that it has more.
fn bytes(source: &Source) -> Outcome {
    let text = read(source, MOST_TEXT + 1)?;
    let bytes = text::bytes(&text)
        .map_err(|fault| Failed { status: Status::Bad, reason: fault.to_string() })?;
    Ok(Printed { status: Status::Done, bytes })
}

pub fn read(source: &Source, most: usize) -> Result<Vec<u8>, Failed> {
    source.read(most).map_err(|fault| Failed { status: Status::Stream, reason: reason(&fault) })
}
