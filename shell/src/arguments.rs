//! What the words of the command line ask for.

use crate::commands::{Command, Outcome, Task, COMMANDS};
use crate::filenames::on_one_line;
use crate::files::ROUND;
use crate::streams::Source;
use crate::tables::Form;
use drf::Match;
use std::ffi::{OsStr, OsString};
use std::num::NonZero;
use std::os::unix::ffi::OsStrExt;
use std::thread::available_parallelism;

/// More threads than files held at a time would find nothing to do.
const MOST_THREADS: usize = ROUND;

pub enum Request {
    Help,
    Version,
    Run(Job),
}

/// A command's task with the options given for it: what comes of a file
type Work = Box<dyn Fn(&Source) -> Outcome + Sync>;

/// A command with its files
pub struct Job {
    pub work: Work,
    pub sources: Vec<Source>,
    pub threads: usize,
}

/// What the options ask for
struct Asked {
    /// Whatever else is asked for
    first: Option<Request>,
    threads: usize,
    /// Those that go with one command alone, in their order
    own: Vec<Own>,
}

/// An option that goes with one command alone
#[derive(Clone, Copy, PartialEq, Eq)]
struct Own {
    name: &'static str,
    /// The command's word
    command: &'static str,
}

/// An option: how it is written, and what it asks for. `help.txt` lists the same.
struct Entry {
    names: &'static [&'static str],
    effect: Effect,
}

enum Effect {
    Sets(fn(&mut Asked)),
    /// Takes the word that follows, or what follows in the same word: `-j 4`, `-j4`.
    Takes(fn(&mut Asked, Option<&OsStr>) -> Result<(), String>),
}

const NUMBERS: Own = Own { name: "--numbers", command: "inspect" };
const EXACT: Own = Own { name: "--exact", command: "table" };
const APPROXIMATE: Own = Own { name: "--approximate", command: "table" };
const TEXT: Own = Own { name: "--text", command: "table" };

const OPTIONS: [Entry; 7] = [
    Entry { names: &["-j"], effect: Effect::Takes(threads) },
    Entry { names: &[NUMBERS.name], effect: Effect::Sets(|asked| asked.own.push(NUMBERS)) },
    Entry { names: &[EXACT.name], effect: Effect::Sets(|asked| asked.own.push(EXACT)) },
    Entry { names: &[APPROXIMATE.name], effect: Effect::Sets(|asked| asked.own.push(APPROXIMATE)) },
    Entry { names: &[TEXT.name], effect: Effect::Sets(|asked| asked.own.push(TEXT)) },
    Entry {
        names: &["-h", "--help"],
        effect: Effect::Sets(|asked| asked.first = Some(Request::Help)),
    },
    Entry {
        names: &["--version"],
        effect: Effect::Sets(|asked| asked.first = Some(Request::Version)),
    },
];

/// What is asked for, or what is wrong.
pub fn read(mut words: impl Iterator<Item = OsString>) -> Result<Request, String> {
    let cores = available_parallelism().map_or(1, NonZero::get);
    let threads = cores.min(MOST_THREADS);
    let mut asked = Asked { first: None, threads, own: Vec::new() };
    let mut operands = Vec::new();
    while let Some(word) = words.next() {
        if word == "--" {
            operands.extend(words.by_ref());
        } else if word != "-" && word.as_bytes().starts_with(b"-") {
            option(&word, &mut words, &mut asked)?;
        } else {
            operands.push(word);
        }
        if let Some(request) = asked.first {
            return Ok(request);
        }
    }
    job(operands, &asked).map(Request::Run)
}

fn option(
    word: &OsStr,
    words: &mut impl Iterator<Item = OsString>,
    asked: &mut Asked,
) -> Result<(), String> {
    let named = OPTIONS.iter().find_map(|entry| Some((&entry.effect, after(entry, word)?)));
    match named {
        Some((Effect::Takes(take), b"")) => take(asked, words.next().as_deref()),
        Some((Effect::Takes(take), rest)) => take(asked, Some(OsStr::from_bytes(rest))),
        Some((Effect::Sets(set), b"")) => {
            set(asked);
            Ok(())
        }
        _ => Err(format!("unknown option {}", on_one_line(word))),
    }
}

/// What stands in the word after a name of the option: nothing, or after a name of one letter what it takes.
fn after<'a>(entry: &Entry, word: &'a OsStr) -> Option<&'a [u8]> {
    let rest = |name: &&str| word.as_bytes().strip_prefix(name.as_bytes());
    let fits = |name: &&str| name.len() == 2 || word == *name;
    entry.names.iter().filter(|name| fits(name)).find_map(rest)
}

fn threads(asked: &mut Asked, word: Option<&OsStr>) -> Result<(), String> {
    let digits =
        word.and_then(OsStr::to_str).filter(|text| text.bytes().all(|b| b.is_ascii_digit()));
    let number = digits.and_then(|digits| digits.parse().ok());
    let found = word.map_or("nothing".to_string(), on_one_line);
    asked.threads = number
        .filter(|number| (1..=MOST_THREADS).contains(number))
        .ok_or(format!("-j takes a number from 1 to {MOST_THREADS}, found {found}"))?;
    Ok(())
}

/// The first operand is the command's word, the others are its files.
fn job(operands: Vec<OsString>, asked: &Asked) -> Result<Job, String> {
    let mut operands = operands.into_iter();
    let words = COMMANDS.map(|command| command.word).join(", ");
    let word = operands.next().ok_or(format!("no command: it is one of {words}"))?;
    let command = COMMANDS
        .iter()
        .find(|command| word == command.word)
        .ok_or(format!("unknown command {}: it is none of {words}", on_one_line(&word)))?;
    let work = with_options(command, &asked.own)?;
    let sources: Vec<Source> = operands.map(Source::of).collect();
    let inputs = sources.iter().filter(|source| **source == Source::Input).count();
    match sources.len() {
        0 => Err(format!("{}: no FILE", command.word)),
        2.. if !command.several => Err(format!("{}: more than one FILE", command.word)),
        _ if inputs > 1 => Err("standard input (-) stands more than once".to_string()),
        _ => Ok(Job { work, sources, threads: asked.threads }),
    }
}

/// A command's task with these options, all of which must be its own.
fn with_options(command: &Command, own: &[Own]) -> Result<Work, String> {
    let word = command.word;
    if let Some(other) = own.iter().find(|option| option.command != word) {
        return Err(format!("{word}: {} goes with {} alone", other.name, other.command));
    }
    match command.task {
        Task::Plain(task) => Ok(Box::new(task)),
        Task::Inspect(task) => {
            let numbers = own.contains(&NUMBERS);
            Ok(Box::new(move |source| task(source, numbers)))
        }
        Task::Table(task) => {
            let kind = kind_of_match(word, own)?;
            let form = if own.contains(&TEXT) { Form::Text } else { Form::Bytes };
            Ok(Box::new(move |source| task(source, kind, form)))
        }
    }
}

/// The one kind of match that is asked for
fn kind_of_match(word: &str, own: &[Own]) -> Result<Match, String> {
    let [exact, approximate] = [EXACT.name, APPROXIMATE.name];
    match (own.contains(&EXACT), own.contains(&APPROXIMATE)) {
        (true, false) => Ok(Match::Exact),
        (false, true) => Ok(Match::Approximate),
        (true, true) => Err(format!("{word} takes one of {exact} and {approximate}")),
        (false, false) => Err(format!("{word} takes {exact} or {approximate}")),
    }
}

#[cfg(test)]
mod tests {
    use super::*;
    use crate::HELP;

    /// The entries of a part of the help, word by word. A line that goes on with an entry is indented further.
    fn part(title: &str) -> Vec<Vec<&'static str>> {
        let lines = HELP.lines().skip_while(|line| !line.starts_with(title)).skip(1);
        let lines = lines.filter(|line| !line.starts_with("   "));
        lines
            .map_while(|line| Some(line.strip_prefix("  ")?.split_whitespace().collect()))
            .collect()
    }

    #[test]
    fn the_help_lists_the_commands() {
        let listed: Vec<_> = part("Commands").iter().map(|line| (line[0], line[1])).collect();
        let files = |several| if several { "FILE.." } else { "FILE" };
        assert_eq!(listed, COMMANDS.map(|command| (command.word, files(command.several))));
    }

    #[test]
    fn the_help_lists_the_options() {
        let known =
            OPTIONS.iter().map(|entry| (entry.names, matches!(entry.effect, Effect::Takes(_))));
        let listed = part("Options");
        let last = listed.len() - 1;
        assert_eq!(listed[last][0], "--");
        assert_eq!(last, OPTIONS.len());
        for (line, (names, takes)) in listed.iter().zip(known) {
            assert!(line.starts_with(names), "{line:?} {names:?}");
            // `run` knows by a capital letter that a word follows.
            assert_eq!(line[names.len()].chars().all(char::is_uppercase), takes, "{line:?}");
        }
    }

    /// `run` knows by the colon with which command an option goes.
    #[test]
    fn the_help_says_with_which_command_an_option_goes() {
        let listed: Vec<_> = part("Options")
            .iter()
            .filter_map(|line| Some((line[0], line[1].strip_suffix(':')?)))
            .collect();
        let own = [NUMBERS, EXACT, APPROXIMATE, TEXT].map(|option| (option.name, option.command));
        assert_eq!(listed, own);
        assert!(own.iter().all(|(_, word)| COMMANDS.iter().any(|command| command.word == *word)));
    }

    #[test]
    fn the_help_lists_the_statuses() {
        use crate::status::Status::*;
        let listed: Vec<_> = part("Status").iter().map(|line| line[0].parse().ok()).collect();
        assert_eq!(listed, [Done, Usage, Stream, Open, Stopped, Bad].map(|s| Some(s as u8)));
    }

    #[test]
    fn the_help_states_the_limit_of_threads() {
        assert!(HELP.contains(&format!("1 to {MOST_THREADS};")));
    }
}
