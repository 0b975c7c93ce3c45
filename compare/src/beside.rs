//! A file through the proved tool and through the independent checker: what the two tell differently.

use checker::file::{write, BadFile, VERSIONS};
use checker::listing::{self, bad_file, final_state, run, Run};
use checker::replay::replayed;
use checker::rules::answers;
use checker::step::RULE_NAMES;
use drf::{inspect, inspect_numbers, judge, Short, Told, Verdict};
use drf::{MOST_INSPECTION, MOST_LISTING, MOST_WITH_NUMBERS};
use std::panic::{catch_unwind, AssertUnwindSafe};

/// What the checker makes of a file
pub type Made = Result<Run, BadFile>;

/// A buffer that is lent to the proved tool. Between two files all its bytes are the same one.
pub struct Buffer {
    bytes: Vec<u8>,
    byte: u8,
}

impl Default for Buffer {
    /// Of a byte that no text has
    fn default() -> Buffer {
        Buffer::of(0xA5)
    }
}

impl Buffer {
    pub fn of(byte: u8) -> Buffer {
        Buffer { bytes: vec![byte; MOST_WITH_NUMBERS], byte }
    }

    /// What the checker makes of a file; or, where the two don't tell the same, the first thing told differently: the listing, the state at
    /// the end, the numbers behind each yes, the verdict, number and place of the last answer, or the bytes past the text, which are to stay.
    /// A checker that panics is a difference too.
    pub fn compare(&mut self, file: &[u8]) -> Result<Made, String> {
        let compared = catch_unwind(AssertUnwindSafe(|| self.compare_made(file)));
        compared.unwrap_or_else(|_| Err("a panic".to_string()))
    }

    /// The same, and then of the file of the steps behind the trail at the end, where there is one: of it the two must tell the same, that every
    /// step is accepted, and that its trail and level are those of the first.
    pub fn compare_replayed(&mut self, file: &[u8]) -> Result<Made, String> {
        let made = self.compare(file)?;
        let Ok(end) = &made else { return Ok(made) };
        let Some(again) = replayed(&end.state) else { return Ok(made) };
        let told = self.compare(&write(&again).bytes);
        let run = told.map_err(|difference| format!("replayed: {difference}"))?;
        let run = run.map_err(|bad| format!("replayed: {bad:?}"))?;
        if run.tried.iter().any(|tried| tried.answer.is_err()) {
            return Err("replayed: a step is refused".to_string());
        }
        if (&run.state.trail, run.state.level) != (&end.state.trail, end.state.level) {
            return Err("replayed: another trail or level".to_string());
        }
        Ok(made)
    }

    fn compare_made(&mut self, file: &[u8]) -> Result<Made, String> {
        let made = run(file);
        let (listing, with_numbers, state) = match &made {
            Err(bad) => (bad_file(*bad), bad_file(*bad), String::new()),
            Ok(run) => (run.listing(), run.listing_with_numbers(), final_state(&run.state)),
        };
        let ends = (last_verdict(&made), last_answer(&made));
        let least = [MOST_LISTING, MOST_INSPECTION, MOST_WITH_NUMBERS];
        self.lend("listing", least[0], &listing, ends, |out| judge(file, out))?;
        let inspected = listing + &state;
        self.lend("listing and state", least[1], &inspected, ends, |out| inspect(file, out))?;
        let numbered = with_numbers + &state;
        self.lend("with numbers", least[2], &numbered, ends, |out| inspect_numbers(file, out))?;
        Ok(made)
    }

    /// A call that writes a text to the front of the least buffer it takes, and tells of it how it ends: the verdict, number and place
    fn lend(
        &mut self,
        name: &str,
        least: usize,
        expected: &str,
        ends: (Verdict, (u8, u64)),
        call: impl FnOnce(&mut [u8]) -> Result<Told, Short>,
    ) -> Result<(), String> {
        let (count, told_ends) = match call(&mut self.bytes[..least]) {
            Ok(told) => (told.text.len(), Some((told.verdict, (told.number, told.place)))),
            Err(Short) => (0, None),
        };
        let (text, rest) = self.bytes.split_at_mut(count);
        let told = if text != expected.as_bytes() {
            Err(format!("{name}, {}", first_apart(&String::from_utf8_lossy(text), expected)))
        } else if told_ends != Some(ends) {
            Err(format!("{name}, its end: {told_ends:?}, not {ends:?}"))
        } else if !is_all(rest, self.byte) {
            rest.fill(self.byte);
            Err(format!("{name}: bytes past the text are not as they were"))
        } else {
            Ok(())
        };
        text.fill(self.byte);
        told
    }
}

/// The first line in which two texts differ
fn first_apart(told: &str, expected: &str) -> String {
    let (mut told, mut expected) = (told.lines(), expected.lines());
    for number in 1.. {
        match (told.next(), expected.next()) {
            (None, None) => break,
            (one, other) if one == other => {}
            (one, other) => {
                let [one, other] = [one, other].map(|line| line.unwrap_or("no line"));
                return format!("line {number}: {one}, not {other}");
            }
        }
    }
    "the ends of lines".to_string()
}

/// Whether bytes are all the same one
fn is_all(bytes: &[u8], byte: u8) -> bool {
    let same = [byte; 4096];
    bytes.chunks(same.len()).all(|chunk| *chunk == same[..chunk.len()])
}

/// The checker's word for how a file ends
fn last_verdict(made: &Made) -> Verdict {
    match made.as_ref().map(Run::verdict) {
        Err(_) => Verdict::BadFile,
        Ok(listing::Verdict::Refuted) => Verdict::Refuted,
        Ok(listing::Verdict::Stopped) => Verdict::Stopped,
        Ok(listing::Verdict::Open) => Verdict::Open,
    }
}

/// Number and place of the answer to the last step tried, or of a bad file's refusal; 0 and 0 where nothing was refused.
fn last_answer(made: &Made) -> (u8, u64) {
    let refusal = match made {
        Err(bad) => Some(bad.refusal),
        Ok(run) => run.tried.last().and_then(|tried| tried.answer.err()),
    };
    refusal.map_or((0, 0), |refusal| (refusal.number, refusal.place as u64))
}

/// What files came to: how many, their steps, which answers each rule was given in each version, and how many of each rule's steps handed numbers
/// on.
#[derive(Default)]
pub struct Seen {
    pub files: usize,
    pub steps: usize,
    /// Of each version and rule the numbers it was answered by, 0 for accepted, as bits.
    answers: [[u32; RULE_NAMES.len()]; VERSIONS.len()],
    /// Of each rule the lines of numbers.
    numbers: [usize; RULE_NAMES.len()],
}

impl Seen {
    pub fn note(&mut self, made: &Made) {
        self.files += 1;
        let Ok(run) = made else { return };
        self.steps += run.tried.len();
        for tried in &run.tried {
            let rule = RULE_NAMES.iter().position(|name| *name == tried.rule_name);
            let rule = rule.expect("a rule's name");
            let number = tried.answer.map_or_else(|refusal| refusal.number, |_| 0);
            self.answers[run.state.version as usize - 1][rule] |= 1 << number;
            self.numbers[rule] += tried.numbers.is_some() as usize;
        }
    }

    /// What others came to besides
    pub fn add(&mut self, others: &Seen) {
        self.files += others.files;
        self.steps += others.steps;
        for rule in 0..RULE_NAMES.len() {
            for (ours, theirs) in self.answers.iter_mut().zip(&others.answers) {
                ours[rule] |= theirs[rule];
            }
            self.numbers[rule] += others.numbers[rule];
        }
    }

    /// Of each rule that has lines of numbers how many
    pub fn numbers(&self) -> Vec<(&'static str, usize)> {
        RULE_NAMES.into_iter().zip(self.numbers).filter(|(_, lines)| *lines > 0).collect()
    }

    fn has(&self, version: u16, rule: u8, answer: u8) -> bool {
        self.answers[version as usize - 1][rule as usize - 1] & 1 << answer != 0
    }

    /// How many pairs of rule and answer were seen in each version, of those that can be
    pub fn pairs(&self) -> String {
        let of_version = |version: u16| {
            let all = pairs_of(version).len();
            format!("{} of {all} in version {version}", all - self.unseen(version).len())
        };
        format!("pairs of rule and answer: {}", VERSIONS.map(of_version).join(", "))
    }

    /// The pairs that can be seen in a version and were not
    pub fn unseen(&self, version: u16) -> Vec<String> {
        let mut pairs = pairs_of(version);
        pairs.retain(|(rule, answer)| !self.has(version, *rule, *answer));
        let named =
            |(rule, answer): (u8, u8)| format!("{} {answer}", RULE_NAMES[rule as usize - 1]);
        pairs.into_iter().map(named).collect()
    }
}

/// The pairs of rule and answer that can be seen in a version
fn pairs_of(version: u16) -> Vec<(u8, u8)> {
    let rules = answers(version);
    let pairs = rules.iter().flat_map(|(rule, numbers)| numbers.iter().map(|&n| (*rule, n)));
    pairs.collect()
}
