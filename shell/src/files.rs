//! A command on its files: side by side, and printed in the order given.

use crate::arguments::Job;
use crate::commands::{Failed, Outcome, Printed};
use crate::filenames::on_one_line;
use crate::status::Status;
use crate::streams::{tell, Output, Source};
use std::io;
use std::sync::atomic::{AtomicUsize, Ordering};
use std::sync::OnceLock;
use std::thread::{self, Builder};

/// Of so many files at a time what comes of them is held before it is printed, so that memory is bounded.
pub const ROUND: usize = 256;

/// The bytes of a thread's stack: more than the proved core needs.
const THREAD_STACK: usize = 1 << 20;

/// A fault of standard output ends it; what could not be read is told of in its turn.
pub fn run(job: &Job, output: &mut Output) -> io::Result<Status> {
    let several = job.sources.len() > 1;
    let mut statuses = Vec::new();
    for round in job.sources.chunks(ROUND) {
        for (source, outcome) in round.iter().zip(outcomes(job, round)) {
            statuses.push(print(source, several, outcome, output)?);
        }
    }
    if several {
        tell(&summary(&statuses));
    }
    Ok(statuses.into_iter().fold(Status::Done, Status::and))
}

/// What comes of each file, in their order.
fn outcomes(job: &Job, round: &[Source]) -> Vec<Outcome> {
    let slots: Vec<OnceLock<Outcome>> = round.iter().map(|_| OnceLock::new()).collect();
    let next = AtomicUsize::new(0);
    side_by_side(job.threads.min(round.len()), THREAD_STACK, || loop {
        let index = next.fetch_add(1, Ordering::Relaxed);
        let Some(source) = round.get(index) else { break };
        slots[index].get_or_init(|| (job.work)(source));
    });
    slots.into_iter().map(|slot| slot.into_inner().expect("every file was taken")).collect()
}

/// Works on so many threads with such a stack, or on as many as can be started; on this one if none can.
fn side_by_side(threads: usize, stack: usize, work: impl Fn() + Sync) {
    thread::scope(|scope| {
        let start = || Builder::new().stack_size(stack).spawn_scoped(scope, &work);
        let started = (0..threads).take_while(|_| start().is_ok()).count();
        if started == 0 {
            work();
        }
    });
}

/// A file's name in front of what is printed of it, where there are several
fn print(
    source: &Source,
    several: bool,
    outcome: Outcome,
    output: &mut Output,
) -> io::Result<Status> {
    match outcome {
        Ok(Printed { status, bytes }) => {
            let title = format!("file {}\n", on_one_line(source.word()));
            let title = if several { title.as_bytes() } else { &[] };
            output.write(&[title, &bytes].concat())?;
            Ok(status)
        }
        Err(Failed { status, reason }) => {
            tell(&format!("drf: {source}: {reason}"));
            Ok(status)
        }
    }
}

fn summary(statuses: &[Status]) -> String {
    let count = |status| statuses.iter().filter(|other| **other == status).count();
    format!(
        "drf: {} files: {} refuted, {} open, {} stopped, {} bad, {} not read",
        statuses.len(),
        count(Status::Done),
        count(Status::Open),
        count(Status::Stopped),
        count(Status::Bad),
        count(Status::Stream)
    )
}

#[cfg(test)]
mod tests {
    use super::*;

    #[test]
    fn a_thread_that_cant_be_started_is_done_without() {
        const TOO_MUCH: usize = 1 << 60;
        for (threads, stack, works) in [(3, THREAD_STACK, 3), (3, TOO_MUCH, 1)] {
            let count = AtomicUsize::new(0);
            side_by_side(threads, stack, || {
                count.fetch_add(1, Ordering::Relaxed);
            });
            assert_eq!(count.into_inner(), works);
        }
    }
}
