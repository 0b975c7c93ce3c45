//! Generated files of each version through the proved tool and the independent checker, up to a number of seeds or without end.
//!
//! usage: soak THREADS SEED [FILES]

use checker::file::VERSIONS;
use checker::generate::generate_version;
use compare::beside::{Buffer, Seen};
use compare::watch::{keep, keep_hands, watched, Hand};
use std::io;
use std::process::ExitCode;
use std::sync::atomic::{AtomicBool, AtomicU64, Ordering::Relaxed};
use std::sync::Mutex;
use std::thread;
use std::time::{Duration, Instant};

/// Between two lines of progress
const PAUSE: Duration = Duration::from_secs(10);
const TICK: Duration = Duration::from_millis(100);
/// So many pauses without a file that comes to its end are a finding.
const PATIENCE: usize = 12;

struct Soak {
    start: Instant,
    /// The next seed, and the one after the last.
    next: AtomicU64,
    end: u64,
    seen: Mutex<Seen>,
    /// What was found is told once, by the first to find something.
    found: AtomicBool,
    /// Workers that have come to their end
    ended: AtomicU64,
}

fn main() -> io::Result<ExitCode> {
    let words: Vec<String> = std::env::args().skip(1).collect();
    let numbers: Option<Vec<u64>> = words.iter().map(|word| word.parse().ok()).collect();
    let (threads, seed, files) = match numbers.as_deref() {
        Some([threads, seed]) => (*threads, *seed, u64::MAX - seed),
        Some([threads, seed, files]) => (*threads, *seed, *files),
        _ => return usage(),
    };
    match seed.checked_add(files) {
        Some(end) if threads > 0 && files > 0 => watched("soak", || soak(threads, seed, end)),
        _ => usage(),
    }
}

fn usage() -> io::Result<ExitCode> {
    eprintln!("usage: soak THREADS SEED [FILES]");
    Ok(ExitCode::from(2))
}

fn soak(threads: u64, seed: u64, end: u64) -> io::Result<ExitCode> {
    let soak = Soak {
        start: Instant::now(),
        next: AtomicU64::new(seed),
        end,
        seen: Mutex::default(),
        found: AtomicBool::new(false),
        ended: AtomicU64::new(0),
    };
    thread::scope(|scope| {
        let soak = &soak;
        let workers: Vec<_> = (0..threads)
            .map(|k| {
                scope.spawn(move || {
                    let done = soak.work(k as usize);
                    soak.ended.fetch_add(1, Relaxed);
                    done
                })
            })
            .collect();
        soak.watch(threads)?;
        workers.into_iter().try_for_each(|worker| worker.join().expect("a worker ends"))
    })?;
    if soak.found.load(Relaxed) {
        return Ok(ExitCode::FAILURE);
    }
    println!("{}", soak.progress());
    println!("soak: no difference, seeds {seed} to {}", end - 1);
    Ok(ExitCode::SUCCESS)
}

impl Soak {
    /// Files one after the other, until there are no more or something is found
    fn work(&self, k: usize) -> io::Result<()> {
        let hand = Hand::of(k)?;
        let mut buffer = Buffer::default();
        while !self.found.load(Relaxed) {
            let seed = self.next.fetch_add(1, Relaxed);
            if seed >= self.end {
                break;
            }
            for version in VERSIONS {
                let file = generate_version(version, seed);
                hand.take(&file)?;
                match buffer.compare_replayed(&file) {
                    Ok(made) => self.seen.lock().expect("whole").note(&made),
                    Err(difference) if !self.found.swap(true, Relaxed) => {
                        println!("soak: version {version}, seed {seed}: {difference}");
                        keep(&format!("soak-{seed}-{version}"), &file)?;
                    }
                    Err(_) => {}
                }
            }
        }
        Ok(())
    }

    /// A line of progress every so often, until all workers have come to their end
    fn watch(&self, threads: u64) -> io::Result<()> {
        let (mut ticks, mut files, mut still) = (0, 0, 0);
        while self.ended.load(Relaxed) < threads {
            thread::sleep(TICK);
            ticks += 1;
            if ticks * TICK < PAUSE {
                continue;
            }
            ticks = 0;
            println!("{}", self.progress());
            let now = self.seen.lock().expect("whole").files;
            still = if now == files { still + 1 } else { 0 };
            files = now;
            if still == PATIENCE {
                println!("soak: a file does not come to its end");
                keep_hands("soak")?;
                std::process::exit(1);
            }
        }
        Ok(())
    }

    fn progress(&self) -> String {
        let seen = self.seen.lock().expect("whole");
        let rate = seen.files as f64 / self.start.elapsed().as_secs_f64();
        let (files, steps, pairs) = (seen.files, seen.steps, seen.pairs());
        let numbers: usize = seen.numbers().iter().map(|(_, lines)| lines).sum();
        format!("soak: {files} files, {steps} steps tried, {numbers} lines of numbers, {pairs}, {rate:.0} files/s")
    }
}
