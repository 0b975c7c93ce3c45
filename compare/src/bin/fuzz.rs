//! The parts of `compare/fuzz` that are not AFL++'s.
//!
//! usage: fuzz seeds DIR       writes the files to begin with to DIR
//!        fuzz corpus DIR      prints which pairs of rule and answer the files of DIR come to
//!        fuzz alone SECONDS   changes files at random and keeps those to go on from that the checker counts something new of

use checker::coverage::Coverage;
use checker::file::VERSIONS;
use checker::generate::generate_version;
use checker::listing::run;
use checker::random::Random;
use compare::beside::{Buffer, Seen};
use compare::mutate::mutated;
use compare::watch::{keep, name, watched, Hand};
use std::fs;
use std::io;
use std::path::Path;
use std::process::ExitCode;
use std::time::{Duration, Instant, SystemTime, UNIX_EPOCH};

const EXAMPLES: &str = concat!(env!("CARGO_MANIFEST_DIR"), "/../examples");
/// Of so many generated files of each version, at most, those are taken that are no longer than that and come to a pair of rule and answer that
/// none before of that version came to.
const GENERATED: u64 = 4_000;
const LENGTH: usize = 1_500;
const PAUSE: Duration = Duration::from_secs(10);

fn main() -> io::Result<ExitCode> {
    let words: Vec<String> = std::env::args().skip(1).collect();
    let words: Vec<&str> = words.iter().map(String::as_str).collect();
    match words[..] {
        ["seeds", folder] => write_seeds(Path::new(folder)),
        ["corpus", folder] => print_pairs(Path::new(folder)),
        ["alone", seconds] => match seconds.parse() {
            Ok(seconds) => watched("fuzz", || alone(Duration::from_secs(seconds))),
            Err(_) => usage(),
        },
        _ => usage(),
    }
}

fn usage() -> io::Result<ExitCode> {
    eprintln!("usage: fuzz seeds DIR | fuzz corpus DIR | fuzz alone SECONDS");
    Ok(ExitCode::from(2))
}

/// The files to begin with, each with a name
fn seeds() -> io::Result<Vec<(String, Vec<u8>)>> {
    let mut seeds = Vec::new();
    for entry in fs::read_dir(EXAMPLES)? {
        let entry = entry?;
        let name = entry.file_name().to_string_lossy().into_owned();
        // Beside each run file stands its text.
        if name.ends_with(".drf") {
            seeds.push((name, fs::read(entry.path())?));
        }
    }
    for version in VERSIONS {
        let mut seen = Seen::default();
        for seed in 1..=GENERATED {
            let unseen = seen.unseen(version).len();
            if unseen == 0 {
                break;
            }
            let file = generate_version(version, seed);
            if file.len() <= LENGTH {
                seen.note(&run(&file));
                if seen.unseen(version).len() < unseen {
                    seeds.push((format!("{seed}-{version}.drf"), file));
                }
            }
        }
    }
    Ok(seeds)
}

fn write_seeds(folder: &Path) -> io::Result<ExitCode> {
    fs::create_dir_all(folder)?;
    for (name, file) in seeds()? {
        fs::write(folder.join(name), file)?;
    }
    Ok(ExitCode::SUCCESS)
}

fn print_seen(seen: &Seen) {
    println!("fuzz: {}", seen.pairs());
    let unseen: Vec<String> = VERSIONS
        .iter()
        .flat_map(|&version| {
            seen.unseen(version).into_iter().map(move |pair| format!("version {version} {pair}"))
        })
        .collect();
    if !unseen.is_empty() {
        println!("fuzz: not reached: {}", unseen.join(", "));
    }
}

fn print_pairs(folder: &Path) -> io::Result<ExitCode> {
    let mut seen = Seen::default();
    for entry in fs::read_dir(folder)? {
        let path = entry?.path();
        if path.is_file() {
            seen.note(&run(&fs::read(path)?));
        }
    }
    print_seen(&seen);
    Ok(ExitCode::SUCCESS)
}

fn alone(time: Duration) -> io::Result<ExitCode> {
    let number = SystemTime::now().duration_since(UNIX_EPOCH).map_or(0, |d| d.as_nanos() as u64);
    println!("fuzz: random numbers from {number}");
    let mut random = Random::new(number);
    let (hand, mut buffer) = (Hand::of(0)?, Buffer::default());
    // What files of version 1 can come to those of version 2 can too.
    let (mut seen, mut coverage) = (Seen::default(), Coverage::of(2));
    let mut corpus: Vec<Vec<u8>> = seeds()?.into_iter().map(|(_, file)| file).collect();
    corpus.iter().for_each(|file| coverage.run(file));
    let (start, mut told) = (Instant::now(), PAUSE);
    while start.elapsed() < time {
        let [one, other] = [0; 2].map(|_| pick(&mut random, &corpus));
        let file = mutated(&mut random, &corpus[one], &corpus[other]);
        hand.take(&file)?;
        match buffer.compare(&file) {
            Ok(made) => seen.note(&made),
            Err(difference) => {
                println!("fuzz: {difference}");
                keep(&name("fuzz", &file), &file)?;
                return Ok(ExitCode::FAILURE);
            }
        }
        let kinds = coverage.kinds();
        coverage.run(&file);
        if coverage.kinds() > kinds {
            corpus.push(file);
        }
        if start.elapsed() >= told.min(time) {
            told += PAUSE;
            let rate = seen.files as f64 / start.elapsed().as_secs_f64();
            println!("fuzz: {} runs, {rate:.0} runs/s, {} files", seen.files, corpus.len());
        }
    }
    print_seen(&seen);
    Ok(ExitCode::SUCCESS)
}

/// A file to go on from, every other time a late one
fn pick(random: &mut Random, corpus: &[Vec<u8>]) -> usize {
    let late = corpus.len().saturating_sub(16);
    let first = if random.percent(50) { late } else { 0 };
    random.within(first..=corpus.len() - 1)
}
