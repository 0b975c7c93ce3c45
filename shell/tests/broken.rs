//! Texts that say no run file: those of broken.txt give the faults that stand there, and whatever a text or a table is changed to, a fault
//! tells of what stands at its place.

use checker::generate::generate_version;
use checker::random::Random;
use shell::text::{bytes, rows, text, Fault};
use std::thread;

/// A text of broken.txt and its fault
struct Broken {
    text: Vec<u8>,
    fault: &'static str,
}

/// What HEAD and HEAD2 stand for
const HEAD: &str = "drf 1\nconstants soda lime\npredicates Taken/2 1 0\n";
const HEAD2: &str = "drf 2\nconstants soda lime\npredicates Taken/2 1 0\n";

fn broken() -> Vec<Broken> {
    let (mut cases, mut text) = (Vec::new(), String::new());
    for line in include_str!("broken.txt").split_inclusive('\n') {
        if let Some(fault) = line.strip_prefix("! ") {
            let text = std::mem::take(&mut text).replace("HEAD\n", HEAD).replace("HEAD2\n", HEAD2);
            let text = unescaped(&text);
            cases.push(Broken { text, fault: fault.trim_end() });
        } else if !(line.starts_with('%') || text.is_empty() && line == "\n") {
            text.push_str(line);
        }
    }
    cases
}

/// The bytes that escapes stand for
fn unescaped(mut text: &str) -> Vec<u8> {
    let mut bytes = Vec::new();
    while let Some((before, escape)) = text.split_once('\\') {
        bytes.extend(before.bytes());
        text = one_unescaped(escape, &mut bytes);
    }
    bytes.extend(text.bytes());
    bytes
}

/// What is behind the escape that the text begins with
fn one_unescaped<'a>(text: &'a str, bytes: &mut Vec<u8>) -> &'a str {
    let code = |digits| u32::from_str_radix(digits, 16).expect("hexadecimal digits");
    let (kind, rest) = text.split_at(1);
    match kind {
        "\n" => {}
        "n" => bytes.push(b'\n'),
        "r" => bytes.push(b'\r'),
        "t" => bytes.push(b'\t'),
        "0" => bytes.push(0),
        "\\" => bytes.push(b'\\'),
        "x" => {
            bytes.push(code(&rest[..2]) as u8);
            return &rest[2..];
        }
        "u" => {
            let (digits, rest) = rest[1..].split_once('}').expect("a code in brackets");
            let character = char::from_u32(code(digits)).expect("a character's code");
            bytes.extend(character.to_string().bytes());
            return rest;
        }
        _ => panic!("no such escape: {kind}"),
    }
    rest
}

#[test]
fn broken_texts() {
    let cases = broken();
    for Broken { text, fault } in &cases {
        let shown = String::from_utf8_lossy(text);
        let found = bytes(text).expect_err(&shown);
        assert_eq!(found.to_string(), *fault, "{shown}");
        assert_eq!(misplaced(text, &found), None, "{fault}\n{shown}");
    }
    let mut texts: Vec<&[u8]> = cases.iter().map(|case| case.text.as_slice()).collect();
    texts.sort();
    texts.dedup();
    assert_eq!(texts.len(), cases.len(), "a text stands twice");
    assert!(texts.len() >= 200, "{} broken texts", texts.len());
    println!("{} broken texts", texts.len());
}

/// What is wrong with a fault's place, or with what it says to have found there
fn misplaced(text: &[u8], fault: &Fault) -> Option<String> {
    let text = String::from_utf8_lossy(text.strip_prefix(b"\xEF\xBB\xBF").unwrap_or(text));
    let Some(line) = text.split('\n').nth(fault.line.wrapping_sub(1)) else {
        return Some("no such line".to_string());
    };
    let Some(before) = fault.column.checked_sub(1).filter(|&n| n <= line.chars().count()) else {
        return Some("no such column".to_string());
    };
    let rest: String = line.chars().skip(before).collect();
    let last = line.chars().take(before).last();
    (!stands(&fault.found, &fault.expected, &rest, last)).then(|| format!("there stands: {rest}"))
}

/// Whether what was found stands at the start of the rest of its line, behind that character.
fn stands(found: &str, expected: &str, rest: &str, last: Option<char>) -> bool {
    let blank = rest.trim_start_matches([' ', '\t', '\r']);
    let shown = found.split_once("` (U+").or(found.split_once("` (`")).map_or(found, |(f, _)| f);
    let shown = shown.trim_matches('`').trim_end_matches("..");
    match found {
        "the end of the line" => {
            (blank.is_empty() || blank.starts_with('#')) && !matches!(last, Some(' ' | '\t'))
        }
        "the end of the text" => rest.is_empty(),
        "a backquote" => rest.starts_with('`'),
        "one more" => !blank.is_empty(),
        "a run file, which is bytes already" => rest.starts_with("DRF"),
        _ if found.starts_with("the byte 0x") => rest.starts_with(char::REPLACEMENT_CHARACTER),
        _ if expected.contains(" argument") && !expected.starts_with('`') => rest.starts_with('('),
        _ if shown.starts_with('\\') && shown.len() > 1 => {
            let first = rest.chars().next();
            first.is_some_and(|first| first.escape_debug().to_string() == shown)
        }
        // A sign may be parted from its number.
        _ if found.starts_with('-') => rest.starts_with('-'),
        _ => !shown.is_empty() && rest.starts_with(shown),
    }
}

const CHANGES: u64 = 100_000;
const WORKERS: u64 = 2;

/// What is put into texts: what tokens are made of, blanks and ends of lines, and what no text has outside of comments
const PUT: &str = "0123456789012345678901234567890123456789[](),-<=~+/#P_abz \t\n\r.;:!|\\`\"\u{FEFF}\u{2212}\u{2264}\u{AC}ö\0\u{1B}\u{A0}";

/// The texts of some generated files of either version, short ones
fn texts() -> Vec<String> {
    let files = (1..=600).map(|seed| generate_version(seed % 2 + 1, seed.into()));
    files.filter_map(|file| text(&file)).filter(|text| text.len() < 2_000).collect()
}

/// A text with one character changed, put in or taken away; at times one byte, so that it is no longer UTF-8.
fn changed(text: &str, random: &mut Random) -> Vec<u8> {
    let put: Vec<char> = PUT.chars().collect();
    let at = random.below(text.len());
    let (before, rest) = text.split_at(at);
    let put = random.pick(&put);
    let behind = &rest[1..];
    match random.below(10) {
        0 => [before.as_bytes(), &[0x80 | random.byte()], behind.as_bytes()].concat(),
        1..=3 => format!("{before}{behind}").into_bytes(),
        4..=6 => format!("{before}{put}{rest}").into_bytes(),
        _ => format!("{before}{put}{behind}").into_bytes(),
    }
}

/// How many changed texts say a file, and how many none
fn changes(seeds: std::ops::Range<u64>) -> (usize, usize) {
    let texts = texts();
    let (mut files, mut faults) = (0, 0);
    for seed in seeds {
        let random = &mut Random::new(seed);
        let changed = changed(&random.pick(&texts), random);
        let shown = String::from_utf8_lossy(&changed);
        match bytes(&changed) {
            Ok(file) => {
                let again = text(&file).map(|text| bytes(text.as_bytes()));
                assert!(again.is_none_or(|again| again == Ok(file)), "seed {seed}:\n{shown}");
                files += 1;
            }
            Err(fault) => {
                assert_eq!(misplaced(&changed, &fault), None, "seed {seed}: {fault}\n{shown}");
                faults += 1;
            }
        }
    }
    (files, faults)
}

#[test]
fn changed_texts() {
    let part = CHANGES / WORKERS;
    let workers: Vec<_> =
        (0..WORKERS).map(|k| thread::spawn(move || changes(k * part..(k + 1) * part))).collect();
    let mut sum = (0, 0);
    for worker in workers {
        let (files, faults) = worker.join().expect("nothing wrong");
        sum = (sum.0 + files, sum.1 + faults);
    }
    println!("of {CHANGES} changed texts {} say a file, {} have a fault", sum.0, sum.1);
    assert!(sum.0 > 10_000 && sum.1 > 10_000, "one kind is rare: {sum:?}");
}

/// A table of some rows, blanks and signs here and there
fn some_table(random: &mut Random) -> String {
    let number = |random: &mut Random| {
        let blank = random.pick(&["", "", " ", "\t "]);
        let sign = random.pick(&["", "", "-", "+"]);
        format!("{blank}{sign}{}{blank}", random.below(5_000))
    };
    let row = |random: &mut Random| format!("{},{}", number(random), number(random));
    let rows: Vec<String> = (0..random.below(4) + 1).map(|_| row(random)).collect();
    rows.join(&random.pick(&["\n", "\r\n"])) + &random.pick(&["", "\n", "\r\n\r\n"])
}

#[test]
fn changed_tables() {
    let (mut tables, mut faults) = (0, 0);
    for seed in 0..CHANGES {
        let random = &mut Random::new(seed);
        let changed = changed(&some_table(random), random);
        let shown = String::from_utf8_lossy(&changed);
        match rows(&changed) {
            Ok(found) => {
                let again: String =
                    found.iter().map(|row| format!("{},{}\n", row.key, row.result)).collect();
                assert_eq!(rows(again.as_bytes()), Ok(found), "seed {seed}:\n{shown}");
                tables += 1;
            }
            Err(fault) => {
                assert_eq!(misplaced(&changed, &fault), None, "seed {seed}: {fault}\n{shown}");
                faults += 1;
            }
        }
    }
    println!("of {CHANGES} changed tables {tables} have rows, {faults} a fault");
    assert!(tables > 10_000 && faults > 10_000, "one kind is rare: {tables} {faults}");
}
