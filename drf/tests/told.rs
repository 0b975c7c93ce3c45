//! What is told of run files: verdict, number and place, and what the buffer holds afterwards.

use drf::{inspect, inspect_numbers, judge, refusal, Short, Told, Verdict};
use drf::{MOST_FILE, MOST_INSPECTION, MOST_LISTING, MOST_READ, MOST_WITH_NUMBERS, STACK};
use std::fs;
use std::path::PathBuf;
use std::thread::Builder;

/// A byte that no text has
const BLANK: u8 = 0xA5;

/// The paper's example up to the number of its steps
const BEFORE_STEPS: usize = 33;

fn folder() -> PathBuf {
    PathBuf::from(concat!(env!("CARGO_MANIFEST_DIR"), "/../examples"))
}

fn example(name: &str) -> Vec<u8> {
    let path = folder().join(name);
    fs::read(&path).unwrap_or_else(|fault| panic!("{}: {fault}", path.display()))
}

/// Every example with its name
fn examples() -> Vec<(String, Vec<u8>)> {
    let names =
        fs::read_dir(folder()).expect("examples/").map(|entry| entry.expect("a name").path());
    let files: Vec<_> = names
        .filter(|path| path.extension().is_some_and(|kind| kind == "drf"))
        .map(|path| (path.display().to_string(), fs::read(path).expect("an example")))
        .collect();
    assert!(files.len() >= 3, "{} examples", files.len());
    files
}

/// The clauses of the paper's example with other steps
fn with_steps(steps: &[&[u8]]) -> Vec<u8> {
    let mut file = example("first.drf");
    file.truncate(BEFORE_STEPS);
    file.extend((steps.len() as u16).to_le_bytes());
    file.extend(steps.concat());
    file
}

fn in_version(version: u8, file: &[u8]) -> Vec<u8> {
    let mut file = file.to_vec();
    file[3] = version;
    file
}

/// P(x), and ~P(x) or ~Q(x), with the steps given
fn two_literals(steps: &[&[u8]]) -> Vec<u8> {
    let mut file = b"DRF\x01\x00".to_vec();
    let predicates = [2, 1, 1];
    let clauses = [2, 1, 0, 1, 1, 1, 1, 1, 0, 2, 0, 1, 1, 0, 2, 1];
    file.push(1);
    file.extend(predicates);
    file.extend(clauses);
    file.extend((steps.len() as u16).to_le_bytes());
    file.extend(steps.concat());
    file
}

const PROPAGATE: &[u8] = &[1, 1, 1, 1, 1];
const CONFLICT: &[u8] = &[3, 2, 1, 1];
const RESOLVE: &[u8] = &[4, 1];
const SKIP: &[u8] = &[6];

type Ends = (Verdict, u8, u64);

/// What all three functions tell alike: the listing and how it ends. What inspect writes begins with the listing, and what inspect_numbers writes
/// is the same but for the lines of numbers, which stand beneath the steps that hand them on.
fn alike(file: &[u8]) -> (String, Ends) {
    let (mut out, mut more) = (vec![BLANK; MOST_LISTING], vec![BLANK; MOST_INSPECTION]);
    let mut most = vec![BLANK; MOST_WITH_NUMBERS];
    let listed = judge(file, &mut out).expect("room for a listing");
    let shown = inspect(file, &mut more).expect("room for an inspection");
    let numbered = inspect_numbers(file, &mut most).expect("room for numbers");
    let ends = |told: Told| (told.verdict, told.number, told.place);
    assert_eq!(ends(shown), ends(listed));
    assert_eq!(ends(numbered), ends(listed));
    assert!(shown.text.starts_with(listed.text));
    assert_eq!(unnumbered(numbered.text), shown.text);
    let text = String::from_utf8(listed.text.to_vec()).expect("a text");
    let ends = ends(listed);
    assert!(out[text.len()..].iter().all(|&byte| byte == BLANK), "bytes past the listing stay");
    (text, ends)
}

/// Whether a line is that of an accepted step of a rule that asks what is possible
fn hands_on(line: &str) -> bool {
    match line.split(' ').collect::<Vec<_>>()[..] {
        [_, "propagate" | "decide" | "conflict" | "backtrack", word, _] => word != "refused",
        _ => false,
    }
}

/// A text without its lines of numbers, of which one stands beneath each step that hands numbers on and none elsewhere
fn unnumbered(text: &[u8]) -> Vec<u8> {
    let text = std::str::from_utf8(text).expect("a text");
    let mut left = String::new();
    let mut due = false;
    for line in text.lines() {
        assert_eq!(line.split(' ').next() == Some("numbers"), due, "{text}");
        due = hands_on(line);
        if !line.starts_with("numbers") {
            left += line;
            left += "\n";
        }
    }
    left.into_bytes()
}

#[test]
fn known_examples() {
    let ends = |name: &str| alike(&example(name)).1;
    assert_eq!(ends("first.drf"), (Verdict::Refuted, 0, 0));
    assert_eq!(ends("exact.drf"), (Verdict::Refuted, 0, 0));
    assert_eq!(ends("approximate.drf"), (Verdict::Stopped, refusal::NOT_POSSIBLE, 0));
}

/// The listing of a file that is not bad ends with the verdict's word, and the longer texts have the same verdict.
#[test]
fn verdicts_of_all_examples() {
    for (name, file) in examples() {
        let (text, (verdict, ..)) = alike(&file);
        assert_ne!(verdict, Verdict::BadFile, "{name}");
        assert_eq!(text.lines().last(), Some(verdict.to_string().as_str()), "{name}");
    }
}

#[test]
fn open() {
    assert_eq!(alike(&with_steps(&[])), ("open\n".to_string(), (Verdict::Open, 0, 0)));
    let (text, ends) = alike(&with_steps(&[PROPAGATE]));
    assert_eq!((text.as_str(), ends), ("1 propagate 2 0\nopen\n", (Verdict::Open, 0, 0)));
}

/// Refusal 12 names the literal.
#[test]
fn refused_step() {
    let (text, ends) = alike(&two_literals(&[PROPAGATE, CONFLICT]));
    assert_eq!(text, "1 propagate 1 0\n2 conflict refused 12\nstopped\n");
    assert_eq!(ends, (Verdict::Stopped, refusal::NOT_FALSE, 2));
    let (_, ends) = alike(&two_literals(&[CONFLICT]));
    assert_eq!(ends, (Verdict::Stopped, refusal::NOT_FALSE, 1));
}

/// A run that is refuted stays so where a later step is refused.
#[test]
fn refuted_and_refused() {
    let steps = [PROPAGATE, CONFLICT, SKIP, RESOLVE, SKIP, SKIP];
    let (text, ends) = alike(&with_steps(&steps));
    assert!(text.ends_with("6 skip refused 14\nrefuted\n"), "{text}");
    assert_eq!(ends, (Verdict::Refuted, refusal::NO_ENTRY, 0));
}

#[test]
fn bad_files() {
    let first = example("first.drf");
    let longer = [&first[..], &[0]].concat();
    let [none, later] = [0, 3].map(|version| in_version(version, &first));
    for (file, number, place) in [
        (&first[..0], refusal::ENDS_INSIDE, 0),
        (&first[..46], refusal::ENDS_INSIDE, 46),
        (&longer[..], refusal::SURPLUS, 47),
        (&none[..], refusal::WRONG_MARK, 3),
        (&later[..], refusal::WRONG_MARK, 3),
    ] {
        let text = format!("bad file {number} {place}\n");
        assert_eq!(alike(file), (text, (Verdict::BadFile, number, place)));
    }
}

/// Without decisions the two versions say the same.
#[test]
fn versions() {
    let first = example("first.drf");
    assert_eq!(alike(&in_version(2, &first)), alike(&first));
}

/// What is too long is refused as that, whatever is in it; what is not is judged.
#[test]
fn bytes_that_are_not_read() {
    let file = [example("first.drf"), vec![0; 2 * MOST_READ]].concat();
    let bad =
        |number, place| (format!("bad file {number} {place}\n"), (Verdict::BadFile, number, place));
    let too_long = bad(refusal::TOO_LONG, MOST_FILE as u64);
    assert_eq!(alike(&file[..MOST_FILE]), bad(refusal::SURPLUS, 47));
    assert_eq!(alike(&file[..MOST_READ]), too_long);
    assert_eq!(alike(&file), too_long);
    assert_eq!(alike(&[0; MOST_READ]), too_long);
}

/// One constant, the clause x <= 1,000,000 || P, and a decision of P that brings the clause's atom with this sign
fn bringing(sign: u8) -> Vec<u8> {
    let head = [b"DRF\x02\x00", &[1, 1, 0, 1, 1, 1, 1, 1, 0][..]].concat();
    let decide = [2, 1, 1, 1, 1, 1, 1, 1, 1, sign, 1, 1];
    [&head[..], &1_000_000_i32.to_le_bytes(), &[1, 1, 1, 0], &decide].concat()
}

/// The atom follows the decision with its source; denied it is 0 - x <= -1,000,001. Another sign is refused where it stands.
#[test]
fn decisions_that_bring() {
    for (sign, atom, number) in [(1, "1-0<=1000000", 0), (0, "0-1<=-1000001", 1_000_001)] {
        let mut out = vec![0; MOST_WITH_NUMBERS];
        let told = inspect_numbers(&bringing(sign), &mut out).expect("room for numbers");
        let text = String::from_utf8_lossy(told.text);
        let lines: Vec<&str> = text.lines().collect();
        let first = ["1 decide 2 1", &format!("numbers {number}"), "open", "constants 1 level 1"];
        let brought = format!("trail 2 {atom} brought 1 1 {sign} (1)");
        assert_eq!(lines[..4], first, "{text}");
        assert_eq!(lines[4..6], ["trail 1 P1() decide 1 1 (1)", &brought], "{text}");
    }
    let place = bringing(0).len() as u64 - 3;
    assert_eq!(alike(&bringing(2)).1, (Verdict::BadFile, refusal::OUT_OF_RANGE, place));
}

/// The lines of numbers of a file
fn numbers(file: &[u8]) -> Vec<String> {
    let mut out = vec![0; MOST_WITH_NUMBERS];
    let text = inspect_numbers(file, &mut out).expect("room").text;
    let text = String::from_utf8_lossy(text);
    text.lines().filter(|line| line.starts_with("numbers")).map(str::to_string).collect()
}

/// The largest choice in which nothing exceeds 0, less the number of zero
#[test]
fn known_numbers() {
    assert_eq!(numbers(&example("first.drf")), ["numbers 0", "numbers 3"]);
    assert_eq!(numbers(&example("exact.drf")), ["numbers 4100 4120", "numbers 4100 4120"]);
    assert_eq!(numbers(&example("approximate.drf")), ["numbers 4100 4120"]);
    assert_eq!(numbers(&example("lookup.drf")), ["numbers 4100 4101", "numbers 4100 4120"]);
}

/// A clause of no literal, with the atom p - q <= c on its one variable, in conflict at the last of so many constants
fn conflict_at_last(constants: u8, p: u8, q: u8, c: i32) -> Vec<u8> {
    let head = [b"DRF\x01\x00", &[constants, 0, 1, 1, 1, 0, p, q][..]].concat();
    [&head[..], &c.to_le_bytes(), &[1, 0, 3, 1, 1, constants]].concat()
}

/// As many as there are constants, the last of them at most 0 where nothing asks for more; down to none, and up to the largest.
#[test]
fn numbers_at_the_limits() {
    const MOST: i32 = 1_000_000;
    for constants in 1..=16 {
        for (p, q, c, last) in
            [(1, 0, 0, 0), (1, 0, MOST, 0), (1, 0, -MOST, -MOST), (0, 1, -MOST, MOST)]
        {
            let each = (last - constants + 1..=last).map(|number| format!(" {number}"));
            let line = format!("numbers{}", each.collect::<String>());
            assert_eq!(numbers(&conflict_at_last(constants as u8, p, q, c)), [line]);
        }
    }
    let none = b"DRF\x01\x00\x00\x00\x01\x00\x00\x00\x01\x00\x03\x01\x00";
    assert_eq!(alike(none).1, (Verdict::Refuted, 0, 0));
    assert_eq!(numbers(none), ["numbers"]);
}

/// One byte less than the constant is refused and stays as it was; the constant itself is enough.
#[test]
fn short_buffers() {
    let file = example("first.drf");
    let mut out = vec![BLANK; MOST_WITH_NUMBERS];
    assert_eq!(judge(&file, &mut out[..MOST_LISTING - 1]), Err(Short));
    assert_eq!(inspect(&file, &mut out[..MOST_INSPECTION - 1]), Err(Short));
    assert_eq!(inspect_numbers(&file, &mut out[..MOST_WITH_NUMBERS - 1]), Err(Short));
    assert_eq!(judge(&file, &mut []), Err(Short));
    assert!(out.iter().all(|&byte| byte == BLANK));
    assert!(judge(&file, &mut out[..MOST_LISTING]).is_ok());
    assert!(inspect(&file, &mut out[..MOST_INSPECTION]).is_ok());
    assert!(inspect_numbers(&file, &mut out).is_ok());
}

#[test]
fn bytes_past_the_text_stay() {
    let file = example("exact.drf");
    for told in [inspect, inspect_numbers] {
        let mut out = vec![BLANK; MOST_WITH_NUMBERS + 1];
        let count = told(&file, &mut out).expect("room").text.len();
        assert!(out[..count].iter().all(|&byte| byte != BLANK));
        assert!(out[count..].iter().all(|&byte| byte == BLANK));
    }
}

/// A thread with `STACK` bytes of stack lives.
#[test]
fn stack() {
    let work = || {
        for (_, file) in examples() {
            let mut out = vec![0; MOST_WITH_NUMBERS];
            assert!(judge(&file, &mut out).is_ok() && inspect(&file, &mut out).is_ok());
            assert!(inspect_numbers(&file, &mut out).is_ok());
        }
    };
    let thread = Builder::new().stack_size(STACK).spawn(work).expect("a thread");
    thread.join().expect("a thread that lives");
}
