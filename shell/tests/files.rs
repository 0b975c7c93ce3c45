//! Good uses: what is printed is what the proved core wrote, of one file and of several, and the status is the verdict's.

mod common;

use checker::generate::generate_version;
use common::{first, open, stopped, Ended, Folder, FIRST, ROOT};
use drf::{inspect, inspect_numbers, judge, Verdict, MOST_WITH_NUMBERS};
use std::fs;
use std::process::Command;

/// More than are held at a time
const GENERATED: u64 = 300;

/// The commands that tell of a file, with their options
const TELLING: [&[&str]; 3] = [&["judge"], &["inspect"], &["inspect", "--numbers"]];

/// What must be printed of a file, and the status
fn told(command: &[&str], file: &[u8]) -> (String, i32) {
    let mut buffer = vec![0; MOST_WITH_NUMBERS];
    let core = match command {
        ["judge"] => judge,
        ["inspect"] => inspect,
        _ => inspect_numbers,
    };
    let told = core(file, &mut buffer).expect("the buffer is long enough");
    let status = match told.verdict {
        Verdict::Refuted => 0,
        Verdict::Open => 10,
        Verdict::Stopped => 20,
        Verdict::BadFile => 30,
    };
    (String::from_utf8_lossy(told.text).into_owned(), status)
}

fn drf(folder: &Folder, words: &[&str]) -> Ended {
    common::ended(Command::new(env!("CARGO_BIN_EXE_drf")).current_dir(&folder.0).args(words))
}

/// The examples, and generated files of either version, by their names.
fn files(folder: &Folder) -> Vec<(String, Vec<u8>)> {
    let examples = fs::read_dir(format!("{ROOT}/examples")).expect("the folder of the examples");
    let mut files: Vec<_> = examples
        .map(|entry| entry.expect("an entry").path())
        .filter(|path| path.extension().is_some_and(|end| end == "drf"))
        .map(|path| (path.display().to_string(), fs::read(&path).expect("an example")))
        .collect();
    assert!(files.len() >= 3);
    let generated = |seed| generate_version(1 + (seed % 2) as u16, seed);
    files.extend((1..=GENERATED).map(|seed| (format!("{seed}.drf"), generated(seed))));
    for (name, file) in &files[files.len() - GENERATED as usize..] {
        folder.put(name, file);
    }
    files
}

#[test]
fn each_verdict_has_its_status() {
    let folder = Folder::new("statuses");
    let bad = [&first()[..], b"!"].concat();
    for (file, status, output) in [
        (first(), 0, FIRST),
        (open(), 10, "open\n"),
        (stopped(), 20, "1 propagate 2 0\n2 conflict 2 0\n3 conflict refused 9\nstopped\n"),
        (bad, 30, "bad file 8 47\n"),
    ] {
        folder.put("file", file);
        let expected = Ended { status: Some(status), out: output.to_string(), err: String::new() };
        assert_eq!(drf(&folder, &["judge", "file"]), expected);
    }
}

#[test]
fn one_file_is_the_proved_buffer() {
    let folder = Folder::new("one");
    for (name, file) in files(&folder) {
        for command in TELLING {
            let (text, status) = told(command, &file);
            let expected = Ended { status: Some(status), out: text, err: String::new() };
            assert_eq!(drf(&folder, &[command, &[&name]].concat()), expected, "{command:?} {name}");
        }
    }
}

#[test]
fn several_files_in_their_order() {
    let folder = Folder::new("several");
    let files = files(&folder);
    for command in TELLING {
        let told: Vec<_> = files.iter().map(|(_, file)| told(command, file)).collect();
        let parts =
            files.iter().zip(&told).map(|((name, _), (text, _))| format!("file {name}\n{text}"));
        let out: String = parts.collect();
        let count = |status| told.iter().filter(|(_, other)| *other == status).count();
        let err = format!(
            "drf: {} files: {} refuted, {} open, {} stopped, {} bad, 0 not read\n",
            files.len(),
            count(0),
            count(10),
            count(20),
            count(30)
        );
        let expected = Ended { status: Some(30), out, err };
        assert!([0, 10, 20, 30].into_iter().all(|status| count(status) > 0), "{expected:?}");
        for threads in ["1", "2", "8", "256"] {
            let mut words = [command, &["-j", threads]].concat();
            words.extend(files.iter().map(|(name, _)| name.as_str()));
            assert!(drf(&folder, &words) == expected, "{command:?} -j {threads}");
        }
    }
}

/// Options may stand anywhere, and `-` among files is standard input.
#[test]
fn words_in_any_order() {
    let folder = Folder::new("words");
    folder.put("first.drf", first());
    folder.put("-j", open());
    for script in [
        "drf judge first.drf",
        "drf -j 3 judge first.drf",
        "drf judge -j3 first.drf",
        "drf judge first.drf -j 3",
        "drf -j 1 judge -j 2 -- first.drf",
        "drf -- judge first.drf",
        "drf judge - <first.drf",
        "cat first.drf | drf judge -- -",
    ] {
        let ended = folder.run(script);
        assert_eq!((ended.status, ended.out.as_str()), (Some(0), FIRST), "{script}");
    }
    let ended = folder.run("drf judge -j 2 -- -j - <first.drf");
    assert_eq!(ended.out, format!("file -j\nopen\nfile -\n{FIRST}"));
    assert_eq!(ended.status, Some(10));
}

#[test]
fn help_and_version() {
    let folder = Folder::new("help");
    let help = include_str!("../src/help.txt");
    for words in [&["--help"][..], &["-h"], &["judge", "--help"], &["-j", "2", "-h", "--frob"]] {
        let expected = Ended { status: Some(0), out: help.to_string(), err: String::new() };
        assert_eq!(drf(&folder, words), expected, "{words:?}");
    }
    let kit = fs::read_to_string(format!("{ROOT}/KIT")).expect("the kit's id");
    let ended = drf(&folder, &["--version"]);
    let (first, second) = ended.out.split_once('\n').expect("two lines");
    let commit = first.strip_prefix("drf ").expect("the commit");
    assert!(commit.starts_with(&described()), "{commit}");
    assert_eq!((second, ended.status), (format!("kit {kit}").as_str(), Some(0)));
}

/// The commit, without its dirt; "unknown" where git does not tell it.
fn described() -> String {
    let words = ["-C", ROOT, "describe", "--always", "--abbrev=12"];
    let told = std::process::Command::new("git").args(words).output();
    match told {
        Ok(told) if told.status.success() => {
            String::from_utf8_lossy(&told.stdout).trim().to_string()
        }
        _ => "unknown".to_string(),
    }
}

/// The text form of every file that is not bad goes back to its bytes.
#[test]
fn text_and_back() {
    let folder = Folder::new("text");
    for (name, file) in files(&folder) {
        if told(&["judge"], &file).1 == 30 {
            continue;
        }
        let script = format!("drf text '{name}' | drf bytes - | cmp '{name}' -");
        assert_eq!(folder.run(&script).status, Some(0), "{script}");
    }
}
