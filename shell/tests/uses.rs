//! Runs the uses of `uses.txt`. `cargo test --test uses -- --nocapture` prints them as a table.

mod common;

use common::{first, open, stopped, Ended, Folder};
use std::fs::{self, File, Permissions};
use std::os::unix::fs::{MetadataExt, PermissionsExt};
use std::os::unix::process::CommandExt;

const USES: &str = include_str!("uses.txt");

/// One of the uses, with what must come of it
#[derive(Default)]
struct Use<'a> {
    what: &'a str,
    command: &'a str,
    error: Vec<&'a str>,
    output: Vec<&'a str>,
    status: i32,
}

impl<'a> Use<'a> {
    fn read(text: &'a str) -> Use<'a> {
        let (what, rest) = text.split_once('\n').expect("more than a title");
        let mut read = Use { what, ..Use::default() };
        let mut lines = rest.lines().filter(|line| !line.is_empty()).peekable();
        while let Some(line) = lines.next() {
            if let Some(command) = line.strip_prefix("$ ") {
                read.command = command;
            } else if let Some(said) = line.strip_prefix("! ") {
                read.error.push(said);
            } else if lines.peek().is_some() {
                read.output.push(line);
            } else {
                read.status = line.parse().expect("a status at the end");
            }
        }
        read
    }

    fn fits(&self, ended: &Ended) -> bool {
        let fits = |(told, line): (&&str, &str)| match told.strip_suffix("..") {
            Some(beginning) => line.starts_with(beginning),
            None => line == *told,
        };
        ended.status == Some(self.status)
            && ended.out.lines().eq(self.output.iter().copied())
            && ended.err.lines().count() == self.error.len()
            && self.error.iter().zip(ended.err.lines()).all(fits)
    }

    /// The use as a row, with the first line of standard error, or of standard output where it has none.
    fn row(&self, ended: &Ended) -> String {
        let message = ended.err.lines().chain(ended.out.lines()).next().unwrap_or_default();
        let cell = |text: &str| text.replace('|', "\\|");
        let status = ended.status.map_or("a signal".to_string(), |status| status.to_string());
        format!("| {} | `{}` | {status} | {} |", self.what, cell(self.command), cell(message))
    }
}

fn folder() -> Folder {
    let folder = Folder::new("uses");
    folder.put("first.drf", first());
    folder.put("open.drf", open());
    folder.put("stopped.drf", stopped());
    folder.put("empty.drf", "");
    folder.put("broken.txt", "!\n");
    folder.put("a\nfile b", open());
    for name in ["a", "b", "c", "g", "h", "i", "j"] {
        folder.put(name, open());
    }
    folder.put("d", first());
    folder.put("e", stopped());
    folder.put("f", "");
    folder.put("codes.csv", "4100, 4100\n4120, 4120\n4200, 4200\n");
    for rows in [48, 49] {
        let table: String = (1..=rows).map(|key| format!("{key}, {}\n", -key)).collect();
        folder.put(&format!("{rows}.csv"), table);
    }
    fs::create_dir(folder.0.join("folder")).expect("a folder");
    let large = folder.put("large.drf", first());
    File::options().append(true).open(large).and_then(|file| file.set_len(1 << 30)).expect("room");
    folder
}

#[test]
fn every_use_ends_as_told() {
    let folder = folder();
    let uses: Vec<_> = USES.split("\n# ").skip(1).map(Use::read).collect();
    assert!(uses.len() >= 140, "{} uses", uses.len());
    println!("| use | command | status | first line |\n|---|---|---|---|");
    let mut wrong = Vec::new();
    for told in &uses {
        let ended = folder.run(told.command);
        println!("{}", told.row(&ended));
        if !told.fits(&ended) {
            wrong.push(format!("{}: {ended:#?}", told.what));
        }
    }
    assert!(wrong.is_empty(), "{}", wrong.join("\n"));
}

/// Root may read every file, so there the command is run as nobody, who may in turn be kept out of the folder.
#[test]
fn without_permission() {
    const NOBODY: u32 = 65_534;
    let folder = Folder::new("permission");
    let path = folder.put("kept.drf", first());
    fs::set_permissions(path, Permissions::from_mode(0o000)).expect("the file is ours");
    let mut command = folder.shell("drf judge kept.drf");
    if fs::metadata("/proc/self").is_ok_and(|own| own.uid() == 0) {
        command.gid(NOBODY).uid(NOBODY);
    }
    match command.output() {
        Err(fault) => println!("passed over: {fault}"),
        Ok(output) => {
            let said = String::from_utf8_lossy(&output.stderr);
            assert_eq!(said, "drf: kept.drf: Permission denied\n");
            assert_eq!((output.status.code(), &output.stdout[..]), (Some(3), &b""[..]));
        }
    }
}
