//! The script `run`, in a project where what proves and what builds are stand-ins that tell what they were asked: it looks at its words
//! before it asks them, says what drf says, and hands over.

mod common;

use common::{ended, first, Ended, Folder, ROOT};
use std::env;
use std::fs::{self, Permissions};
use std::os::unix::fs::{symlink, PermissionsExt};
use std::path::PathBuf;
use std::process::Command;

/// Proves: takes its time where PROVES says so, and fails where FAILS says so.
const ARCHIVE: &str = "#!/bin/sh
cat >&2
echo archive \"$@\" >>\"$ASKED\"
sleep \"${PROVES:-0}\"
[ \"$FAILS\" != proof ] || { echo no proof found; exit 1; }
";

/// Builds, and names the program as cargo does.
const CARGO: &str = "#!/bin/sh
cat >&2
echo \"cargo $1 in $(basename \"$PWD\") of $DRF_COMMIT\" >>\"$ASKED\"
echo \"$DRF_SOURCES\" >\"$ASKED.sum\"
[ \"$FAILS\" != build ] || exit 101
[ \"$FAILS\" = name ] || echo '{\"name\":\"drf\",\"executable\":\"'\"$PROGRAM\"'\",\"fresh\":true}'
";

/// Stands for drf: tells how it was called.
const PROGRAM: &str = "#!/bin/sh
echo \"in $(basename \"$PWD\")\"
printf '<%s>' \"$@\"
echo
cat
exit 20
";

/// The project, with a folder `elsewhere` that has a link to `run` and a run file
fn project(name: &str) -> Folder {
    let folder = Folder::new(name);
    fs::create_dir_all(folder.0.join("elsewhere")).expect("a folder");
    fs::create_dir_all(folder.0.join("project/shell/src")).expect("a folder");
    fs::create_dir_all(folder.0.join("project/drf/src")).expect("a folder");
    for name in ["run", "shell/src/help.txt"] {
        let file = fs::read(format!("{ROOT}/{name}")).expect("a file of the project");
        script(&folder, &format!("project/{name}"), file);
    }
    script(&folder, "project/tools/archive", ARCHIVE);
    script(&folder, "project/program", PROGRAM);
    script(&folder, "bin/rt", "#!/bin/sh\n");
    script(&folder, "bin/cargo", CARGO);
    folder.put("elsewhere/first.drf", first());
    symlink("../project/run", folder.0.join("elsewhere/link")).expect("a link");
    folder
}

fn script(folder: &Folder, name: &str, text: impl AsRef<[u8]>) {
    let path = folder.put(name, text);
    fs::set_permissions(path, Permissions::from_mode(0o755)).expect("the file is ours");
}

/// A shell in `elsewhere`, with the stand-ins on its path
fn shell(folder: &Folder, script: &str) -> Command {
    let mut command = folder.shell(script);
    let path = env::var_os("PATH").expect("a path");
    let folders = [folder.0.join("bin")].into_iter().chain(env::split_paths(&path));
    command.current_dir(folder.0.join("elsewhere"));
    command.env("PATH", env::join_paths(folders).expect("a path"));
    command.env("ASKED", folder.0.join("asked")).env("PROGRAM", folder.0.join("project/program"));
    command.env("DRF_COMMIT", "0123abc");
    command
}

/// What the stand-ins were asked since this was read last
fn asked(folder: &Folder) -> String {
    let path = folder.0.join("asked");
    let text = fs::read_to_string(&path).unwrap_or_default();
    let _ = fs::remove_file(path);
    text
}

const BOTH: &str = "archive drf\ncargo build in shell of 0123abc\n";

/// Each with the words that drf must be given to say the same.
#[test]
fn wrong_words_are_told_before_anything_is_proved() {
    let folder = project("run-words");
    for (words, same, status) in [
        ("--help", "--help", 0),
        ("-j 2 judge first.drf -h", "-h", 0),
        ("--frob", "--frob", 2),
        ("first.drf -x", "judge -x", 2),
        ("inspect -- ", "inspect", 2),
        ("judge", "judge", 2),
        ("first.drf -j", "judge -j", 2),
        ("-j 0 first.drf", "-j 0 judge", 2),
        ("-j 257 first.drf", "-j 257 judge", 2),
        ("-jx first.drf", "-jx judge", 2),
        ("first.drf -j ''", "judge -j ''", 2),
        ("text first.drf first.drf", "text first.drf first.drf", 2),
        ("bytes a b", "bytes a b", 2),
        ("table first.drf", "table first.drf", 2),
        ("table --text", "table --text", 2),
        ("--exact table first.drf --approximate", "table --exact --approximate first.drf", 2),
        ("--approximate table --exact --exact x", "table --approximate --exact x", 2),
        ("table --exact", "table --exact", 2),
        ("table --approximate --approximate a b", "table --approximate a b", 2),
        ("--exact first.drf", "--exact judge first.drf", 2),
        ("text --text --exact first.drf", "text --text --exact first.drf", 2),
        ("inspect --approximate", "inspect --approximate", 2),
        ("--numbers first.drf", "--numbers judge first.drf", 2),
        ("text --numbers --text first.drf", "text --numbers first.drf", 2),
        ("table --text --numbers first.drf", "table --numbers first.drf", 2),
        ("inspect --numbers --exact first.drf", "inspect --exact first.drf", 2),
        ("inspect --numbers --numbers", "inspect --numbers", 2),
        ("inspect --numbersx first.drf", "inspect --numbersx first.drf", 2),
        ("--numbers inspect missing.drf", "inspect --numbers missing.drf", 3),
        ("--text --exacts table x", "--exacts", 2),
        ("table --exact missing.csv", "table --exact missing.csv", 3),
        ("table --text --approximate .", "table --approximate .", 3),
        ("- first.drf -", "judge - first.drf -", 2),
        ("x . first.drf/y", "judge x . first.drf/y", 3),
        ("/dev/tcp/127.0.0.1/1", "judge /dev/tcp/127.0.0.1/1", 3),
        ("missing.drf", "judge missing.drf", 3),
        ("judge missing.drf", "judge missing.drf", 3),
        ("-j2 -j 3 missing.drf", "judge missing.drf", 3),
        ("-- -x", "judge -- -x", 3),
        ("'a\nfile b\\'", "judge 'a\nfile b\\'", 3),
        ("first.drf/x", "judge first.drf/x", 3),
        (".", "judge .", 3),
        ("text .", "text .", 3),
        ("''", "judge ''", 3),
    ] {
        let expected =
            ended(&mut shell(&folder, &format!("'{}' {same}", env!("CARGO_BIN_EXE_drf"))));
        for run in ["../project/run", "./link"] {
            let found = ended(&mut shell(&folder, &format!("{run} {words}")));
            assert_eq!(found, expected, "{run} {words}");
        }
        assert_eq!(expected.status, Some(status), "{words}");
        assert_eq!(asked(&folder), "", "{words}");
    }
}

/// What drf has no like of.
#[test]
fn nothing_to_do_is_told_before_anything_is_proved() {
    let folder = project("run-nothing");
    let hint = "drf: --help lists commands, options and statuses\n";
    for (script, status, err) in [
        ("./link", 2, format!("drf: no FILE\n{hint}")),
        ("./link -j 4", 2, format!("drf: no FILE\n{hint}")),
        ("./link --text", 2, format!("drf: no FILE\n{hint}")),
        ("./link missing.drf 2>&-", 3, String::new()),
        ("./link --frob 2>/dev/full", 2, String::new()),
        ("./link --help >/dev/full 2>&-", 3, String::new()),
    ] {
        let expected = Ended { status: Some(status), out: String::new(), err };
        assert_eq!(ended(&mut shell(&folder, script)), expected, "{script}");
        assert_eq!(asked(&folder), "", "{script}");
    }
}

/// The caller's folder, words, standard input and status are drf's.
#[test]
fn hands_over() {
    let folder = project("run-over");
    for (words, handed) in [
        ("first.drf", "<judge><first.drf>"),
        ("judge first.drf", "<judge><first.drf>"),
        ("inspect first.drf -j 2", "<inspect><first.drf><-j><2>"),
        ("inspect --numbers first.drf", "<inspect><--numbers><first.drf>"),
        (
            "--numbers inspect -- --numbers first.drf",
            "<--numbers><inspect><--><--numbers><first.drf>",
        ),
        ("-j2 first.drf missing.drf", "<judge><-j2><first.drf><missing.drf>"),
        ("-j 2 text -", "<-j><2><text><->"),
        ("bytes -", "<bytes><->"),
        ("table --exact first.drf --text", "<table><--exact><first.drf><--text>"),
        ("--approximate -- table -", "<--approximate><--><table><->"),
        ("- -- 'a b'", "<judge><-><--><a b>"),
        ("/dev/zero", "<judge></dev/zero>"),
        ("--version", "<--version>"),
    ] {
        for run in ["../project/run", "./link", "\"$PWD/link\""] {
            let script = format!("printf 'said by the caller' | {run} {words}");
            let out = format!("in elsewhere\n{handed}\nsaid by the caller");
            let expected = Ended { status: Some(20), out, err: String::new() };
            assert_eq!(ended(&mut shell(&folder, &script)), expected, "{script}");
            assert_eq!(asked(&folder), BOTH, "{script}");
        }
    }
}

/// Of an earlier build the program is still there.
#[test]
fn what_fails_is_no_verdict() {
    let folder = project("run-fails");
    for (fails, err, asks) in [
        ("proof", "no proof found\ndrf: the proof of the core failed\n", "archive drf\n"),
        ("build", "drf: drf could not be built\n", BOTH),
        ("name", "drf: drf could not be built: cargo names no program\n", BOTH),
    ] {
        let found = ended(shell(&folder, "./link first.drf").env("FAILS", fails));
        let expected = Ended { status: Some(3), out: String::new(), err: err.to_string() };
        assert_eq!(found, expected, "{fails}");
        assert_eq!(asked(&folder), asks, "{fails}");
    }
}

#[test]
fn a_long_proof_is_told_of() {
    let folder = project("run-long");
    let found = ended(shell(&folder, "./link first.drf").env("PROVES", "4"));
    let err = "drf: the core is being proved, which takes minutes where it changed\n";
    assert_eq!((found.status, found.err.as_str()), (Some(20), err));
}

#[test]
fn a_missing_tool_is_named() {
    let folder = project("run-tools");
    let path = env::var_os("PATH").expect("a path");
    for tool in ["env", "bash", "sh", "dirname", "readlink", "sed", "cat", "basename", "sleep"] {
        let paths = env::split_paths(&path).map(|folder| folder.join(tool));
        let found: PathBuf = paths.into_iter().find(|path| path.is_file()).expect("a tool");
        symlink(found, folder.0.join("bin").join(tool)).expect("a link");
    }
    for tool in ["cargo", "rt"] {
        fs::remove_file(folder.0.join("bin").join(tool)).expect("it was there");
        let found = ended(shell(&folder, "./link first.drf").env("PATH", folder.0.join("bin")));
        let err = format!("drf: {tool} is missing: README.md says what is needed\n");
        assert_eq!(found, Ended { status: Some(3), out: String::new(), err });
        assert_eq!(asked(&folder), "");
    }
}

/// Cargo is told of a source that changed by a sum of what all hold, whatever their times are.
#[test]
fn sources_are_told_by_what_they_hold() {
    let folder = project("run-sources");
    let sum = |source: &str| {
        folder.put("project/drf/src/lib.rs", source);
        assert_eq!(ended(&mut shell(&folder, "./link first.drf </dev/null")).status, Some(20));
        fs::read_to_string(folder.0.join("asked.sum")).expect("a sum")
    };
    let (first, other, again) = (sum("one"), sum("two"), sum("one"));
    assert_ne!(first, other);
    assert_eq!(first, again);
}
