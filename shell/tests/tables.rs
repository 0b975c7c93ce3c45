//! What `drf table` prints is what a run file and its text have for these clauses: its bytes stand in a file as they are, its lines in a text.

mod common;

use common::Folder;
use drf::MOST_C;
use std::process::Command;

/// Tables of every kind: none, one row, the workbooks' one, signs, the ends of all numbers, as many rows as there can be
fn tables() -> Vec<Vec<(i32, i32)>> {
    vec![
        vec![],
        vec![(4100, 4100)],
        vec![(4100, 4100), (4120, 4120), (4200, 4200)],
        vec![(-7, 0), (-6, -1), (0, 1), (1, 1)],
        vec![(-MOST_C, MOST_C), (-MOST_C + 1, -MOST_C), (MOST_C - 1, 0), (MOST_C, MOST_C)],
        (0..48).map(|k| (k * k - 900, 17 - k)).collect(),
    ]
}

/// The bytes that a command prints
fn printed(folder: &Folder, words: &[&str]) -> Vec<u8> {
    let mut drf = Command::new(env!("CARGO_BIN_EXE_drf"));
    let output = drf.current_dir(&folder.0).args(words).output().expect("it can be started");
    let said = String::from_utf8_lossy(&output.stderr);
    assert_eq!((output.status.code(), &*said), (Some(0), ""), "{words:?}");
    output.stdout
}

/// A file with so many input clauses of these bytes, in which predicate 1 has two arguments; and how its text begins
fn pasted(count: usize, clauses: &[u8]) -> (Vec<u8>, &'static str) {
    let head = [b"DRF\x01\0\x02\x02\x02\0", &[count as u8][..]].concat();
    ([&head, clauses, &[0, 0]].concat(), "drf 1\nconstants 2\npredicates 2 0\n")
}

#[test]
fn bytes_and_lines_say_the_same_file() {
    let folder = Folder::new("tables");
    for rows in tables() {
        let lines: Vec<String> =
            rows.iter().map(|(key, result)| format!("{key}, {result}\n")).collect();
        folder.put("rows.csv", lines.concat());
        for kind in ["--exact", "--approximate"] {
            let clauses = printed(&folder, &["table", kind, "rows.csv"]);
            let lines = printed(&folder, &["table", kind, "--text", "rows.csv"]);
            let (file, head) = pasted(rows.len(), &clauses);
            let text = [head.as_bytes(), &lines].concat();
            folder.put("pasted.drf", &file);
            folder.put("pasted.txt", &text);
            assert_eq!(printed(&folder, &["text", "pasted.drf"]), text, "{kind} {rows:?}");
            assert_eq!(printed(&folder, &["bytes", "pasted.txt"]), file, "{kind} {rows:?}");
        }
    }
}
