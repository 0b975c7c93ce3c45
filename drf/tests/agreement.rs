//! The header, this crate and the proved code name the same numbers.

use std::collections::BTreeMap;
use std::fs;

fn text(path: &str) -> String {
    let path = format!("{}/../{path}", env!("CARGO_MANIFEST_DIR"));
    fs::read_to_string(&path).unwrap_or_else(|fault| panic!("{path}: {fault}"))
}

fn number(digits: &str) -> Option<usize> {
    digits.trim_end_matches([';', ',']).replace('_', "").parse().ok()
}

/// The constants of a type in the source of Rust or Rattle
fn constants(source: &str, kind: &str) -> BTreeMap<String, usize> {
    let lines = source.lines().map(|line| line.trim().trim_start_matches("pub "));
    let named = lines.filter_map(|line| line.strip_prefix("const ")?.split_once(": "));
    named
        .filter_map(|(name, rest)| {
            Some((name.to_string(), number(rest.strip_prefix(kind)?.strip_prefix(" = ")?)?))
        })
        .collect()
}

/// What the header defines, with DRF_ taken off the names
fn defined(header: &str) -> BTreeMap<String, usize> {
    let words = header.lines().map(|line| line.split_whitespace().collect::<Vec<_>>());
    words
        .filter_map(|words| match words[..] {
            ["#define", name, value] => Some((name, value)),
            [name, "=", value, ..] => Some((name, value)),
            _ => None,
        })
        .filter_map(|(name, value)| Some((name.strip_prefix("DRF_")?.to_string(), number(value)?)))
        .collect()
}

#[test]
fn buffers() {
    let header = defined(&text("include/drf.h"));
    let judging = constants(&text("crates/judging/src/lib.rt"), "usize");
    for (name, ours) in [
        ("MOST_LISTING", drf::MOST_LISTING),
        ("MOST_INSPECTION", drf::MOST_INSPECTION),
        ("MOST_WITH_NUMBERS", drf::MOST_WITH_NUMBERS),
    ] {
        assert_eq!(header.get(name), Some(&ours), "{name} in include/drf.h");
        assert_eq!(judging.get(name), Some(&ours), "{name} in crates/judging");
    }
    assert_eq!(header.get("STACK"), Some(&drf::STACK), "STACK in include/drf.h");
}

/// The bytes of a table are those of its rows: three counts, at most four atoms and a literal each.
#[test]
fn tables() {
    let header = defined(&text("include/drf.h"));
    let basis = text("crates/basis/src/lib.rt");
    let (counts, signed) = (constants(&basis, "usize"), constants(&basis, "i32"));
    assert_eq!(counts.get("MOST_ROWS"), Some(&drf::MOST_ROWS), "MOST_ROWS in crates/basis");
    assert_eq!(header.get("MOST_ROWS"), Some(&drf::MOST_ROWS), "MOST_ROWS in include/drf.h");
    let most_c = drf::MOST_C as usize;
    assert_eq!(signed.get("MOST_C"), Some(&most_c), "MOST_C in crates/basis");
    assert_eq!(header.get("MOST_C"), Some(&most_c), "MOST_C in include/drf.h");
    assert_eq!(header.get("MOST_TABLE"), Some(&drf::MOST_TABLE), "MOST_TABLE in include/drf.h");
    let bound = "most_table_bytes = most_rows * (3 + 4 * 6 + 4)";
    let claims = text("crates/lookup/specs/Claims.antt");
    assert!(claims.lines().any(|line| line == bound), "crates/lookup has another bound");
    assert_eq!(drf::MOST_TABLE, drf::MOST_ROWS * (3 + 4 * 6 + 4));
}

/// One byte more is read than a valid file can have.
/// The names that a source imports from a crate
fn imported<'a>(source: &'a str, from: &str) -> Vec<&'a str> {
    let list = source.split_once(&format!("\nuse {from}::{{")).map_or("", |(_, list)| list);
    let names = list.split_once("};").map_or("", |(names, _)| names);
    names.split(',').map(str::trim).collect()
}

#[test]
fn bytes_read() {
    let header = defined(&text("include/drf.h"));
    let steps = constants(&text("crates/steps/src/lib.rt"), "usize");
    assert_eq!(header.get("MOST_FILE"), Some(&drf::MOST_FILE), "include/drf.h");
    assert_eq!(steps.get("MOST_FILE"), Some(&drf::MOST_FILE), "crates/steps");
    assert_eq!(header.get("MOST_READ"), Some(&drf::MOST_READ), "include/drf.h");
    assert_eq!(drf::MOST_READ, drf::MOST_FILE + 1);
    let judging = constants(&text("crates/judging/src/lib.rt"), "usize");
    assert_eq!(judging.get("MOST_READ"), Some(&drf::MOST_READ), "crates/judging");
    for program in ["crates/judge/src/main.rt", "crates/inspect/src/main.rt"] {
        let source = text(program);
        assert!(source.contains("[0u8; MOST_READ]"), "{program} reads another number");
        assert!(imported(&source, "judging").contains(&"MOST_READ"), "{program} imports no number");
        assert!(!source.contains("const MOST_READ"), "{program} has a number of its own");
    }
}

/// The name of a constant for a variant's: TooLong is TOO_LONG
fn in_capitals(variant: &str) -> String {
    let letters = variant.char_indices().flat_map(|(at, letter)| {
        let between = (at > 0 && letter.is_uppercase()).then_some('_');
        between.into_iter().chain([letter.to_ascii_uppercase()])
    });
    letters.collect()
}

/// The numbers that `From` gives the refusals
fn numbered(source: &str) -> BTreeMap<String, usize> {
    let arms =
        source.lines().filter_map(|line| line.trim().strip_prefix("Refusal::")?.split_once(" => "));
    arms.filter_map(|(variant, digits)| Some((in_capitals(variant), number(digits)?))).collect()
}

#[test]
fn refusals() {
    let mut proved = numbered(&text("crates/basis/src/lib.rt"));
    proved.insert("ACCEPTED".to_string(), 0);
    assert_eq!(proved.len(), 23);
    assert_eq!(constants(&text("drf/src/lib.rs"), "u8"), proved, "drf/src/lib.rs");
    let header = defined(&text("include/drf.h"));
    for (name, number) in &proved {
        assert_eq!(header.get(name), Some(number), "{name} in include/drf.h");
    }
}
