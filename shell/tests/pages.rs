//! docs/FORMAT.md, docs/REFUSALS.md, docs/EXAMPLES.md, README.md's example and examples/, held against the tool: what a page says of a run or
//! a table is what is printed of it. And the links of all pages.

mod common;

use common::{Ended, Folder};
use drf::refusal::{BUFFER_SHORT, TOO_MANY_ROWS};
use std::collections::BTreeMap;
use std::fs;
use std::path::{Path, PathBuf};

// ---- the tool

/// The listing of a file, and the place of its last answer
fn judged(file: &[u8]) -> (String, u64) {
    let mut out = vec![0; drf::MOST_LISTING];
    let told = drf::judge(file, &mut out).expect("the buffer has room for every listing");
    (String::from_utf8_lossy(told.text).into_owned(), told.place)
}

fn listing(file: &[u8]) -> String {
    judged(file).0
}

fn inspection(file: &[u8]) -> String {
    let mut out = vec![0; drf::MOST_INSPECTION];
    let told = drf::inspect(file, &mut out).expect("the buffer has room for every final state");
    String::from_utf8_lossy(told.text).into_owned()
}

fn numbered(file: &[u8]) -> String {
    let mut out = vec![0; drf::MOST_WITH_NUMBERS];
    let told = drf::inspect_numbers(file, &mut out).expect("the buffer has room for all numbers");
    String::from_utf8_lossy(told.text).into_owned()
}

/// The same above the final state
fn numbered_listing(file: &[u8]) -> String {
    let text = numbered(file);
    text.split_inclusive('\n').take_while(|line| !line.starts_with("constants ")).collect()
}

/// Of the final state the trail
fn trail(file: &[u8]) -> String {
    let text = inspection(file);
    text.split_inclusive('\n').filter(|line| line.starts_with("trail ")).collect()
}

/// The run file that a text says
fn said(text: &str) -> Vec<u8> {
    shell::text::bytes(text.as_bytes()).unwrap_or_else(|fault| panic!("{fault}, in\n{text}"))
}

/// What the command says of the rows of a table
fn table(rows: &str, options: &str) -> Ended {
    let folder = Folder::new(&format!("pages/{:?}", std::thread::current().id()));
    folder.put("rows.csv", rows);
    folder.run(&format!("drf table {options} rows.csv"))
}

/// The lines of a table's clauses, for a kind of match
fn table_lines(rows: &str, kind: &str) -> String {
    let ended = table(rows, &format!("--{kind} --text"));
    assert_eq!((ended.status, ended.err.as_str()), (Some(0), ""), "{rows}");
    ended.out
}

/// What the library makes of them, with a buffer of so many bytes
fn made(rows: &str, kind: &str, room: usize) -> Result<Vec<u8>, drf::Refused> {
    let number = |text: &str| text.parse::<i32>().expect("a number");
    let pairs = rows.lines().map(|row| row.split_once(", ").expect("a row"));
    let (keys, results): (Vec<i32>, Vec<i32>) =
        pairs.map(|(key, result)| (number(key), number(result))).unzip();
    let kind = match kind {
        "exact" => drf::Match::Exact,
        "approximate" => drf::Match::Approximate,
        _ => panic!("{kind:?} is no kind of match"),
    };
    let mut buffer = vec![0; room];
    drf::table(&keys, &results, kind, &mut buffer).map(<[u8]>::to_vec)
}

// ---- the pages

fn root(path: &str) -> PathBuf {
    Path::new(concat!(env!("CARGO_MANIFEST_DIR"), "/..")).join(path)
}

fn read(path: &str) -> Vec<u8> {
    fs::read(root(path)).unwrap_or_else(|error| panic!("{path}: {error}"))
}

fn read_text(path: &str) -> String {
    String::from_utf8(read(path)).unwrap_or_else(|error| panic!("{path}: {error}"))
}

/// A heading and what stands between it and the next one
struct Section {
    heading: String,
    prose: Vec<String>,
    blocks: Vec<Block>,
}

/// A fenced block
struct Block {
    kind: String,
    body: String,
}

fn sections(page: &str) -> Vec<Section> {
    let text = read_text(page);
    let mut sections: Vec<Section> = Vec::new();
    let mut lines = text.lines();
    while let Some(line) = lines.next() {
        if line.starts_with('#') {
            let heading = line.trim_start_matches('#').trim().to_string();
            sections.push(Section { heading, prose: Vec::new(), blocks: Vec::new() });
            continue;
        }
        let section = sections.last_mut().expect("a page begins with a heading");
        match line.strip_prefix("```") {
            Some(kind) => {
                let body = lines.by_ref().take_while(|line| *line != "```");
                let body = body.map(|line| format!("{line}\n")).collect();
                section.blocks.push(Block { kind: kind.to_string(), body });
            }
            None => section.prose.push(line.to_string()),
        }
    }
    sections
}

fn section(page: &str, heading: &str) -> Section {
    let found = sections(page).into_iter().find(|section| section.heading == heading);
    found.unwrap_or_else(|| panic!("{page} has no section {heading:?}"))
}

impl Section {
    /// The cells of its tables, row by row, without backquotes
    fn rows(&self) -> Vec<Vec<String>> {
        let row = |line: &String| {
            let cells = line.strip_prefix("| ")?.strip_suffix(" |")?.split(" | ");
            Some(cells.map(|cell| cell.trim().trim_matches('`').to_string()).collect())
        };
        self.prose.iter().filter_map(row).collect()
    }

    /// What stands between backquotes
    fn quoted(&self) -> Vec<&str> {
        self.prose.iter().flat_map(|line| line.split('`').skip(1).step_by(2)).collect()
    }

    /// Its blocks two by two, the second of this kind
    fn pairs(&self, kind: &str) -> Vec<(&Block, &Block)> {
        let pair = |two: &'_ [Block]| matches!(two, [_, below] if below.kind == kind);
        assert!(self.blocks.chunks(2).all(pair), "{}: a block without its {kind}", self.heading);
        self.blocks.chunks(2).map(|two| (&two[0], &two[1])).collect()
    }
}

impl Block {
    /// The run file of a text or of bytes; `zeros` with a number is one of so many bytes of 0
    fn file(&self) -> Vec<u8> {
        let zeros = self.kind.strip_prefix("zeros ").and_then(|count| count.parse().ok());
        match (self.kind.as_str(), zeros) {
            ("drf", _) => said(&self.body),
            ("hex", _) => hex(&self.body),
            (_, Some(count)) => vec![0; count],
            (kind, _) => panic!("a block of kind {kind:?} where a run is expected:\n{}", self.body),
        }
    }
}

fn hex(text: &str) -> Vec<u8> {
    let byte = |digits| u8::from_str_radix(digits, 16);
    text.split_whitespace().map(byte).collect::<Result<_, _>>().expect("bytes in hex")
}

/// A number as pages write it
fn number(text: &str) -> Option<usize> {
    text.replace(',', "").parse().ok()
}

/// The number of a line that is a step's
fn step_number(line: &str) -> Option<usize> {
    line.split_whitespace().next().and_then(|word| word.parse().ok())
}

// ---- examples

/// The only example that is no run
const CODES: &str = "examples/codes.csv";

/// The names of the files in examples/ with this ending
fn examples(ending: &str) -> Vec<String> {
    let folder = fs::read_dir(root("examples")).expect("examples/");
    let paths = folder.map(|entry| entry.expect("an entry of examples/").path());
    let named = |path: PathBuf| {
        let ours = path.extension().is_some_and(|extension| extension == ending);
        ours.then(|| path.file_stem().unwrap_or_default().to_string_lossy().into_owned())
    };
    let mut names: Vec<String> = paths.filter_map(named).collect();
    names.sort();
    names
}

#[test]
fn texts_are_the_sources_of_the_files() {
    let names = examples("txt");
    assert_eq!(names, examples("drf"));
    for name in names {
        let file = read(&format!("examples/{name}.drf"));
        assert_eq!(said(&read_text(&format!("examples/{name}.txt"))), file, "{name}");
    }
}

#[test]
fn examples_have_their_listings() {
    let (mut told, mut more) = (Vec::new(), Vec::new());
    for section in sections("docs/EXAMPLES.md") {
        let file = section.heading.split('`').nth(1);
        if file == Some(CODES) {
            continue;
        }
        let Some(file) = file else {
            assert!(section.blocks.is_empty(), "{}: a listing of no file", section.heading);
            continue;
        };
        let run = read(file);
        let printed = [listing(&run), numbered_listing(&run), trail(&run)];
        let printed = ["listing", "numbers", "trail"].into_iter().zip(&printed);
        assert!((1..=3).contains(&section.blocks.len()), "{file}");
        for (block, (kind, text)) in section.blocks.iter().zip(printed) {
            assert_eq!((block.kind.as_str(), &block.body), (kind, text), "{file}");
        }
        told.push(file.to_string());
        more.push(section.blocks.len() - 1);
    }
    assert_eq!(more.iter().sum::<usize>(), 4, "{more:?}");
    told.sort();
    let files: Vec<String> =
        examples("drf").iter().map(|name| format!("examples/{name}.drf")).collect();
    assert_eq!(told, files);
}

#[test]
fn code_table_has_the_clauses_printed() {
    let section =
        section("docs/EXAMPLES.md", &format!("`{CODES}`: soda ash, lime and the next row"));
    let kinds: Vec<&str> = section.blocks.iter().map(|block| block.kind.as_str()).collect();
    assert_eq!(kinds, ["exact", "approximate"]);
    assert_eq!(examples("csv"), ["codes"]);
    for block in &section.blocks {
        assert!(section.quoted().iter().any(|word| word.contains(&format!("--{}", block.kind))));
        assert_eq!(block.body, table_lines(&read_text(CODES), &block.kind));
    }
}

/// The rows of the code table but lime's
fn without_lime() -> String {
    let codes = read_text(CODES);
    assert_eq!(codes.lines().count(), 3);
    codes.split_inclusive('\n').filter(|row| !row.starts_with("4120,")).collect()
}

/// The lines of a text above the clauses, and its clauses
fn head_and_clauses(text: &str) -> (Vec<&str>, Vec<&str>) {
    let lines = text.lines().filter(|line| step_number(line).is_none());
    lines.partition(|line| !line.starts_with("clause "))
}

#[test]
fn lookup_has_the_clauses_of_the_table_without_lime() {
    let text = shell::text::text(&read("examples/lookup.drf")).expect("a valid file");
    let (_, clauses) = head_and_clauses(&text);
    let table = table_lines(&without_lime(), "approximate");
    assert_eq!(clauses[..2], table.lines().collect::<Vec<_>>());
    assert_eq!(clauses.len(), 3);
}

/// On each clause of the table, at every instance, the propagation or the conflict after it is refused.
#[test]
fn lookup_has_no_refutation_with_exact_match() {
    let text = shell::text::text(&read("examples/lookup.drf")).expect("a valid file");
    let (head, clauses) = head_and_clauses(&text);
    let exact = table_lines(&without_lime(), "exact");
    for clause in [1, 2] {
        for (at, refused) in [
            ("(1,1)", "2 conflict"),
            ("(1,2)", "1 propagate"),
            ("(2,1)", "1 propagate"),
            ("(2,2)", "2 conflict"),
        ] {
            let steps = format!("propagate {clause} 1 {at}\nconflict 3 {at}\n");
            let run = format!("{}\n{exact}{}\n{steps}", head.join("\n"), clauses[2]);
            let (printed, _) = judged(&said(&run));
            let end = format!("{refused} refused 13\nstopped\n");
            assert!(printed.ends_with(&end), "{run}{printed}");
        }
    }
}

/// The denial of an atom, as both are written
fn denied(atom: &str) -> String {
    let (places, c) = atom.split_once("<=").expect("an atom");
    let (p, q) = places.split_once('-').expect("two places");
    let c: i32 = c.parse().expect("a number");
    format!("{q}-{p}<={}", -c - 1)
}

/// What the clauses of a state are made of, atoms and literals; at constant 1 they read the same, since each clause has one variable.
fn parts(state: &str) -> Vec<&str> {
    let clauses = state.lines().filter(|line| line.starts_with("clause "));
    let parts = clauses.flat_map(|line| line.split(' ').skip(3));
    parts.map(|part| part.trim_matches(['[', ']'])).filter(|part| !part.is_empty()).collect()
}

/// Every atom and literal is on the trail or denied there, and no clause is a conflict.
#[test]
fn sides_is_finished() {
    let file = read("examples/sides.drf");
    let (state, trail) = (inspection(&file), trail(&file));
    let on_trail: Vec<&str> = trail.lines().filter_map(|line| line.split(' ').nth(2)).collect();
    let parts = parts(&state);
    assert_eq!(parts.len(), 14, "{parts:?}");
    for part in parts {
        let other = match part.strip_prefix('~') {
            _ if part.contains("<=") => denied(part),
            Some(literal) => literal.to_string(),
            None => format!("~{part}"),
        };
        let either = [part, &other].map(|part| on_trail.contains(&part));
        assert_eq!(either.iter().filter(|there| **there).count(), 1, "{part}");
    }
    let text = read_text("examples/sides.txt");
    for clause in 1..=5 {
        let listing = listing(&said(&format!("{text}conflict {clause} (code)\n")));
        assert!(listing.ends_with("\nstopped\n"), "{clause}: {listing}");
    }
}

/// Clause 3 is a conflict where the decision of ~First(code) brings nothing, and refused 13 where it brings the denial of its atom.
#[test]
fn sides_needs_its_bound() {
    let text = read_text("examples/sides.txt");
    let bound = " with 3 1 ~ (code)";
    assert!(text.contains(&format!("11 decide 3 2 ~ (code){bound}")));
    let in_version_1 = format!("{} decide 3 2 ~ (code)\n", cut(&text.replace("drf 2", "drf 1"), 0));
    for (run, end) in [
        (format!("{}conflict 3 (code)\n", cut(&text, 11)), "\n12 conflict refused 13\nstopped\n"),
        (
            format!("{}conflict 3 (code)\n", cut(&text, 11).replace(bound, "")),
            "\n12 conflict 5 1\nopen\n",
        ),
        (
            format!("{in_version_1}propagate 1 1 (code)\nconflict 3 (code)\n"),
            "\n3 conflict 4 1\nopen\n",
        ),
    ] {
        let listing = listing(&said(&run));
        assert!(listing.ends_with(end), "{run}{listing}");
    }
}

/// The lines of a text up to a step
fn cut(text: &str, last: usize) -> String {
    let kept = text.lines().filter(|line| step_number(line).is_none_or(|step| step <= last));
    kept.map(|line| format!("{line}\n")).collect()
}

#[test]
fn conflicts_beside_the_source_are_those_of_the_run() {
    let text = read_text("examples/refutation.txt");
    let heading = "`examples/refutation.drf`: Example 19, SCL(T) Refutation";
    let rows = section("docs/EXAMPLES.md", heading).rows();
    let mut shown = Vec::new();
    for row in &rows {
        let Some(last) = step_number(&row[0]) else { continue };
        let state = inspection(&said(&cut(&text, last)));
        assert_eq!(state.lines().last(), Some(format!("conflict {}", row[2]).as_str()), "{last}");
        shown.push(row[0].clone());
    }
    let listing = listing(&said(&text));
    let steps = listing.lines().filter_map(|line| line.rsplitn(3, ' ').nth(2));
    let changing = steps.filter(|step| step.ends_with("conflict") || step.ends_with("resolve"));
    assert_eq!(shown, changing.collect::<Vec<_>>());
}

#[test]
fn example_6_is_refuted_with_one_constant() {
    let clauses = cut(&read_text("examples/inconsistent.txt"), 0);
    let search = "propagate 1 1 (a,a)\npropagate 2 2 (a,a)\nconflict 3 (a,a)\n";
    let back = "skip\nskip\nskip\nresolve 2\nfactorize 1 2\nskip\nresolve 1\n";
    assert!(listing(&said(&format!("{clauses}{search}{back}"))).ends_with("\nrefuted\n"));
}

/// A decision of either sign on a literal of clause 3, or none
fn decisions(literal: usize, constant: char) -> [String; 3] {
    let decide = |sign| format!("decide 3 {literal} {sign} ({constant})\n");
    [String::new(), decide('+'), decide('~')]
}

#[test]
fn example_7_has_no_step_left_on_its_clauses_below_0() {
    let fixed = cut(&read_text("examples/exhaustive.txt"), 3);
    for constant in ['a', 'b', 'c'] {
        for q in decisions(1, constant) {
            for r in decisions(2, constant) {
                let decided = format!("{fixed}{q}{r}");
                assert!(listing(&said(&decided)).ends_with("\nopen\n"), "{decided}");
                no_step_on_clauses_3_to_6(&decided, constant);
            }
        }
    }
}

fn no_step_on_clauses_3_to_6(decided: &str, constant: char) {
    for clause in 3..=6 {
        for step in [
            format!("conflict {clause}"),
            format!("propagate {clause} 1"),
            format!("propagate {clause} 2"),
        ] {
            let text = format!("{decided}{step} ({constant})\n");
            assert!(listing(&said(&text)).ends_with("\nstopped\n"), "{text}");
        }
    }
}

// ---- refusals

/// The words of the paper and the requests for each number, as the definitions quote them
fn words() -> BTreeMap<usize, String> {
    let text = read_text("crates/basis/specs/Refusals.antt");
    let mut quoted = String::new();
    let mut words = BTreeMap::new();
    for line in text.lines() {
        if let Some((quote, _)) = line.strip_prefix("-- \"").and_then(|line| line.split_once('"')) {
            quoted = quote.to_string();
        }
        let number = line.split_once(" = ").and_then(|(_, number)| number.parse().ok());
        words.extend(number.filter(|number| *number > 0).map(|number| (number, quoted.clone())));
    }
    words
}

/// The sections of the numbers, each with its number
fn refusals() -> Vec<(usize, Section)> {
    let numbered = |section: Section| {
        let number = section.heading.split_once(": ").and_then(|(number, _)| number.parse().ok());
        number.map(|number| (number, section))
    };
    sections("docs/REFUSALS.md").into_iter().filter_map(numbered).collect()
}

#[test]
fn every_number_has_its_section() {
    let headings: BTreeMap<usize, String> =
        refusals().into_iter().map(|(number, section)| (number, section.heading)).collect();
    let words: Vec<String> =
        words().iter().map(|(number, words)| format!("{number}: {words}")).collect();
    assert_eq!(words.len(), 22);
    assert_eq!(headings.into_values().collect::<Vec<_>>(), words);
}

fn is_of_tables(number: usize) -> bool {
    (TOO_MANY_ROWS.into()..=BUFFER_SHORT.into()).contains(&number)
}

/// The sections of the numbers that a run can be refused by
fn of_runs() -> Vec<(usize, Section)> {
    refusals().into_iter().filter(|(number, _)| !is_of_tables(*number)).collect()
}

/// The sections of the numbers that a table can be refused by
fn of_tables() -> Vec<(usize, Section)> {
    refusals().into_iter().filter(|(number, _)| is_of_tables(*number)).collect()
}

/// Whether a listing ends with this refusal
fn refuses(listing: &str, number: usize) -> bool {
    let refused = format!(" refused {number}");
    let bad = format!("bad file {number} ");
    listing.lines().any(|line| line.ends_with(&refused) || line.starts_with(&bad))
}

#[test]
fn refusals_are_those_of_their_examples() {
    for (number, section) in of_runs() {
        let pairs = section.pairs("listing");
        assert_eq!(pairs.is_empty(), number == 17, "{number}");
        for (run, listing) in pairs {
            let (printed, place) = judged(&run.file());
            assert_eq!(listing.body, printed, "{number}: of\n{}", run.body);
            assert!(refuses(&printed, number), "{number}: {printed} of\n{}", run.body);
            let told = place == 0
                || listing.body.starts_with("bad file")
                || section.prose.iter().any(|line| line.ends_with(&format!("place {place}:")));
            assert!(told, "{number}: place {place} is not told of\n{}", run.body);
        }
    }
}

/// A text without one of its lines, its steps without their numbers
fn without(text: &str, line_left_out: usize) -> String {
    let unnumbered = |line: &str| match step_number(line) {
        Some(_) => line.trim_start_matches(|digit: char| digit.is_ascii_digit()).to_string(),
        None => line.to_string(),
    };
    let lines = text.lines().enumerate().filter(|(index, _)| *index != line_left_out);
    lines.map(|(_, line)| unnumbered(line) + "\n").collect()
}

#[test]
fn no_step_of_an_example_can_be_left_out() {
    for (number, section) in of_runs() {
        for (run, _) in section.pairs("listing").iter().filter(|(run, _)| run.kind == "drf") {
            let steps =
                run.body.lines().enumerate().filter(|(_, line)| step_number(line).is_some());
            for (index, line) in steps {
                let rest = listing(&said(&without(&run.body, index)));
                assert!(!refuses(&rest, number), "{number}: {line} is not needed:\n{}", run.body);
            }
        }
    }
}

/// What is said of the rows of a block that names a kind of match: by the command; or by the library, where it names a buffer's length too.
fn refused(kind: &str, rows: &str) -> String {
    if let Some((kind, room)) = kind.split_once(' ') {
        let refused = made(rows, kind, room.parse().expect("a number of bytes")).err();
        return refused.map_or(String::new(), |refused| format!("{refused}\n"));
    }
    let Ended { status, out, err } = table(rows, &format!("--{kind}"));
    assert!(err.is_empty() || out.is_empty() && status == Some(20), "{status:?} {err}");
    err.strip_prefix("drf: rows.csv: ").unwrap_or_default().to_string()
}

#[test]
fn refusals_of_tables_are_those_of_their_examples() {
    for (number, section) in of_tables() {
        let pairs = section.pairs("refused");
        assert!(!pairs.is_empty(), "{number}");
        for (rows, below) in pairs {
            assert_eq!(below.body, refused(&rows.kind, &rows.body), "{number}: of\n{}", rows.body);
            assert!(below.body.starts_with(&format!("refused {number}: ")), "{number}");
            for row in rows.body.split_inclusive('\n') {
                let rest = rows.body.replacen(row, "", 1);
                assert_eq!(refused(&rows.kind, &rest), "", "{number}: {row} is not needed");
            }
        }
    }
}

/// The library says a refusal in the words of its heading.
#[test]
fn refusals_of_tables_have_their_words() {
    for (number, section) in of_tables() {
        let refused = drf::Refused { number: number as u8, place: 0 };
        assert_eq!(refused.to_string(), format!("refused {}", section.heading));
    }
}

#[test]
fn refusal_17_has_its_theorem() {
    let (_, section) = refusals().into_iter().find(|(number, _)| *number == 17).expect("17");
    let quoted = section.quoted();
    let [theorem, path] = quoted[..] else { panic!("a theorem and its file, not {quoted:?}") };
    assert!(path.starts_with("crates/") && path.contains("/specs/"), "{path}");
    let stated = format!("abbrev pub {theorem} : ");
    assert!(read_text(path).contains(&stated), "{path} does not state {theorem}");
}

// ---- formats

const FORMAT: &str = "docs/FORMAT.md";

#[test]
fn annotated_bytes_are_the_example() {
    let (start, file) = annotated("The paper's example, byte by byte");
    assert_eq!((start, file), (0, read("examples/first.drf")));
    let (start, step) = annotated("A decision that brings an atom");
    let [before, with_step] = [0, 1].map(|last| said(&cut(&read_text("examples/sides.txt"), last)));
    assert_eq!((start, step), (before.len(), with_step[before.len()..].to_vec()));
}

/// The place of the first byte that a section's table sets out, and all its bytes
fn annotated(heading: &str) -> (usize, Vec<u8>) {
    let (mut start, mut bytes) = (None, Vec::new());
    for row in section(FORMAT, heading).rows() {
        let Some(place) = number(&row[0]) else { continue };
        assert_eq!(place, *start.get_or_insert(place) + bytes.len(), "{row:?}");
        bytes.extend(hex(&row[1]));
    }
    (start.expect("a table of bytes"), bytes)
}

/// The value that the sources give to a name
fn source(name: &str) -> usize {
    match name {
        "MOST_READ" => drf::MOST_READ,
        "MOST_LISTING" => drf::MOST_LISTING,
        "MOST_INSPECTION" => drf::MOST_INSPECTION,
        "MOST_WITH_NUMBERS" => drf::MOST_WITH_NUMBERS,
        "MOST_TEXT" => shell::text::MOST_TEXT,
        "MOST_TABLE" => drf::MOST_TABLE,
        "MOST_STEPS" => constant("crates/fields/src/lib.rt", "const MOST_STEPS: u32 = "),
        "MOST_C" => drf::MOST_C as usize,
        "MOST_FILE" => drf::MOST_FILE,
        "MOST_DENIED" => constant("crates/basis/src/lib.rt", "pub const MOST_DENIED: i32 = "),
        _ => constant("crates/basis/src/lib.rt", &format!("pub const {name}: usize = ")),
    }
}

/// The number behind these words at the start of a line
fn constant(path: &str, before: &str) -> usize {
    let text = read_text(path);
    let value = text.lines().find_map(|line| line.strip_prefix(before));
    let value = value.and_then(|value| value.trim_end_matches(';').parse().ok());
    value.unwrap_or_else(|| panic!("{path} has no line {before:?}"))
}

#[test]
fn limits_are_those_of_the_sources() {
    let limits = section(FORMAT, "Limits").rows();
    assert!(limits.len() > 10);
    for row in &limits[1..] {
        assert_eq!(number(&row[1]), Some(source(&row[2])), "{row:?}");
    }
    let fields = section(FORMAT, "The run file").rows();
    let counts: Vec<_> = fields.iter().filter(|row| row.len() == 5 && row[3] == "3").collect();
    assert_eq!(counts.len(), 8);
    for row in counts {
        let field = row[0].rsplit(": ").next().unwrap_or_default();
        let limit = limits.iter().find(|limit| limit[0].starts_with(field));
        let limit = limit.unwrap_or_else(|| panic!("{field} has no limit"));
        assert_eq!(row[2], format!("0 to {}", limit[1]), "{field}");
    }
}

/// What a file of a version without constants, predicates and clauses begins with, as text
fn empty(version: u16) -> String {
    format!("drf {version}\nconstants 0\npredicates\n")
}

/// A rule's arguments as a table names them, each as a text has it and as so many bytes
fn argument(name: &str) -> (&str, usize) {
    match name {
        "none" => ("", 0),
        "sign" => (" +", 1),
        "instance" => (" ()", 1),
        "atoms" => (" with 1 1 ~ ()", 5),
        _ => (" 1", 1),
    }
}

#[test]
fn rules_are_as_the_page_says() {
    let rows = section(FORMAT, "The run file").rows();
    let rules: Vec<_> =
        rows.iter().filter(|row| row.len() == 3 && number(&row[0]).is_some()).collect();
    assert_eq!(rules.len(), 8);
    for (rule, version) in rules.iter().flat_map(|rule| [(rule, 1), (rule, 2)]) {
        let (both, second) =
            rule[2].split_once("; in version 2 then ").unwrap_or((&rule[2], "none"));
        let second = if version == 2 { second } else { "none" };
        let arguments: Vec<_> = both.split(", ").chain([second]).map(argument).collect();
        let text: String = arguments.iter().map(|argument| argument.0).collect();
        let empty = empty(version);
        let file = said(&format!("{empty}{}{text}\n", rule[1]));
        let step = &file[said(&empty).len()..];
        assert_eq!(Some(step[0].into()), number(&rule[0]), "{rule:?}");
        assert_eq!(step.len(), 1 + arguments.iter().map(|argument| argument.1).sum::<usize>());
        assert!(listing(&file).starts_with(&format!("1 {} ", rule[1])), "{rule:?}");
    }
}

/// The examples in a cell
fn in_cell(cell: &str) -> Vec<&str> {
    cell.split('`').step_by(2).collect()
}

#[test]
fn examples_of_lines_are_read() {
    let rows = section(FORMAT, "The text form").rows();
    let of = |name: &str| {
        let row = rows.iter().find(|row| row[0].starts_with(name));
        in_cell(&row.unwrap_or_else(|| panic!("no row {name:?}"))[2])
    };
    for version in of("drf") {
        for (constants, predicates) in of("constants").iter().zip(of("predicates")) {
            let mut lines = vec![version, constants, predicates];
            lines.extend(of("clause").into_iter().chain(of("NUMBER")));
            said(&lines.join("\n"));
        }
    }
    let clause = format!("clause 2 [{}] {}\n", of("atom").join(" "), of("literal").join(" "));
    let step = |instance: &&str| format!("conflict 1 {instance}\n");
    let decide = |sign: &&str| format!("decide 1 1 {sign} ()\n");
    let steps: String =
        of("instance").iter().map(step).chain(of("Decide").iter().map(decide)).collect();
    let bringing = |atoms: &&str| format!("decide 1 1 + () {atoms}\n");
    let bringing: String = of("atoms").iter().map(bringing).collect();
    let head = "constants soda lime\npredicates Taken/2 1 0";
    said(&format!("drf 1\n{head}\n{clause}{steps}"));
    said(&format!("drf 2\n{head}\n{clause}{steps}{bringing}"));
}

#[test]
fn text_form_is_as_the_page_says() {
    let section = section(FORMAT, "The text form");
    let first = read("examples/first.drf");
    let [example, canonical, faults @ ..] = &section.blocks[..] else { panic!("no examples") };
    assert_eq!(example.file(), first);
    assert_eq!(canonical.kind, "canonical");
    assert_eq!(Some(&canonical.body), shell::text::text(&first).as_ref());
    assert!(!faults.is_empty());
    for two in faults.chunks(2) {
        let [broken, fault] = two else { panic!("a text without its fault") };
        assert_eq!([&broken.kind[..], &fault.kind], ["broken", "fault"]);
        match shell::text::bytes(broken.body.as_bytes()) {
            Ok(_) => panic!("not broken:\n{}", broken.body),
            Err(found) => assert_eq!(fault.body, format!("{found}\n")),
        }
    }
}

#[test]
fn tables_are_as_the_page_says() {
    let section = section(FORMAT, "A lookup table");
    let [rows, exact, approximate, broken, fault] = &section.blocks[..] else { panic!("blocks") };
    let blocks = section.blocks.iter().map(|block| block.kind.as_str());
    assert!(blocks.eq(["rows", "exact", "approximate", "unreadable", "fault"]));
    for lines in [exact, approximate] {
        assert_eq!(lines.body, table_lines(&rows.body, &lines.kind));
    }
    let mut clause = Vec::new();
    for row in section.rows() {
        let Some(place) = number(&row[0]) else { continue };
        assert_eq!(place, clause.len(), "{row:?}");
        clause.extend(hex(&row[1]));
    }
    let clauses = made(&rows.body, "approximate", drf::MOST_TABLE).expect("a table in order");
    assert!(clauses.starts_with(&clause) && clause.len() == 31, "{clauses:?}");
    let ended = table(&broken.body, "--exact");
    let expected = format!("drf: rows.csv: {}", fault.body);
    assert_eq!(ended, Ended { status: Some(2), out: String::new(), err: expected });
}

/// One use for each fault, in their order, which has those of the rows below it too where it can.
#[test]
fn faults_of_tables_are_as_the_page_says() {
    let section = section(FORMAT, "A lookup table");
    let cells = section.prose.iter().map(|line| line.trim_matches(['|', ' ']).split(" | "));
    let faults: Vec<(&str, usize)> = cells
        .filter_map(|cells| match cells.collect::<Vec<_>>()[..] {
            [_, said, status] => Some((said, number(status)?)),
            _ => None,
        })
        .collect();
    let uses = [
        ("table", "missing.csv >&-"),
        ("table --exact", "missing.csv >&-"),
        ("table --exact", "missing.csv >/dev/full"),
        ("table --exact", "broken.csv >/dev/full"),
        ("table --exact", "falling.csv >/dev/full"),
        ("table --exact", "rows.csv >/dev/full"),
    ];
    assert_eq!(faults.len(), uses.len());
    let folder = Folder::new("pages/faults");
    folder.put("broken.csv", "2, 2\n1, 1\nx\n");
    folder.put("falling.csv", "2, 2\n1, 1\n");
    folder.put("rows.csv", "1, 1\n");
    for ((said, status), (words, file)) in faults.iter().zip(uses) {
        let ended = folder.run(&format!("drf {words} {file}"));
        assert_eq!(ended.status, Some(*status as i32), "{said}: {ended:?}");
        let name = file.split(' ').next().unwrap_or_default();
        let begins = said.split('`').nth(1).unwrap_or_default().replace("FILE", name);
        assert!(ended.err.starts_with(&format!("drf: {begins}")), "{said}: {ended:?}");
    }
}

#[test]
fn inspection_is_as_the_page_says() {
    let section = section(FORMAT, "What `inspect` prints");
    let pairs = section.pairs("inspection");
    assert!(!pairs.is_empty());
    for (run, shown) in pairs {
        assert_eq!(shown.body, inspection(&run.file()));
    }
}

#[test]
fn numbers_are_as_the_page_says() {
    let section = section(FORMAT, "The numbers behind a yes");
    let pairs = section.pairs("numbers");
    assert!(!pairs.is_empty());
    for (run, shown) in pairs {
        assert_eq!(shown.body, numbered(&run.file()));
    }
}

// ---- links

/// What a link to a heading is called
fn anchor(heading: &str) -> String {
    let kept = heading.to_lowercase().replace(' ', "-");
    kept.chars().filter(|c| c.is_alphanumeric() || "-_".contains(*c)).collect()
}

/// Every page of the project
fn pages() -> Vec<String> {
    let folders = ["", "docs/", "checker/", "compare/"];
    let in_folder = |folder: &str| {
        let entries = fs::read_dir(root(folder)).expect("a folder of pages");
        let names = entries.map(|entry| entry.expect("an entry").file_name());
        let names = names.filter_map(|name| name.into_string().ok());
        let pages = names.filter(|name| name.ends_with(".md"));
        pages.map(|name| format!("{folder}{name}")).collect::<Vec<_>>()
    };
    folders.iter().flat_map(|folder| in_folder(folder)).collect()
}

#[test]
fn links_lead_somewhere() {
    let pages = pages();
    assert!(pages.len() >= 13, "{pages:?}");
    for page in &pages {
        let text = read_text(page);
        let folder = page.rsplit_once('/').map_or("", |(folder, _)| folder);
        for link in text.split("](").skip(1).filter_map(|rest| rest.split(')').next()) {
            let (to, place) = link.split_once('#').unwrap_or((link, ""));
            let beside = Path::new(folder).join(to).to_string_lossy().into_owned();
            let to = if to.is_empty() { page.clone() } else { beside };
            assert!(root(&to).exists(), "{page}: {link} leads nowhere");
            let headed = |place| sections(&to).iter().any(|s| anchor(&s.heading) == place);
            assert!(place.is_empty() || headed(place), "{page}: {to} has no heading for {link}");
        }
    }
}

#[test]
fn the_readme_shows_the_first_listing() {
    let listing = listing(&read("examples/first.drf"));
    let lines = listing.lines().map(|line| format!("    {line}\n")).collect::<String>();
    assert!(read_text("README.md").contains(&lines), "README.md has no lines\n{lines}");
}
