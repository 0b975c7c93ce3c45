//! The text form of a run file: text and bytes say the same, whatever the text is written like, up to the ends of every number.

use checker::file::{RunFile, VERSIONS};
use checker::generate::generate_version;
use checker::step::{Source, Step};
use drf::{inspect, judge, MOST_INSPECTION, MOST_LISTING, MOST_READ};
use shell::text::{bytes, text, MOST_TEXT};
use std::sync::atomic::{AtomicU64, AtomicUsize, Ordering::Relaxed};
use std::thread;

/// Valid ones, of each version
const FILES: usize = 10_000;
const WORKERS: usize = 2;

/// The bytes of a text that says a file
fn bytes_of(text: &str) -> Vec<u8> {
    bytes(text.as_bytes()).unwrap_or_else(|fault| panic!("{fault}"))
}

/// The fault of a text that says none
fn fault_of(text: &str) -> String {
    bytes(text.as_bytes()).map_or_else(|fault| fault.to_string(), |_| "none".to_string())
}

/// The lines of a text that begin as told
fn lines_that(text: &str, begin: impl Fn(&str) -> bool) -> String {
    text.split_inclusive('\n').filter(|line| begin(line)).collect()
}

fn clause_lines(text: &str) -> String {
    lines_that(text, |line| line.starts_with("clause "))
}

/// The text without its steps, which begin with their numbers
fn without_steps(text: &str) -> String {
    lines_that(text, |line| !line.starts_with(|first: char| first.is_ascii_digit()))
}

/// What `inspect` prints of a file
fn inspected(file: &[u8], buffer: &mut [u8]) -> String {
    let told = inspect(file, buffer).expect("the buffer is long enough");
    String::from_utf8_lossy(told.text).into_owned()
}

/// A step behind its number
fn step_text(step: &Step) -> String {
    let name = step.rule_name();
    match step {
        Step::Propagate { clause, literal, instance } => {
            format!("{name} {clause} {literal} {}", tuple(instance))
        }
        Step::Decide { clause, literal, positive, instance, atoms } => {
            let sign = sign(*positive);
            let brought = brought_text(atoms);
            format!("{name} {clause} {literal} {sign} {}{brought}", tuple(instance))
        }
        Step::Conflict { clause, instance } => format!("{name} {clause} {}", tuple(instance)),
        Step::Resolve { literal } | Step::Backtrack { literal } => format!("{name} {literal}"),
        Step::Factorize { first, second } => format!("{name} {first} {second}"),
        Step::Skip => name.to_string(),
        Step::Grow { count } => format!("{name} {count}"),
    }
}

/// What stands behind a decision that brings these atoms
fn brought_text(atoms: &[Source]) -> String {
    let atom = |source: &Source| {
        let Source { clause, number, stands, instance } = source;
        format!("{clause} {number} {} {}", sign(*stands), tuple(instance))
    };
    let atoms: Vec<String> = atoms.iter().map(atom).collect();
    if atoms.is_empty() {
        return String::new();
    }
    format!(" with {}", atoms.join(", "))
}

fn sign(positive: bool) -> char {
    if positive {
        '+'
    } else {
        '~'
    }
}

fn tuple(instance: &[u8]) -> String {
    let constants: Vec<String> = instance.iter().map(u8::to_string).collect();
    format!("({})", constants.join(","))
}

/// The text of a file as the checker reads it, with clause lines as they are printed by `inspect`
fn text_by_others(run: &RunFile, clauses: &str) -> String {
    let arities: String = run.arities.iter().map(|arity| format!(" {arity}")).collect();
    let steps = run.steps.iter().zip(1..);
    let steps: String = steps.map(|(step, k)| format!("{k} {}\n", step_text(step))).collect();
    let RunFile { version, constants, .. } = run;
    format!("drf {version}\nconstants {constants}\npredicates{arities}\n{clauses}{steps}")
}

/// What is wrong with a valid file's text
fn wrong(file: &[u8], run: &RunFile, buffer: &mut [u8]) -> Option<&'static str> {
    let Some(written) = text(file) else { return Some("a valid file has no text") };
    let back = bytes_of(&written);
    let opened = inspected(&bytes_of(&without_steps(&written)), buffer);
    if back != file {
        Some("the text's bytes are others")
    } else if text(&back).as_ref() != Some(&written) {
        Some("the text's bytes have another text")
    } else if written != text_by_others(run, &clause_lines(&opened)) {
        Some("the text is another than that by the checker and `inspect`")
    } else {
        None
    }
}

/// A file that is not valid has no text, or one that says it.
fn wrong_if_refused(file: &[u8]) -> Option<&'static str> {
    let differs = text(file).is_some_and(|text| bytes_of(&text) != file);
    differs.then_some("the text's bytes are others")
}

/// The last seed taken, how many files were valid, and how many of them have a decision that brings atoms
#[derive(Default)]
struct Taken {
    seeds: AtomicU64,
    valid: AtomicUsize,
    bringing: AtomicUsize,
}

fn brings(step: &Step) -> bool {
    matches!(step, Step::Decide { atoms, .. } if !atoms.is_empty())
}

/// Takes seeds until there are enough valid files.
fn take_seeds(version: u16, taken: &Taken) {
    let mut buffer = vec![0; MOST_INSPECTION];
    while taken.valid.load(Relaxed) < FILES {
        let seed = taken.seeds.fetch_add(1, Relaxed) + 1;
        let file = generate_version(version, seed);
        let wrong = match checker::file::read(&file) {
            Ok(run) => {
                taken.valid.fetch_add(1, Relaxed);
                taken.bringing.fetch_add(run.steps.iter().any(brings).into(), Relaxed);
                wrong(&file, &run, &mut buffer)
            }
            Err(_) => wrong_if_refused(&file),
        };
        assert_eq!(wrong, None, "version {version}, seed {seed}");
    }
}

#[test]
fn text_and_back() {
    for version in VERSIONS {
        let taken = Taken::default();
        thread::scope(|scope| {
            for _ in 0..WORKERS {
                scope.spawn(|| take_seeds(version, &taken));
            }
        });
        let [valid, bringing] = [taken.valid, taken.bringing].map(AtomicUsize::into_inner);
        let seeds = taken.seeds.into_inner();
        println!("version {version}: {valid} valid files of {seeds} seeds, {bringing} bring atoms");
        assert_eq!(bringing > FILES / 10, version > 1, "{bringing} files bring atoms");
    }
}

/// The paper's example
#[test]
fn first() {
    let file = b"DRF\x01\0\x01\x01\x01\x02\x01\x01\x01\x01\0\x0A\0\0\0\x01\x01\x01\x01\x01\x01\0\x01\xFD\xFF\xFF\xFF\0\x01\x01\
        \x04\0\x01\x01\x01\x01\x01\x03\x02\x01\x01\x06\x04\x01";
    let written = "drf 1\nconstants 1\npredicates 1\nclause 1 1 [1-0<=10] P1(1)\nclause 2 1 [0-1<=-3] ~P1(1)\n\
        1 propagate 1 1 (1)\n2 conflict 2 (1)\n3 skip\n4 resolve 1\n";
    assert_eq!(text(file).as_deref(), Some(written));
    assert_eq!(bytes_of(written), file);
}

/// Every kind of line, as `text` writes it
const EVERY: &str = "\
drf 1
constants 2
predicates 2 1 0
clause 1 2 [1-0<=4120 0-1<=-4120] P1(1,2) ~P2(1)
clause 2 0 [] P3() ~P1(1,2)
clause 3 0 []
1 propagate 1 1 (2,1)
2 decide 1 2 + (1,2)
3 decide 1 2 ~ (2,1)
4 conflict 2 ()
5 resolve 1
6 factorize 1 2
7 skip
8 backtrack 1
9 grow 2
";

/// What version 2 has besides
const BRINGING: &str = "\
10 decide 1 2 ~ (1,2) with 1 2 ~ (2,1)
11 decide 1 2 + (2,2) with 1 1 + (1,1), 3 1 ~ (), 1 2 + (2,1)
";

/// The same with names, without numbers, and with blanks and comments wherever they can stand
const OTHERWISE: &str = "
# A lookup that went wrong.

\tdrf 01# the version
constants soda lime     # in the order of their codes: größer heißt später
predicates Taken/2 Open / 1 0
  clause 2 [ 1 - 0 <= 4120\t0 - 1 <= - 4120 ] Taken ( 1 , 2 ) ~ Open(1) #
clause 0[]P3()~Taken(1,2)

clause 3 000 []
propagate 1 1 (lime,soda)
decide 1 2+(soda,2)
   3 decide 1 2 ~ (lime, 1)
conflict 2()

# clause 4 0 []
resolve 1
factorize 1 2
7\tskip
backtrack 1
grow 2";

const BRINGING_OTHERWISE: &str = "
  decide 1 2 ~ (soda,2) with 1 2 ~ (lime,soda)
11 decide 1 2+(lime,2)with 1 1+(1 , soda),3 1 ~ ( ) ,\t1 2 + (lime,1)# three atoms";

/// The text of version 2: what it has besides comes at its end.
fn in_version_2(text: &str, besides: &str) -> String {
    text.replace("drf 01", "drf 2").replace("drf 1", "drf 2") + besides
}

#[test]
fn written_otherwise() {
    other_ways(EVERY, OTHERWISE);
    other_ways(&in_version_2(EVERY, ""), &in_version_2(OTHERWISE, ""));
    other_ways(&in_version_2(EVERY, BRINGING), &in_version_2(OTHERWISE, BRINGING_OTHERWISE));
}

fn other_ways(every: &str, otherwise: &str) {
    let file = bytes_of(every);
    assert_eq!(text(&file).as_deref(), Some(every));
    let cases = [
        otherwise.to_string(),
        otherwise.replace('\n', "\r\n"),
        otherwise.replace('\n', "\n\n"),
        otherwise.replace(' ', "\t \t"),
        format!("\u{FEFF}{otherwise}"),
        format!("\u{FEFF}{}", every.replace('\n', " # \u{FEFF}\r\n \t\r\n")),
        // Predicates and constants have their names apart, and no word is kept from them.
        otherwise.replace("soda", "clause").replace("lime", "Taken").replace("Open", "drf"),
        otherwise.replace("soda", "with").replace("lime", "decide"),
        otherwise.replace("soda", "P1").replace("lime", "P_2"),
        otherwise.replace("Taken", "P").replace("Open", "p"),
        otherwise.replace("Taken", "open").replace("Open(", "P002("),
    ];
    for case in cases {
        assert_eq!(bytes_of(&case), file, "{case}");
    }
}

/// The two versions differ in the version and in a count behind each decision.
#[test]
fn version_2() {
    let (first, second) = (bytes_of(EVERY), bytes_of(&in_version_2(EVERY, "")));
    let decide = |instance: [u8; 2], sign| [&[2, 1, 2, sign, 2][..], &instance].concat();
    let decisions = [decide([1, 2], 1), decide([2, 1], 0)].concat();
    let counted = [decide([1, 2], 1), vec![0], decide([2, 1], 0), vec![0]].concat();
    let at = first.windows(decisions.len()).position(|part| part == decisions).expect("decisions");
    let behind = &first[at + decisions.len()..];
    assert_eq!([&b"DRF\x02\0"[..], &first[5..at], &counted, behind].concat(), second);

    let bringing = bytes_of(&in_version_2(EVERY, BRINGING));
    let one = [&decide([1, 2], 0)[..], &[1, 1, 2, 0, 2, 2, 1]].concat();
    let three = [&decide([2, 2], 1)[..], &[3, 1, 1, 1, 2, 1, 1, 3, 1, 0, 0, 1, 2, 1, 2, 2, 1]];
    assert!(bringing.ends_with(&[one, three.concat()].concat()), "{bringing:?}");
    let fault = "line 16, column 23: expected the end of the line (`decide` brings atoms, from `drf 2` on), found `with`";
    assert_eq!(fault_of(&(EVERY.to_string() + BRINGING)), fault);
}

/// What stands before the clauses in the texts below; the number of clauses is byte 10
const HEAD: &str = "drf 1\nconstants soda lime\npredicates Taken/2 1 0\n";
const HEAD_2: &str = "drf 2\nconstants soda lime\npredicates Taken/2 1 0\n";

/// A number of one byte: the text, from below HEAD, with @ for the number; its byte in the file; what is expected of it
const BYTES: [(&str, usize, &str); 23] = [
    ("clause @ []", 11, "a number of variables from 0 to 255"),
    ("clause 1 @ []", 11, "a number of variables from 0 to 255"),
    ("clause 0 [@-0<=0]", 14, "a place from 0 to 255"),
    ("clause 0 [0-@<=0]", 15, "a place from 0 to 255"),
    ("clause 0 [] Taken(@,1)", 16, "a variable (a number from 0 to 255)"),
    ("clause 0 [] Taken(1,@)", 17, "a variable (a number from 0 to 255)"),
    ("propagate @ 1 ()", 14, "a clause's number from 0 to 255"),
    ("propagate 1 @ ()", 15, "a literal's number from 0 to 255"),
    ("propagate 1 1 (@)", 17, "a constant (a number from 0 to 255, or a name given above)"),
    ("decide @ 1 + ()", 14, "a clause's number from 0 to 255"),
    ("decide 1 @ + ()", 15, "a literal's number from 0 to 255"),
    ("decide 1 1 ~ (1,@)", 19, "a constant (a number from 0 to 255, or a name given above)"),
    ("decide 1 1 ~ () with @ 1 + ()", 19, "a clause's number from 0 to 255"),
    ("decide 1 1 ~ () with 1 @ + ()", 20, "an atom's number from 0 to 255"),
    (
        "decide 1 1 ~ () with 1 1 + (@)",
        23,
        "a constant (a number from 0 to 255, or a name given above)",
    ),
    ("decide 1 1 ~ () with 1 1 + (), @ 1 ~ ()", 23, "a clause's number from 0 to 255"),
    ("conflict @ ()", 14, "a clause's number from 0 to 255"),
    ("conflict 1 (1,1,@)", 18, "a constant (a number from 0 to 255, or a name given above)"),
    ("resolve @", 14, "a literal's number from 0 to 255"),
    ("factorize @ 1", 14, "a literal's number from 0 to 255"),
    ("factorize 1 @", 15, "a literal's number from 0 to 255"),
    ("backtrack @", 14, "a literal's number from 0 to 255"),
    ("grow @", 14, "a number of constants from 0 to 255"),
];

#[test]
fn ends_of_bytes() {
    for (line, at, expected) in BYTES {
        let head = if line.contains(" with ") { HEAD_2 } else { HEAD };
        for end in [0, 255] {
            let file = bytes_of(&format!("{head}{}", line.replace('@', &end.to_string())));
            assert_eq!(file[at], end, "{line}");
        }
        let column = line.find('@').map_or(0, |index| index + 1);
        assert_eq!(
            fault_of(&format!("{head}{}", line.replace('@', "256"))),
            format!("line 4, column {column}: expected {expected}, found 256")
        );
    }
}

/// Numbers of the lines above the clauses, of predicates, and c
#[test]
fn ends_of_other_numbers() {
    let head = |version, constants, arity| {
        format!("drf {version}\nconstants {constants}\npredicates {arity}\n")
    };
    assert_eq!(bytes_of(&head(0, 0, 0)), b"DRF\0\0\0\x01\0\0\0\0");
    assert_eq!(bytes_of(&head(65535, 255, 255)), b"DRF\xFF\xFF\xFF\x01\xFF\0\0\0");
    let fault = "line 1, column 5: expected a version from 0 to 65535, found 65536";
    assert_eq!(fault_of(&head(65536, 0, 0)), fault);
    let fault = "line 2, column 11: expected a number of constants from 0 to 255, found 256";
    assert_eq!(fault_of(&head(1, 256, 0)), fault);
    let fault = "line 3, column 12: expected an arity from 0 to 255, found 256";
    assert_eq!(fault_of(&head(1, 0, 256)), fault);

    let predicate = |name| format!("{HEAD}clause 0 [] {name}(9)");
    assert_eq!(bytes_of(&predicate("P0"))[14..17], [1, 0, 9]);
    assert_eq!(bytes_of(&predicate("P255"))[14..17], [1, 255, 9]);
    let fault = "line 4, column 13: expected a predicate from P0 to P255, found `P256`";
    assert_eq!(fault_of(&predicate("P256")), fault);

    let c = |c: i64| format!("{HEAD}clause 0 [1-0<={c}]");
    assert_eq!(bytes_of(&c(i32::MAX.into()))[16..20], i32::MAX.to_le_bytes());
    assert_eq!(bytes_of(&c(i32::MIN.into()))[16..20], i32::MIN.to_le_bytes());
    let fault = "line 4, column 16: expected a number from -2147483648 to 2147483647, found";
    assert_eq!(fault_of(&c(i64::from(i32::MAX) + 1)), format!("{fault} 2147483648"));
    assert_eq!(fault_of(&c(i64::from(i32::MIN) - 1)), format!("{fault} -2147483649"));
}

/// So many things in a row
fn row(count: usize, thing: impl Fn(usize) -> String) -> String {
    (1..=count).map(thing).collect()
}

/// A text with so many things of a kind
type Many = fn(usize) -> String;

/// What is counted, the greatest count, a byte of the file that is 255 then, and the place of one more
const COUNTS: [(Many, &str, usize, &str); 10] = [
    (many_constants, "255 constants", 5, "line 2, column 1178"),
    (many_arities, "255 predicates", 6, "line 3, column 522"),
    (many_predicates, "255 predicates", 6, "line 3, column 1689"),
    (|n| HEAD.to_string() + &"clause 0 []\n".repeat(n), "255 clauses", 10, "line 259, column 1"),
    (|n| HEAD.to_string() + &many_atoms(n), "255 atoms", 12, "line 4, column 1796"),
    (|n| HEAD.to_string() + &many_literals(n), "255 literals", 13, "line 4, column 1033"),
    (|n| HEAD.to_string() + &many_arguments(n), "255 arguments", 270, "line 4, column 1036"),
    (many_in_instance, "255 constants of the instance", 15, "line 4, column 523"),
    (many_brought, "255 atoms of a decision", 18, "line 4, column 2827"),
    (|n| HEAD.to_string() + &"skip\n".repeat(n), "65535 steps", 12, "line 65539, column 1"),
];

fn many_constants(n: usize) -> String {
    format!("drf 1\nconstants{}\npredicates", row(n, |k| format!(" c{k}")))
}

fn many_arities(n: usize) -> String {
    format!("drf 1\nconstants 0\npredicates{}", " 1".repeat(n))
}

fn many_predicates(n: usize) -> String {
    format!("drf 1\nconstants 0\npredicates{}", row(n, |k| format!(" p{k}/1")))
}

fn many_atoms(n: usize) -> String {
    format!("clause 0 [{}]", "1-0<=0 ".repeat(n))
}

fn many_literals(n: usize) -> String {
    format!("clause 0 [] {}", "P3()".repeat(n))
}

fn many_arguments(n: usize) -> String {
    format!("clause 0 [] P9({}255)", "255,".repeat(n - 1))
}

fn many_in_instance(n: usize) -> String {
    format!("{HEAD}conflict 1 ({}1)", "1,".repeat(n - 1))
}

fn many_brought(n: usize) -> String {
    let atoms = vec!["1 1 + (1)"; n];
    format!("{HEAD_2}decide 1 1 + () with {}", atoms.join(", "))
}

#[test]
fn ends_of_counts() {
    for (many, most, at, place) in COUNTS {
        let count = if most.ends_with("steps") { 65535 } else { 255 };
        let file = bytes_of(&many(count));
        assert_eq!(file[at], 255, "{most}");
        let again = text(&file).map(|text| bytes_of(&text));
        assert!(again.is_none_or(|again| again == file), "{most}");
        let fault = format!("{place}: expected at most {most}, found one more");
        assert_eq!(fault_of(&many(count + 1)), fault);
    }
}

#[test]
fn end_of_the_text() {
    let padded = |length: usize| format!("{EVERY}#{}", " ".repeat(length - EVERY.len() - 1));
    assert_eq!(bytes_of(&padded(MOST_TEXT)), bytes_of(EVERY));
    assert_eq!(
        fault_of(&padded(MOST_TEXT + 1)),
        "line 1, column 1: expected a text of at most 16 MiB, found a longer one"
    );
}

/// What a text can say and the judge refuses, with number and place
#[test]
fn refused_by_the_judge() {
    let below = |lines: &str| format!("drf 1\nconstants 2\npredicates 2 1\n{lines}");
    let bringing =
        |atoms: &str| below(&format!("decide 1 1 + () with {atoms}")).replacen('1', "2", 1);
    let instance = "1,".repeat(12);
    let cases = [
        (format!("drf 0{}", &EVERY[5..]), 2, 3),
        (format!("drf 3{}", &EVERY[5..]), 2, 3),
        ("drf 1\nconstants 17\npredicates".to_string(), 3, 5),
        ("drf 1\nconstants 2\npredicates 1 1 1 1 1 1 1 1 1".to_string(), 3, 6),
        ("drf 1\nconstants 2\npredicates 4".to_string(), 3, 7),
        (below(&"clause 0 []\n".repeat(49)), 3, 9),
        (below("clause 13 []"), 3, 10),
        (below("clause 1 1 [1-0<=2000000]"), 4, 15),
        (below("clause 1 1 [0-0<=2]"), 4, 14),
        (below("clause 1 1 [2-0<=2]"), 4, 13),
        (below("clause 1 2 [] P9(1,1)"), 4, 14),
        (below("clause 1 2 [] P0()"), 4, 14),
        (below("clause 1 1 [] P1(1,2)"), 4, 16),
        (below("clause 1 1 [] P1(1,0)"), 4, 16),
        (below("clause 1 2 [1-0<=2]"), 5, 10),
        (below("clause 1 2 [1-2<=2]"), 6, 10),
        (below(&"skip\n".repeat(2001)), 3, 10),
        (below(&format!("conflict 1 ({instance}1)")), 3, 14),
        (below("conflict 1 ()"), 10, 0),
        (below("skip"), 9, 0),
        (bringing(&format!("1 1 + ({instance}1)")), 3, 21),
        (bringing(&format!("1 1 + (){}", ", 1 1 + ()".repeat(24))), 3, 17),
        (bringing("1 1 + ()"), 10, 0),
        (below(&"skip\n".repeat(65_524)), 3, 10),
        (below(&"skip\n".repeat(65_525)), 22, 65_536),
    ];
    for (text, number, place) in cases {
        assert_eq!(ends(&bytes_of(&text)), (number, place), "{text}");
    }
}

/// Number and place that judging a file ends with
fn ends(file: &[u8]) -> (u8, u64) {
    let mut buffer = vec![0; MOST_LISTING];
    let told = judge(file, &mut buffer).expect("the buffer is long enough");
    (told.number, told.place)
}

/// As many bytes as a valid file can have: decisions with all the atoms and constants that can be counted
#[test]
fn longest_file() {
    let instance = format!("({}1)", "1,".repeat(11));
    let atoms = vec![format!("1 1 ~ {instance}"); 24];
    let decide = format!("decide 1 1 + {instance} with {}\n", atoms.join(", "));
    let longest = format!("drf 2\nconstants 0\npredicates\n{}", decide.repeat(163));
    let file = bytes_of(&longest);
    assert_eq!(file.len(), MOST_READ - 1);
    assert_eq!(text(&file).map(|text| bytes_of(&text)).as_ref(), Some(&file));
    assert_eq!(ends(&file), (10, 0));
    assert_eq!(ends(&bytes_of(&(longest + "skip\n"))), (22, 65_536));
}

/// Files that no text says
#[test]
fn no_text() {
    let file = bytes_of(&in_version_2(EVERY, BRINGING));
    for end in 0..file.len() {
        assert_eq!(text(&file[..end]), None, "the first {end} bytes");
    }
    let with = |at: usize, byte: u8| {
        let mut file = file.clone();
        file[at] = byte;
        text(&file)
    };
    let found = |bytes: [u8; 4]| file.windows(4).position(|other| other == bytes);
    let literal = found([1, 1, 1, 2]).expect("P1(1,2)");
    let decide = found([2, 1, 2, 0]).expect("decide 1 2 ~");
    let atom = found([3, 1, 0, 0]).expect("3 1 ~ ()");
    assert_eq!(text(&[file.as_slice(), &[0]].concat()), None, "a byte behind the last step");
    assert_eq!(with(2, b'f'), None, "the mark");
    assert_eq!(with(3, 1), None, "version 1, which has no count behind a decision");
    assert_eq!(with(3, 3), None, "the version");
    assert_eq!(with(literal, 2), None, "a literal's sign");
    assert_eq!(with(literal + 1, 9), None, "a predicate that is not declared");
    assert_eq!(with(decide, 9), None, "a rule that there is not");
    assert_eq!(with(decide + 3, 2), None, "a decision's sign");
    assert_eq!(with(atom + 2, 2), None, "the sign of an atom brought");
}
