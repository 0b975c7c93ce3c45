//! The fields of a run file that both directions go by, for each version.

const MARK: &[u8; 3] = b"DRF";

/// The number of steps has 16 bits.
pub const ROOM_FOR_STEPS: usize = 65_535;

/// What a step has behind its rule
#[derive(Clone, Copy)]
pub enum Field {
    /// One byte that is a number: what it counts or names.
    Number(&'static str),
    /// 0, written `~`, or 1, written `+`: how the two are told of
    Sign(&'static str),
    /// A count and constants
    Instance,
    /// A count, and so many atoms of the fields `ATOM`
    Brought,
}

pub struct Rule {
    pub name: &'static str,
    pub fields: &'static [Field],
}

const CLAUSE: Field = Field::Number("a clause's number");
const LITERAL: Field = Field::Number("a literal's number");
const CONSTANTS: Field = Field::Number("a number of constants");

/// Of a literal: positive, negative
const SIGN: Field = Field::Sign("`+` or `~`");

/// The word between a decision and the atoms that it brings
pub const WITH: &str = "with";

/// Of an atom that a decision brings
pub const ATOM: &[Field] = &[
    CLAUSE,
    Field::Number("an atom's number"),
    Field::Sign("`+` as it stands, `~` denied"),
    Field::Instance,
];

const DECIDE: &[Field] = &[CLAUSE, LITERAL, SIGN, Field::Instance];
const DECIDE_BRINGING: &[Field] = &[CLAUSE, LITERAL, SIGN, Field::Instance, Field::Brought];

/// The rules, with these fields of Decide
const fn rules(decide: &'static [Field]) -> [Rule; 8] {
    [
        Rule { name: "propagate", fields: &[CLAUSE, LITERAL, Field::Instance] },
        Rule { name: "decide", fields: decide },
        Rule { name: "conflict", fields: &[CLAUSE, Field::Instance] },
        Rule { name: "resolve", fields: &[LITERAL] },
        Rule { name: "factorize", fields: &[LITERAL, LITERAL] },
        Rule { name: "skip", fields: &[] },
        Rule { name: "backtrack", fields: &[LITERAL] },
        Rule { name: "grow", fields: &[CONSTANTS] },
    ]
}

static RULES_1: [Rule; 8] = rules(DECIDE);
static RULES_2: [Rule; 8] = rules(DECIDE_BRINGING);

/// What the files of a version have
pub struct Version {
    pub number: u16,
    /// In the order of their numbers, from 1
    pub rules: &'static [Rule],
}

/// From the earliest to the latest
static VERSIONS: [Version; 2] =
    [Version { number: 1, rules: &RULES_1 }, Version { number: 2, rules: &RULES_2 }];

impl Version {
    pub fn of(number: u16) -> Option<&'static Version> {
        VERSIONS.iter().find(|version| version.number == number)
    }

    /// A text of a version that there is not is read as one of the latest, and the judge refuses the file.
    pub fn of_text(number: u16) -> &'static Version {
        Version::of(number).unwrap_or(&VERSIONS[VERSIONS.len() - 1])
    }
}

/// The first bytes of a file of that version number
pub fn opening(version: u16) -> Vec<u8> {
    [MARK.as_slice(), &version.to_le_bytes()].concat()
}

/// A file of version 1 with these clauses alone: no constants and no steps
pub fn clauses_alone(arities: &[u8], count: u8, clauses: &[u8]) -> Vec<u8> {
    let head = [&opening(1)[..], &[0, arities.len() as u8], arities, &[count]].concat();
    [&head[..], clauses, &[0, 0]].concat()
}

/// The version of a file and the bytes behind it
pub fn opened(file: &[u8]) -> Option<(&'static Version, &[u8])> {
    let (version, fields) = file.strip_prefix(MARK)?.split_first_chunk()?;
    Some((Version::of(u16::from_le_bytes(*version))?, fields))
}

/// Whether bytes that are to be a text are those of a run file: the byte behind the mark is a version's and no character of a text.
pub fn begins_file(text: &[u8]) -> bool {
    text.strip_prefix(MARK).and_then(<[u8]>::first).is_some_and(|&version| version < b'\t')
}
