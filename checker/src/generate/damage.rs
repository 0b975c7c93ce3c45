//! Damaged files: cuts, fields set out of their range, flips, surplus, clauses outside the class.

use crate::clause::Atom;
use crate::file::{write, Field, RunFile, Written};
use crate::limits;
use crate::random::Random;

/// The file written and damaged.
pub fn damaged(random: &mut Random, file: &RunFile) -> Vec<u8> {
    let mut written = match random.below(8) {
        0 => write(&outside_the_class(random, file.clone())),
        _ => write(file),
    };
    match random.below(16) {
        0 => return garbage(random),
        1..=4 => cut(random, &mut written),
        5..=10 => set_field(random, &mut written),
        11 => flip(random, &mut written.bytes),
        12 => surplus(random, &mut written.bytes),
        13 => shift(random, &mut written.bytes),
        _ => {
            // Two faults: the first one counts.
            set_field(random, &mut written);
            match random.below(3) {
                0 => cut(random, &mut written),
                1 => set_field(random, &mut written),
                _ => surplus(random, &mut written.bytes),
            }
        }
    }
    written.bytes
}

/// The file's bytes, or others, and more behind them: as many as a file may have, one more, or many more.
pub fn stretched(random: &mut Random, mut bytes: Vec<u8>) -> Vec<u8> {
    let most = limits::FILE_BYTES;
    let length = match random.below(8) {
        0 => most,
        1..=4 => most + 1,
        5 => random.within(most + 2..=most + 200),
        6 => 2 * most + random.below(3),
        _ => random.within(most + 1..=4 * most),
    };
    match random.below(6) {
        // zeros alone
        0 => bytes.clear(),
        // another mark, or a version that there is not
        1 => bytes.truncate(random.pick(&[0, 1, 2, 3, 3, 4, 4, 5])),
        _ => {}
    }
    let zeros = random.percent(50);
    while bytes.len() < length {
        bytes.push(if zeros { 0 } else { random.byte() });
    }
    bytes
}

/// Bytes that hardly begin like a file.
fn garbage(random: &mut Random) -> Vec<u8> {
    let begin: &[u8] =
        random.pick(&[&b""[..], &b"DR"[..], &b"DRF"[..], &b"DRF\x01"[..], &b"DRF\x01\x00"[..]]);
    let mut bytes = begin.to_vec();
    for _ in 0..random.below(30) {
        let small = random.percent(70);
        bytes.push(if small { random.below(4) as u8 } else { random.byte() });
    }
    bytes
}

/// A field of the file, each kind as likely as another: the kind, its place and its length.
fn any_field(random: &mut Random, written: &Written) -> (Field, usize, usize) {
    let mut kinds: Vec<Field> = written.fields.iter().map(|(field, _)| *field).collect();
    kinds.sort();
    kinds.dedup();
    let kind = random.pick(&kinds);
    let of_kind: Vec<usize> =
        (0..written.fields.len()).filter(|&index| written.fields[index].0 == kind).collect();
    let index = random.pick(&of_kind);
    let place = written.fields[index].1;
    let next = written.fields.get(index + 1).map_or(written.bytes.len(), |(_, place)| *place);
    (kind, place, next - place)
}

/// Ends the file before a field or inside it.
fn cut(random: &mut Random, written: &mut Written) {
    let (_, place, length) = any_field(random, written);
    written.bytes.truncate(place + random.below(length));
}

/// Sets a field to a number at or beyond the ends of its range.
fn set_field(random: &mut Random, written: &mut Written) {
    let (field, place, length) = any_field(random, written);
    match field {
        Field::C => {
            let ends = [limits::C, limits::C + 1, i32::MAX, i32::MIN, 1 << 24];
            let c = random.pick(&ends);
            let c = if random.percent(50) { c.wrapping_neg() } else { c };
            written.bytes[place..place + 4].copy_from_slice(&c.to_le_bytes());
        }
        Field::Steps => {
            let steps = random.pick(&[2_000u16, 2_001, 0x0800, u16::MAX, 0, 1]);
            written.bytes[place..place + 2].copy_from_slice(&steps.to_le_bytes());
        }
        Field::Mark | Field::Version => {
            let at = place + random.below(length);
            written.bytes[at] = random.byte();
        }
        _ => written.bytes[place] = odd_byte(random, field, written.bytes[place]),
    }
}

fn odd_byte(random: &mut Random, field: Field, old: u8) -> u8 {
    let limit = match field {
        Field::Constants => limits::CONSTANTS,
        Field::Predicates => limits::PREDICATES,
        Field::Arity => limits::ARITY,
        Field::Clauses => limits::INPUT_CLAUSES,
        Field::Variables | Field::InstanceCount | Field::BroughtInstanceCount => limits::VARIABLES,
        Field::BroughtCount => limits::BROUGHT,
        Field::Atoms => limits::ATOMS,
        Field::Literals | Field::Rule => limits::LITERALS,
        Field::Sign | Field::StepSign | Field::BroughtSign => 1,
        _ => limits::VARIABLES,
    };
    match random.below(6) {
        0 => 0,
        1 => old.wrapping_add(1),
        2 => limit as u8,
        3 => limit as u8 + 1,
        4 => 255,
        _ => random.byte(),
    }
}

fn flip(random: &mut Random, bytes: &mut [u8]) {
    for _ in 0..random.within(1..=3) {
        let at = random.below(bytes.len());
        bytes[at] ^= 1 << random.below(8);
    }
}

fn surplus(random: &mut Random, bytes: &mut Vec<u8>) {
    for _ in 0..random.within(1..=6) {
        bytes.push(random.byte());
    }
}

/// One byte more or less somewhere.
fn shift(random: &mut Random, bytes: &mut Vec<u8>) {
    let at = random.below(bytes.len());
    if random.percent(50) {
        bytes.remove(at);
    } else {
        bytes.insert(at, random.below(4) as u8);
    }
}

/// A clause gets a variable that occurs nowhere, loses an atom, or gains a difference; now and then
/// both the first and the last.
fn outside_the_class(random: &mut Random, mut file: RunFile) -> RunFile {
    if file.clauses.is_empty() {
        return file;
    }
    let index = random.below(file.clauses.len());
    let clause = &mut file.clauses[index];
    let kind = random.below(4);
    if kind == 0 && !clause.atoms.is_empty() {
        clause.atoms.remove(random.below(clause.atoms.len()));
    }
    if kind != 1 && clause.variables > 0 && clause.atoms.len() < limits::ATOMS {
        let p = random.within(1..=clause.variables.into()) as u8;
        let q = random.within(1..=clause.variables.into()) as u8;
        clause.atoms.push(Atom { p, q, c: random.whole(-5..=5) });
    }
    if kind <= 2 && kind > 0 && (clause.variables as usize) < limits::VARIABLES {
        clause.variables += 1;
    }
    file
}
