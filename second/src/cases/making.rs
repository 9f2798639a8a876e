//! How a case is made: gates from words, and each call with what it takes.

use crate::calls::Call;
use crate::gate::RECORD;
use crate::pattern::Lines;
use crate::synthesis::synthesize;
use crate::vectors::Case;

pub(super) const NO_LINES: [u8; 4] = [0, 7, 8, 255];

/// The set of D, E and N.
pub(super) const ALL_FITTED: u8 = 7;

/// The vector of document 003.
pub(super) const VECTOR_OF_003: [u16; 9] = [5, 6, 1, 7, 2, 3, 8, 0, 4];

/// The records of gates such as `"C1 x0 x1=2, D x0"`.
pub fn gates(text: &str) -> Vec<u8> {
    text.split(", ").filter(|gate| !gate.is_empty()).flat_map(gate).collect()
}

pub(super) fn gate(text: &str) -> [u8; RECORD] {
    let names = ["C1", "C2", "N", "D", "E"];
    let digit = |word: &str, at: usize| word.as_bytes()[at] - b'0';
    let mut record = [3; RECORD];
    for (place, word) in text.split(' ').enumerate() {
        match place {
            0 => record[0] = 1 + names.iter().position(|&name| name == word).unwrap() as u8,
            1 => record[1] = digit(word, 1),
            _ => record[2 + digit(word, 1) as usize] = digit(word, 3),
        }
    }
    record
}

pub(super) fn inverse(record: &[u8]) -> Vec<u8> {
    let mut record = record.to_vec();
    record[0] = [0, 2, 1, 3, 4, 5][record[0] as usize];
    record
}

pub(super) fn size(lines: u8) -> usize {
    3usize.pow(lines as u32)
}

pub(super) fn identity(lines: u8) -> Vec<u16> {
    (0..size(lines) as u16).collect()
}

/// The records that synthesis asks; for no lines at all, some.
pub(super) fn bound(lines: u8) -> usize {
    Lines::check(lines).map_or(14, Lines::gate_bound)
}

pub(super) fn bytes_of(table: &[u16]) -> Vec<u8> {
    table.iter().flat_map(|entry| entry.to_le_bytes()).collect()
}

/// The cascade of a good table.
pub(super) fn synthesized(lines: u8, table: &[u16]) -> Vec<u8> {
    let mut room = vec![0; RECORD * bound(lines)];
    let gates = synthesize(lines, table, &mut room).unwrap_or(0);
    room.truncate(RECORD * gates);
    room
}

/// With the room that is asked.
pub(super) fn on_table(call: Call, lines: u8, table: &[u16]) -> Case {
    let room = if call == Call::Synthesize { RECORD * bound(lines) } else { 0 };
    Case { lines, stored: bytes_of(table), room, ..Case::new(call) }
}

/// Checked and made into a cascade.
pub(super) fn both_on_table(lines: u8, table: &[u16]) -> [Case; 2] {
    [Call::CheckTable, Call::Synthesize].map(|call| on_table(call, lines, table))
}

const CASCADE_CALLS: [Call; 9] = [
    Call::CheckCascade,
    Call::Run,
    Call::Tabulate,
    Call::Invert,
    Call::Price,
    Call::Tidy,
    Call::Choose,
    Call::WriteFile,
    Call::Listing,
];

/// A cascade that is a record so many times and then some bytes, with ample room
/// and everything else good. To choose from are it and the empty cascade.
pub(super) fn on_long_cascade(
    call: Call,
    lines: u8,
    record: [u8; 8],
    times: usize,
    stored: &[u8],
) -> Case {
    let length = RECORD * times + stored.len();
    let room = match call {
        Call::Tabulate => size(lines.min(6)),
        Call::Invert => length,
        Call::WriteFile => length + 12,
        Call::Listing => 40 + 4 * length,
        Call::WriteNames => 4 * length,
        _ => 0,
    };
    let more_stored = if call == Call::WriteFile { b"note".to_vec() } else { vec![] };
    let fitted = if matches!(call, Call::Price | Call::Choose) { ALL_FITTED } else { 0 };
    let (value, stored) = (2, stored.to_vec());
    Case { lines, value, fitted, record, times, stored, more_stored, room, ..Case::new(call) }
}

pub(super) fn on_cascade(call: Call, lines: u8, cascade: &[u8]) -> Case {
    on_long_cascade(call, lines, [0; 8], 0, cascade)
}

pub(super) fn all_on_cascade(lines: u8, cascade: &[u8]) -> Vec<Case> {
    all_on_long_cascade(lines, [0; 8], 0, cascade)
}

pub(super) fn all_on_long_cascade(
    lines: u8,
    record: [u8; 8],
    times: usize,
    stored: &[u8],
) -> Vec<Case> {
    CASCADE_CALLS.map(|call| on_long_cascade(call, lines, record, times, stored)).to_vec()
}

/// The same with a pattern that is too large, no room, and a note or a second
/// cascade that is too long or none.
pub(super) fn all_else_wrong(case: Case) -> Case {
    let more_stored = match case.call {
        Call::Choose => vec![0; 13],
        Call::WriteFile => vec![0; 1_025],
        _ => vec![],
    };
    Case { pattern: u16::MAX, room: 0, more_stored, ..case }
}

pub(super) fn choosing(lines: u8, value: u8, first: &[u8], second: &[u8]) -> Case {
    Case { value, more_stored: second.to_vec(), ..on_cascade(Call::Choose, lines, first) }
}

/// A file as document 01 has it, whatever is wrong with its parts.
pub(super) fn file(lines: u8, records: &[u8], note: &[u8]) -> Vec<u8> {
    [note, records, &trailer(lines, records.len(), records.len() / RECORD)].concat()
}

pub(super) fn trailer(lines: u8, distance: usize, count: usize) -> [u8; 8] {
    let [d0, d1, d2, d3] = (distance as u32).to_le_bytes();
    let [c0, c1] = (count as u16).to_le_bytes();
    [d0, d1, d2, d3, c0, c1, lines, 1]
}

pub(super) fn reading(file: &[u8], room: usize, note_room: usize) -> Case {
    Case { stored: file.to_vec(), room, note_room, ..Case::new(Call::ReadFile) }
}

/// Read with ample room and with none, and opened.
pub(super) fn all_on_file(file: &[u8]) -> Vec<Case> {
    let opening = Case { stored: file.to_vec(), ..Case::new(Call::Opening) };
    vec![reading(file, 200, 1_100), reading(file, 0, 0), opening]
}

pub(super) fn reader(file: &[u8], lines: u8, place: u64, end: u64) -> Case {
    Case { stored: file.to_vec(), lines, place, end, ..Case::new(Call::Next) }
}
