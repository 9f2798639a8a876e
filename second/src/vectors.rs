//! Test cases in a form that a program without a heap can read, and the lines
//! that they print.
//!
//! The cases start with their number, in four bytes. A case is 18 words of four
//! bytes, then the bytes stored for the bytes given, then those stored for the
//! second bytes given. Every number has its low byte first.
//!
//! | words  | hold                                                              |
//! |--------|-------------------------------------------------------------------|
//! | 0      | the call's number                                                 |
//! | 1 to 4 | lines, value, fitted, pattern                                     |
//! | 5, 6   | how often the record stands in the bytes given, in the second ones |
//! | 7, 8   | how many bytes are stored for the bytes given, for the second ones |
//! | 9, 10  | the length of the room, of the note's room                        |
//! | 11     | the byte that fills both rooms                                    |
//! | 12, 13 | place, its low word first                                         |
//! | 14, 15 | end, its low word first                                           |
//! | 16, 17 | a record                                                          |
//!
//! Bytes given are the record, so often as said, and behind it the bytes stored.
//! A call that takes a table takes it from the bytes given, two for each entry;
//! `tabulate` and `serial` have their room counted in entries, both bytes of each filled.
//! `serial` is several calls: a text, the bytes given, is fed to a reader in parts, whose
//! lengths are the second bytes given, and what was answered is asked once more at the end
//! ([`feed`](crate::feeding::feed)).
//!
//! A case prints one line: the call's number, then the answer's number, place
//! and three values, then digests of the bytes given, the second bytes given,
//! the room and the note's room as they are after the call. `choose` has no room:
//! in its place stands what `cheaper` hands back. `serial` has no note: in its place
//! stand the answers of all its calls, each as number, place and first value in eight
//! bytes each, and then the table that was lent behind the end. Numbers are decimal,
//! digests are eight digits in base 16, single spaces stand between.

use crate::calls::{Call, Given, Told};
use crate::choice::cheaper;
use crate::feeding::OTHER_CALLS;

/// The most bytes of the bytes given, with the record's, and of the second ones.
pub const MOST_GIVEN: usize = 65_536;

/// The most entries of a table, and of a room for one.
pub const MOST_ENTRIES: usize = 1_024;

/// The most bytes of a room.
pub const MOST_ROOM: usize = 262_144;

/// The most bytes of a room for a note.
pub const MOST_NOTE_ROOM: usize = 2_048;

const WORDS: usize = 18;

/// FNV-1a with 32 bits.
#[derive(Clone, Copy, Debug, PartialEq, Eq)]
pub struct Digest(pub u32);

impl Digest {
    /// The digest of nothing.
    pub const START: Digest = Digest(2_166_136_261);

    pub fn of(bytes: &[u8]) -> Digest {
        Digest::START.and(bytes)
    }

    pub fn of_entries(entries: &[u16]) -> Digest {
        Digest::START.and_entries(entries)
    }

    /// The digest of what it was of, and these bytes behind.
    pub fn and(self, bytes: &[u8]) -> Digest {
        bytes.iter().fold(self, |Digest(digest), &byte| {
            Digest((digest ^ byte as u32).wrapping_mul(16_777_619))
        })
    }

    /// Entries count as two bytes, low byte first.
    pub fn and_entries(self, entries: &[u16]) -> Digest {
        entries.iter().fold(self, |digest, entry| digest.and(&entry.to_le_bytes()))
    }

    /// Of an answer count its number, its place and its first value, in eight bytes each.
    fn and_answers(self, answers: &[Told]) -> Digest {
        let numbers = answers.iter().flat_map(|told| [told.number, told.place, told.first]);
        numbers.fold(self, |digest, number| digest.and(&number.to_le_bytes()))
    }
}

impl std::fmt::Display for Digest {
    fn fmt(&self, out: &mut std::fmt::Formatter<'_>) -> std::fmt::Result {
        write!(out, "{:08x}", self.0)
    }
}

/// One case.
#[derive(Clone, Debug, PartialEq, Eq)]
pub struct Case {
    pub call: Call,
    pub lines: u8,
    pub value: u8,
    pub fitted: u8,
    pub pattern: u16,
    /// How often the record stands at the start of the bytes given.
    pub times: usize,
    pub more_times: usize,
    pub stored: Vec<u8>,
    pub more_stored: Vec<u8>,
    /// In bytes, or in entries for `tabulate` and `serial`.
    pub room: usize,
    pub note_room: usize,
    pub fill: u8,
    pub place: u64,
    pub end: u64,
    pub record: [u8; 8],
}

impl Case {
    /// A case with nothing given.
    pub fn new(call: Call) -> Case {
        Case {
            call,
            lines: 0,
            value: 0,
            fitted: 0,
            pattern: 0,
            times: 0,
            more_times: 0,
            stored: vec![],
            more_stored: vec![],
            room: 0,
            note_room: 0,
            fill: 0,
            place: 0,
            end: 0,
            record: [0; 8],
        }
    }

    /// The bytes given.
    pub fn bytes(&self) -> Vec<u8> {
        [&self.record.repeat(self.times), &self.stored[..]].concat()
    }

    /// The bytes given as a table.
    pub fn table(&self) -> Vec<u16> {
        let bytes = self.bytes();
        let (entries, _) = bytes.as_chunks::<2>();
        entries.iter().map(|&entry| u16::from_le_bytes(entry)).collect()
    }

    /// The second bytes given.
    pub fn more_bytes(&self) -> Vec<u8> {
        [&self.record.repeat(self.more_times), &self.more_stored[..]].concat()
    }

    fn takes_table(&self) -> bool {
        matches!(self.call, Call::CheckTable | Call::Synthesize)
    }

    fn has_room_in_entries(&self) -> bool {
        matches!(self.call, Call::Tabulate | Call::Serial)
    }

    /// Is nothing larger than a reader has to be ready for?
    pub fn fits(&self) -> bool {
        let (given, more) = (self.bytes().len(), self.more_bytes().len());
        let most_room = if self.has_room_in_entries() { MOST_ENTRIES } else { MOST_ROOM };
        let table_fits = given <= 2 * MOST_ENTRIES && given.is_multiple_of(2);
        given <= MOST_GIVEN
            && more <= MOST_GIVEN
            && self.room <= most_room
            && self.note_room <= MOST_NOTE_ROOM
            && (table_fits || !self.takes_table())
    }

    /// Adds the case to a file of cases.
    pub fn write(&self, out: &mut Vec<u8>) {
        let words: [u32; WORDS - 2] = [
            self.call.number(),
            self.lines as u32,
            self.value as u32,
            self.fitted as u32,
            self.pattern as u32,
            self.times as u32,
            self.more_times as u32,
            self.stored.len() as u32,
            self.more_stored.len() as u32,
            self.room as u32,
            self.note_room as u32,
            self.fill as u32,
            self.place as u32,
            (self.place >> 32) as u32,
            self.end as u32,
            (self.end >> 32) as u32,
        ];
        out.extend(words.iter().flat_map(|word| word.to_le_bytes()));
        out.extend(self.record);
        out.extend(&self.stored);
        out.extend(&self.more_stored);
    }

    /// Takes a case off the start of a file of cases, if a good one stands there.
    pub fn read(file: &mut &[u8]) -> Option<Case> {
        let mut words = [0; WORDS];
        for word in &mut words {
            *word = u32::from_le_bytes(*take(file, 4)?.first_chunk()?);
        }
        let [call, lines, value, fitted, pattern, times, more_times, stored, more_stored, ..] =
            words;
        let [.., room, note_room, fill, place, place_high, end, end_high, low, high] = words;
        let case = Case {
            call: Call::from_number(call)?,
            lines: lines.try_into().ok()?,
            value: value.try_into().ok()?,
            fitted: fitted.try_into().ok()?,
            pattern: pattern.try_into().ok()?,
            times: Some(times as usize).filter(|&times| times <= MOST_GIVEN / 8)?,
            more_times: Some(more_times as usize).filter(|&times| times <= MOST_GIVEN / 8)?,
            stored: take(file, stored as usize)?.to_vec(),
            more_stored: take(file, more_stored as usize)?.to_vec(),
            room: room as usize,
            note_room: note_room as usize,
            fill: fill.try_into().ok()?,
            place: place as u64 | (place_high as u64) << 32,
            end: end as u64 | (end_high as u64) << 32,
            record: (low as u64 | (high as u64) << 32).to_le_bytes(),
        };
        case.fits().then_some(case)
    }

    /// Calls, and says in a line what came of it.
    pub fn line(&self) -> String {
        let (mut bytes, more_bytes) = (self.bytes(), self.more_bytes());
        let in_entries = self.has_room_in_entries();
        let mut entries = vec![257 * self.fill as u16; if in_entries { self.room } else { 0 }];
        let mut room = vec![self.fill; if in_entries { 0 } else { self.room }];
        let mut note_room = vec![self.fill; self.note_room];
        let mut more_entries = [257 * self.fill as u16; MOST_ENTRIES];
        let mut answers = vec![Told::default(); more_bytes.len() + OTHER_CALLS];

        let told = self.call.answer(Given {
            lines: self.lines,
            value: self.value,
            fitted: self.fitted,
            pattern: self.pattern,
            place: self.place as usize,
            end: self.end as usize,
            table: &self.table(),
            bytes: &mut bytes,
            more_bytes: &more_bytes,
            entries: &mut entries,
            more_entries: &mut more_entries,
            room: &mut room,
            note_room: &mut note_room,
            answers: &mut answers,
        });

        let room = match self.call {
            Call::Choose => {
                Digest::of(cheaper(self.lines, self.value, self.fitted, &bytes, &more_bytes))
            }
            _ if in_entries => Digest::of_entries(&entries),
            _ => Digest::of(&room),
        };
        let note = match self.call {
            Call::Serial => Digest::START.and_answers(&answers).and_entries(&more_entries),
            _ => Digest::of(&note_room),
        };
        format!(
            "{} {} {} {} {} {} {} {} {room} {note}\n",
            self.call.number(),
            told.number,
            told.place,
            told.first,
            told.second,
            told.third,
            Digest::of(&bytes),
            Digest::of(&more_bytes),
        )
    }
}

/// A file of cases.
pub fn write_cases(cases: &[Case]) -> Vec<u8> {
    let mut file = (cases.len() as u32).to_le_bytes().to_vec();
    cases.iter().for_each(|case| case.write(&mut file));
    file
}

/// The cases of a file, if all of it reads as cases.
pub fn read_cases(mut file: &[u8]) -> Option<Vec<Case>> {
    let count = u32::from_le_bytes(*take(&mut file, 4)?.first_chunk()?);
    let cases = (0..count).map(|_| Case::read(&mut file)).collect::<Option<Vec<_>>>()?;
    file.is_empty().then_some(cases)
}

/// What a file of cases has to print.
pub fn lines(cases: &[Case]) -> String {
    cases.iter().map(Case::line).collect()
}

fn take<'a>(file: &mut &'a [u8], length: usize) -> Option<&'a [u8]> {
    let (taken, rest) = file.split_at_checked(length)?;
    *file = rest;
    Some(taken)
}
