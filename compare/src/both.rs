//! One input through both libraries: the answers and every lent byte compared.

use std::fmt;

use compare::proved::{Library, Reader};
use second::calls::{Given, Told};

use crate::inputs::Input;

/// Bytes or entries that stand before and behind what is lent, and must stay.
const GUARD: usize = 16;

/// Something lent, and its guards.
#[derive(Clone, PartialEq)]
pub struct Lent<T> {
    cells: Vec<T>,
    start: usize,
    end: usize,
}

impl<T: Copy + PartialEq + fmt::Debug> Lent<T> {
    /// Marks everywhere, and a part of so many cells to be lent. The part's
    /// address varies, so that rooms also start at odd ones.
    pub fn room(length: usize, salt: u64, mark: fn(usize, u64) -> T) -> Lent<T> {
        let start = GUARD + (salt >> 60) as usize;
        let end = start + length;
        let cells = (0..end + GUARD).map(|at| mark(at, salt)).collect();
        Lent { cells, start, end }
    }

    fn given(content: &[T], salt: u64, mark: fn(usize, u64) -> T) -> Lent<T> {
        let mut lent = Lent::room(content.len(), salt, mark);
        lent.part_mut().copy_from_slice(content);
        lent
    }

    pub fn part(&self) -> &[T] {
        &self.cells[self.start..self.end]
    }

    pub fn part_mut(&mut self) -> &mut [T] {
        &mut self.cells[self.start..self.end]
    }

    /// Where the cells differ first, in words.
    pub fn difference(&self, other: &Self) -> Option<String> {
        let at = self.cells.iter().zip(&other.cells).position(|(one, other)| one != other)?;
        let place = if at < self.start {
            format!("{} before its start", self.start - at)
        } else if at < self.end {
            format!("at {}", at - self.start)
        } else {
            format!("{} behind its end", at - self.end)
        };
        Some(format!("{place}: proved {:?}, second {:?}", self.cells[at], other.cells[at]))
    }
}

/// A reader's memory and its guards. It is the proved library's alone: the two keep
/// different things in mind.
#[repr(C)]
#[derive(Clone, PartialEq)]
pub struct GuardedReader {
    before: [u16; GUARD],
    pub reader: Reader,
    behind: [u16; GUARD],
}

impl GuardedReader {
    pub fn of(reader: Reader, salt: u64) -> GuardedReader {
        let guard = |from| std::array::from_fn(|at| mark_entry(from + at, salt));
        GuardedReader { before: guard(0), reader, behind: guard(GUARD) }
    }

    /// Marks everywhere, as before a reader is made.
    pub fn marked(salt: u64) -> GuardedReader {
        let cells = std::array::from_fn(|at| mark_entry(2 * GUARD + at, salt));
        GuardedReader::of(Reader::of(cells), salt)
    }

    /// Do the guards still stand?
    pub fn is_guarded(&self, salt: u64) -> bool {
        *self == GuardedReader::of(self.reader.clone(), salt)
    }
}

fn mark_byte(at: usize, salt: u64) -> u8 {
    (at as u64).wrapping_mul(29).wrapping_add(salt) as u8
}

pub fn mark_entry(at: usize, salt: u64) -> u16 {
    (at as u64).wrapping_mul(10_007).wrapping_add(salt) as u16
}

/// All that is lent to a call.
#[derive(Clone, PartialEq)]
struct Memory {
    table: Lent<u16>,
    bytes: Lent<u8>,
    more_bytes: Lent<u8>,
    entries: Lent<u16>,
    more_entries: Lent<u16>,
    room: Lent<u8>,
    note_room: Lent<u8>,
    answers: Vec<Told>,
}

impl Memory {
    fn of(input: &Input) -> Memory {
        let salt = |turn: u32| input.salt.rotate_left(11 * turn);
        Memory {
            table: Lent::given(&input.table, salt(0), mark_entry),
            bytes: Lent::given(&input.bytes, salt(1), mark_byte),
            more_bytes: Lent::given(&input.more_bytes, salt(2), mark_byte),
            entries: Lent::room(input.entries, salt(3), mark_entry),
            room: Lent::room(input.room, salt(4), mark_byte),
            note_room: Lent::room(input.note_room, salt(5), mark_byte),
            more_entries: Lent::room(input.more_entries, salt(6), mark_entry),
            answers: vec![Told::default(); input.answers()],
        }
    }

    fn lend<'a>(&'a mut self, input: &Input) -> Given<'a> {
        Given {
            lines: input.lines,
            value: input.value,
            fitted: input.fitted,
            pattern: input.pattern,
            place: input.place,
            end: input.end,
            table: self.table.part(),
            bytes: self.bytes.part_mut(),
            more_bytes: self.more_bytes.part(),
            entries: self.entries.part_mut(),
            more_entries: self.more_entries.part_mut(),
            room: self.room.part_mut(),
            note_room: self.note_room.part_mut(),
            answers: &mut self.answers,
        }
    }

    fn difference(&self, other: &Memory) -> Option<String> {
        let all = [
            ("the table", self.table.difference(&other.table)),
            ("the bytes given", self.bytes.difference(&other.bytes)),
            ("the other bytes given", self.more_bytes.difference(&other.more_bytes)),
            ("the room for entries", self.entries.difference(&other.entries)),
            ("the room", self.room.difference(&other.room)),
            ("the room for the note", self.note_room.difference(&other.note_room)),
            ("the table behind the end", self.more_entries.difference(&other.more_entries)),
            ("the answers", answers_differ(&self.answers, &other.answers)),
        ];
        all.into_iter().find_map(|(name, place)| place.map(|place| format!("{name}, {place}")))
    }
}

/// Calls both and compares. A difference is told in words.
pub fn compare(input: &Input) -> Result<Told, String> {
    let library = Library { null_if_empty: input.null_if_empty };
    let mut ours = Memory::of(input);
    let mut theirs = ours.clone();
    let mut reader = GuardedReader::marked(input.salt);
    let proved = library.answer(input.call, ours.lend(input), &mut reader.reader);
    let second = input.call.answer(theirs.lend(input));
    if proved != second {
        return Err(format!("proved {}\nsecond {}", words(proved), words(second)));
    }
    if ours != theirs {
        let place = ours.difference(&theirs).unwrap_or_default();
        return Err(format!("both   {}\nbut in {place}", words(proved)));
    }
    if !reader.is_guarded(input.salt) {
        return Err(format!("both   {}\nbut around the reader", words(proved)));
    }
    Ok(proved)
}

/// Which of the calls of a reader is answered otherwise, in words.
fn answers_differ(ours: &[Told], theirs: &[Told]) -> Option<String> {
    let at = ours.iter().zip(theirs).position(|(one, other)| one != other)?;
    Some(format!("call {at}\nproved {}\nsecond {}", words(ours[at]), words(theirs[at])))
}

pub fn words(answer: Told) -> String {
    let Told { number, place, first, second, third } = answer;
    format!("number {number}, place {place}, values {first} {second} {third}")
}
