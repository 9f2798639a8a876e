//! The cascade file: a note, the records, and a trailer that points back.
//!
//! | trailer byte | holds                                                        |
//! |--------------|--------------------------------------------------------------|
//! | 0 to 3       | distance from the trailer back to the first record, low first |
//! | 4, 5         | number of gates, low first                                    |
//! | 6            | lines                                                         |
//! | 7            | edition, 1                                                    |

use crate::answer::{Answer, Refusal};
use crate::cascade::Cascade;
use crate::gate::{Gate, RECORD};
use crate::pattern::Lines;

/// The longest note, in bytes.
pub const LONGEST_NOTE: usize = 1_024;

const TRAILER: usize = 8;
const EDITION: u8 = 1;

/// Writes a file. Refusals 1, 6, 7, 9 for the note, 5; the answer is the number
/// of bytes.
pub fn write_file(lines: u8, cascade: &[u8], note: &[u8], room: &mut [u8]) -> Answer<usize> {
    let gates = Cascade::check(Lines::check(lines)?, cascade)?.len();
    if note.len() > LONGEST_NOTE {
        return Err(Refusal::file_frame());
    }
    let needed = note.len() + cascade.len() + TRAILER;
    let Some(room) = room.get_mut(..needed) else {
        return Err(Refusal::room_too_small(needed));
    };

    let (note_room, room) = room.split_at_mut(note.len());
    let (records_room, trailer) = room.split_at_mut(cascade.len());
    note_room.copy_from_slice(note);
    records_room.copy_from_slice(cascade);
    trailer[..4].copy_from_slice(&(cascade.len() as u32).to_le_bytes());
    trailer[4..6].copy_from_slice(&(gates as u16).to_le_bytes());
    trailer[6] = lines;
    trailer[7] = EDITION;
    Ok(needed)
}

/// What [`read_file`] found.
#[derive(Clone, Copy, Debug, PartialEq, Eq)]
pub struct Contents {
    pub lines: u8,
    pub gates: usize,
    pub note: usize,
}

/// Copies the records and the note into two lent rooms. Refusals 9, 1, 6, 7, then
/// 5 for the records' room (in records), 5 for the note's (in bytes).
pub fn read_file(file: &[u8], records_room: &mut [u8], note_room: &mut [u8]) -> Answer<Contents> {
    let Parts { note, lines, records } = Parts::check(file)?;
    let gates = records.len() / RECORD;
    let Some(records_room) = records_room.get_mut(..records.len()) else {
        return Err(Refusal::room_too_small(gates));
    };
    let Some(note_room) = note_room.get_mut(..note.len()) else {
        return Err(Refusal::room_too_small(note.len()));
    };
    records_room.copy_from_slice(records);
    note_room.copy_from_slice(note);
    Ok(Contents { lines, gates, note: note.len() })
}

/// The parts of a good file.
struct Parts<'a> {
    note: &'a [u8],
    lines: u8,
    records: &'a [u8],
}

impl<'a> Parts<'a> {
    /// Refusals 9, 1, 6, 7.
    fn check(file: &'a [u8]) -> Answer<Parts<'a>> {
        let parts = Parts::frame(file).ok_or(Refusal::file_frame())?;
        Cascade::check(Lines::check(parts.lines)?, parts.records)?;
        Ok(parts)
    }

    /// All that refusal 9 asks of a file.
    fn frame(file: &'a [u8]) -> Option<Parts<'a>> {
        let (body, trailer) = file.split_last_chunk::<TRAILER>()?;
        let [d0, d1, d2, d3, c0, c1, lines, edition] = *trailer;
        let distance = u32::from_le_bytes([d0, d1, d2, d3]) as usize;
        let count = u16::from_le_bytes([c0, c1]) as usize;
        if edition != EDITION || distance != RECORD * count {
            return None;
        }
        let (note, records) = body.split_at_checked(body.len().checked_sub(distance)?)?;
        (note.len() <= LONGEST_NOTE).then_some(Parts { note, lines, records })
    }
}

/// Where a reader of a good file starts, and where the records end.
#[derive(Clone, Copy, Debug, PartialEq, Eq)]
pub struct Opening {
    pub lines: u8,
    pub place: usize,
    pub end: usize,
}

/// What [`Reader::open`] does with a file. Refusals 9, 1, 6, 7.
pub fn opening(file: &[u8]) -> Answer<Opening> {
    let parts = Parts::check(file)?;
    let place = parts.note.len();
    Ok(Opening { lines: parts.lines, place, end: place + parts.records.len() })
}

/// The gate at a byte offset of a file, if a whole record stands there before
/// `end` and before the file's end. Refusals 1, 7; here 7 carries the offset.
#[inline]
pub fn next(file: &[u8], lines: u8, place: usize, end: usize) -> Answer<Option<Gate>> {
    let lines = Lines::check(lines)?;
    let before_end = &file[..end.min(file.len())];
    let Some((&record, _)) =
        before_end.get(place..).and_then(|from_place| from_place.split_first_chunk::<RECORD>())
    else {
        return Ok(None);
    };
    match Gate::read(lines, record) {
        Some(gate) => Ok(Some(gate)),
        None => Err(Refusal::not_a_gate(place)),
    }
}

/// Hands out the gates of a file one by one and keeps hold of the file's bytes.
///
/// The parts are open to all: a caller may make up any reader.
#[derive(Clone, Copy, Debug, PartialEq, Eq)]
pub struct Reader<'a> {
    pub file: &'a [u8],
    pub lines: u8,
    pub place: usize,
    pub end: usize,
}

impl<'a> Reader<'a> {
    /// A refused file gives a reader of nothing; [`opening`] tells which refusal.
    pub fn open(file: &'a [u8]) -> Reader<'a> {
        match opening(file) {
            Ok(Opening { lines, place, end }) => Reader { file, lines, place, end },
            Err(_) => Reader { file: &file[..0], lines: 0, place: 0, end: 0 },
        }
    }

    /// The next gate, or `None` at the end. Refusals 1, 7. The reader moves on
    /// only past a gate that it hands out.
    #[allow(clippy::should_implement_trait)]
    #[inline]
    pub fn next(&mut self) -> Answer<Option<Gate>> {
        let gate = next(self.file, self.lines, self.place, self.end)?;
        if gate.is_some() {
            self.place += RECORD;
        }
        Ok(gate)
    }
}
