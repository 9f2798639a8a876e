//! Made-up inputs for every call: good, damaged, cut, long, short, and on both
//! sides of each edge.

mod cascades;
mod files;
mod lists;
mod tables;
mod texts;

use samples::Numbers;
use second::answer::Answer;
use second::calls::Call;
use second::feeding::OTHER_CALLS;
use second::file::opening;
use second::listing::listing;
use second::names::write_names;
use second::pattern::Lines;
use second::sheet;
use second::vectors::{Case, MOST_ENTRIES};

use cascades::{hard_cascade, in_pairs, partner, some_cascade};
use files::{some_end, some_file, some_place};
use lists::some_list;
use tables::some_table;
pub use tables::{permutation, some_table_file};
use texts::{some_lengths, some_text};

/// A call and all that is given to it. What a call doesn't take is empty or 0.
#[derive(Clone, Debug)]
pub struct Input {
    pub call: Call,
    pub lines: u8,
    pub value: u8,
    pub fitted: u8,
    pub pattern: u16,
    pub place: usize,
    pub end: usize,
    pub table: Vec<u16>,
    /// The cascade, the first of two, the file, the list, or the text of a table.
    pub bytes: Vec<u8>,
    /// The second cascade, the note, or the lengths of a text's parts.
    pub more_bytes: Vec<u8>,
    /// The room for entries, in entries.
    pub entries: usize,
    /// The table that is lent behind the end of a text, in entries.
    pub more_entries: usize,
    /// The room for records, a file or a text, in bytes.
    pub room: usize,
    /// The room for a note, in bytes.
    pub note_room: usize,
    /// What stands in the rooms and around everything that is lent.
    pub salt: u64,
    pub null_if_empty: bool,
}

impl Input {
    fn empty(call: Call, numbers: &mut Numbers) -> Input {
        Input {
            call,
            lines: 0,
            value: 0,
            fitted: 0,
            pattern: 0,
            place: 0,
            end: 0,
            table: vec![],
            bytes: vec![],
            more_bytes: vec![],
            entries: 0,
            more_entries: 0,
            room: 0,
            note_room: 0,
            salt: numbers.next(),
            null_if_empty: numbers.one_in(2),
        }
    }

    /// What one of the second program's listed cases gives.
    pub fn of_case(case: &Case, numbers: &mut Numbers) -> Input {
        let mut input = Input {
            lines: case.lines,
            value: case.value,
            fitted: case.fitted,
            pattern: case.pattern,
            place: case.place as usize,
            end: case.end as usize,
            note_room: case.note_room,
            more_bytes: case.more_bytes(),
            ..Input::empty(case.call, numbers)
        };
        match case.call {
            Call::CheckTable | Call::Synthesize => input.table = case.table(),
            _ => input.bytes = case.bytes(),
        }
        match case.call {
            Call::Tabulate => input.entries = case.room,
            Call::Serial => {
                input.entries = case.room;
                input.more_entries = MOST_ENTRIES;
            }
            _ => input.room = case.room,
        }
        input
    }

    /// How many answers a reader gives.
    pub fn answers(&self) -> usize {
        match self.call {
            Call::Serial => self.more_bytes.len() + OTHER_CALLS,
            _ => 0,
        }
    }

    /// A made-up one.
    pub fn make(numbers: &mut Numbers) -> Input {
        let call = numbers.pick(&Call::ALL);
        let mut input = Input::empty(call, numbers);
        match call {
            Call::CheckTable | Call::Synthesize => input.take_table(numbers),
            Call::ReadFile | Call::Opening | Call::Next => input.take_file(numbers),
            Call::Sheet => input.take_table_file(numbers),
            Call::ReadNames => input.take_list(numbers),
            Call::Serial => input.take_text(numbers),
            Call::Tidy if numbers.one_in(1_000) => {
                input.lines = 6;
                input.bytes = hard_cascade(numbers);
            }
            _ => input.take_cascade(numbers),
        }
        input
    }

    fn take_table(&mut self, numbers: &mut Numbers) {
        let lines = board(numbers);
        self.table = some_table(numbers, lines);
        self.lines = said(numbers, lines);
        if self.call == Call::Synthesize {
            self.room = around(numbers, 8 * bound(self.lines), 8);
        }
    }

    fn take_cascade(&mut self, numbers: &mut Numbers) {
        let lines = board(numbers);
        self.bytes = some_cascade(numbers, lines);
        self.lines = said(numbers, lines);
        let records = 8 * (self.bytes.len() / 8);
        match self.call {
            Call::Run => self.pattern = some_pattern(numbers, lines),
            Call::Tabulate => self.entries = around(numbers, 3usize.pow(lines as u32), 1),
            Call::Invert => self.room = around(numbers, records, 8),
            Call::Price => {
                self.value = some_value(numbers);
                self.fitted = some_set(numbers);
            }
            Call::Choose => {
                self.value = some_value(numbers);
                self.fitted = some_set(numbers);
                if numbers.one_in(6) {
                    self.more_bytes = in_pairs(numbers, &self.bytes);
                    self.bytes = in_pairs(numbers, &self.bytes);
                } else {
                    self.more_bytes = partner(numbers, lines, &self.bytes);
                }
                if numbers.one_in(2) {
                    std::mem::swap(&mut self.bytes, &mut self.more_bytes);
                }
            }
            Call::WriteFile => {
                self.more_bytes = some_note(numbers);
                self.room = around(numbers, self.more_bytes.len() + records + 8, 8);
            }
            Call::Listing => {
                let answer = listing(self.lines, &self.bytes, &mut []);
                self.room = around(numbers, needed(answer), 1);
            }
            Call::WriteNames => {
                let answer = write_names(self.lines, &self.bytes, &mut []);
                self.room = around(numbers, needed(answer), 1);
            }
            _ => {}
        }
    }

    fn take_file(&mut self, numbers: &mut Numbers) {
        let (lines, file) = some_file(numbers);
        let (place, end) = match opening(&file) {
            Ok(opening) => (opening.place, opening.end),
            Err(_) => (numbers.below(20), numbers.below(40)),
        };
        match self.call {
            Call::ReadFile => {
                self.room = around(numbers, end.saturating_sub(place), 8);
                self.note_room = around(numbers, place, 1);
            }
            Call::Next => {
                self.lines = said(numbers, lines);
                self.place = some_place(numbers, &file, place, end);
                self.end = some_end(numbers, &file, self.place, end);
            }
            _ => {}
        }
        self.bytes = file;
    }

    fn take_list(&mut self, numbers: &mut Numbers) {
        let lines = board(numbers);
        self.bytes = some_list(numbers, lines);
        self.lines = said(numbers, lines);
        self.room = around(numbers, 8 * newlines(&self.bytes), 8);
    }

    fn take_text(&mut self, numbers: &mut Numbers) {
        let lines = board(numbers);
        self.bytes = some_text(numbers, lines);
        self.more_bytes = some_lengths(numbers, self.bytes.len());
        self.lines = said(numbers, lines);
        self.entries = around(numbers, 3usize.pow(lines as u32), 1);
        self.more_entries = numbers.below(MOST_ENTRIES);
    }

    fn take_table_file(&mut self, numbers: &mut Numbers) {
        self.bytes = some_table_file(numbers);
        self.room = around(numbers, sheet::text(&self.bytes).len(), 1);
    }
}

/// The lines of a text.
pub fn newlines(text: &[u8]) -> usize {
    text.iter().filter(|&&byte| byte == b'\n').count()
}

/// The bytes of a text, as a call without room tells; where it tells something else,
/// some.
fn needed(answer: Answer<usize>) -> usize {
    match answer {
        Err(refusal) if refusal.number == 5 => refusal.place,
        _ => 30,
    }
}

/// A good number of lines, mostly small.
fn board(numbers: &mut Numbers) -> usize {
    match numbers.below(200) {
        0..=44 => 1,
        45..=119 => 2,
        120..=174 => 3,
        175..=189 => 4,
        190..=195 => 5,
        _ => 6,
    }
}

/// The number of lines that the caller says: now and then another.
fn said(numbers: &mut Numbers, lines: usize) -> u8 {
    match numbers.below(24) {
        0 => numbers.pick(&[0, 1, 2, 3, 4, 5, 6, 7, 8, 255]),
        1 => numbers.pick(&[0, 7, 255]),
        2 => numbers.below(9) as u8,
        3 if numbers.one_in(2) => numbers.byte(),
        _ => lines as u8,
    }
}

/// The records that synthesis asks, also where there are no such lines.
fn bound(lines: u8) -> usize {
    Lines::check(lines).map_or(14, Lines::gate_bound)
}

/// The length of a room: what is needed, a little or much more or less. A unit
/// is what the room is counted in.
fn around(numbers: &mut Numbers, needed: usize, unit: usize) -> usize {
    match numbers.below(16) {
        0 => needed.saturating_sub(unit),
        1 => needed.saturating_sub(1),
        2 => needed.saturating_sub(1 + numbers.below(2 * unit)),
        3 => 0,
        4 => numbers.below(needed + 1),
        5 => needed + 1,
        6 | 7 => needed + numbers.below(unit),
        8 => needed + unit,
        9 => needed + numbers.below(100),
        _ => needed,
    }
}

fn some_pattern(numbers: &mut Numbers, lines: usize) -> u16 {
    let end = 3u16.pow(lines as u32);
    match numbers.below(14) {
        0 => end,
        1 => end - 1,
        2 => numbers.pick(&[end + 1, 0, 728, 729, 730, u16::MAX]),
        3 => numbers.next() as u16,
        _ => numbers.below(end as usize) as u16,
    }
}

fn some_value(numbers: &mut Numbers) -> u8 {
    match numbers.below(12) {
        0 => 3,
        1 => numbers.pick(&[2, 3, 4, 255]),
        _ => numbers.below(3) as u8,
    }
}

/// A fitted set, mostly a good one.
fn some_set(numbers: &mut Numbers) -> u8 {
    match numbers.below(24) {
        0 => 0,
        1 => numbers.pick(&[0, 1, 7, 8, 255]),
        2 => numbers.byte(),
        _ => 1 + numbers.below(7) as u8,
    }
}

fn some_note(numbers: &mut Numbers) -> Vec<u8> {
    let length = match numbers.below(60) {
        0 => 1_024,
        1 => 1_025,
        2 => numbers.pick(&[1_000, 1_023, 1_026, 2_000]),
        3..=20 => 0,
        _ => numbers.below(20),
    };
    numbers.bytes(length)
}
