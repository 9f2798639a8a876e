//! The proved library, called through its C functions. This is the only unsafe
//! code here; the declarations are those of include/tiles.h.

#![allow(unsafe_code)]

use second::calls::{Call, Given, Told};
use second::feeding::{feed, Fed};

/// `struct tiles_serial`, a reader of tables as text. A caller may make up any content.
#[repr(C)]
#[derive(Clone, Debug, PartialEq, Eq)]
pub struct Reader {
    pub lines: u8,
    pub last: u8,
    pub over: u8,
    pub number: u8,
    pub place: u16,
    pub at: u16,
    pub first: u16,
    pub value: u16,
    pub count: u16,
    pub entries: [u16; 729],
}

const _: () = assert!(size_of::<Reader>() == 1_472 && align_of::<Reader>() == 2);

impl Reader {
    /// The numbers of 16 bits that a reader's memory holds.
    pub const CELLS: usize = size_of::<Reader>() / 2;

    /// The reader that such memory is.
    pub fn of(cells: [u16; Reader::CELLS]) -> Reader {
        // Safety: both have the same size, and any bytes are a reader.
        unsafe { std::mem::transmute(cells) }
    }
}

mod c {
    use second::calls::Told;

    use super::Reader;

    /// `struct tiles_answer`.
    #[repr(C)]
    pub struct Answer {
        number: u64,
        place: u64,
        first: u64,
        second: u64,
        third: u64,
    }

    impl Answer {
        pub fn told(self) -> Told {
            let Answer { number, place, first, second, third } = self;
            Told { number, place, first, second, third }
        }
    }

    extern "C" {
        pub fn tiles_check_table(lines: u8, table: *const u16, table_len: usize) -> Answer;
        pub fn tiles_synthesize(
            lines: u8,
            table: *const u16,
            table_len: usize,
            room: *mut u8,
            room_len: usize,
        ) -> Answer;
        pub fn tiles_check_cascade(lines: u8, cascade: *const u8, len: usize) -> Answer;
        pub fn tiles_run(lines: u8, cascade: *const u8, len: usize, pattern: u16) -> Answer;
        pub fn tiles_tabulate(
            lines: u8,
            cascade: *const u8,
            len: usize,
            room: *mut u16,
            room_len: usize,
        ) -> Answer;
        pub fn tiles_invert(
            lines: u8,
            cascade: *const u8,
            len: usize,
            room: *mut u8,
            room_len: usize,
        ) -> Answer;
        pub fn tiles_price(
            lines: u8,
            value: u8,
            fitted: u8,
            cascade: *const u8,
            len: usize,
        ) -> Answer;
        pub fn tiles_tidy(lines: u8, cascade: *mut u8, len: usize) -> Answer;
        pub fn tiles_choose(
            lines: u8,
            value: u8,
            fitted: u8,
            a: *const u8,
            a_len: usize,
            b: *const u8,
            b_len: usize,
        ) -> Answer;
        pub fn tiles_write_file(
            lines: u8,
            cascade: *const u8,
            len: usize,
            note: *const u8,
            note_len: usize,
            room: *mut u8,
            room_len: usize,
        ) -> Answer;
        pub fn tiles_read_file(
            file: *const u8,
            len: usize,
            records: *mut u8,
            records_len: usize,
            note: *mut u8,
            note_len: usize,
        ) -> Answer;
        pub fn tiles_opening(file: *const u8, len: usize) -> Answer;
        pub fn tiles_next(
            file: *const u8,
            len: usize,
            lines: u8,
            place: usize,
            end: usize,
        ) -> Answer;
        pub fn tiles_listing(
            lines: u8,
            cascade: *const u8,
            len: usize,
            room: *mut u8,
            room_len: usize,
        ) -> Answer;
        pub fn tiles_sheet(file: *const u8, len: usize, room: *mut u8, room_len: usize) -> Answer;
        pub fn tiles_read_names(
            lines: u8,
            text: *const u8,
            len: usize,
            room: *mut u8,
            room_len: usize,
        ) -> Answer;
        pub fn tiles_write_names(
            lines: u8,
            cascade: *const u8,
            len: usize,
            room: *mut u8,
            room_len: usize,
        ) -> Answer;
        pub fn tiles_serial_start(reader: *mut Reader, lines: u8) -> Answer;
        pub fn tiles_serial_part(reader: *mut Reader, part: *const u8, len: usize) -> Answer;
        pub fn tiles_serial_end(reader: *mut Reader, table: *mut u16, table_len: usize) -> Answer;
    }
}

/// The library's calls. Where a slice is empty, either its address is passed or
/// null: the header allows both.
#[derive(Clone, Copy, Debug, PartialEq, Eq)]
pub struct Library {
    pub null_if_empty: bool,
}

// Safety, for all calls: a slice is a pointer to as many initialized and aligned
// elements as its length says, and a borrowed room shares no element with
// anything else. The header asks no more.
impl Library {
    fn given<T>(self, slice: &[T]) -> *const T {
        if slice.is_empty() && self.null_if_empty {
            std::ptr::null()
        } else {
            slice.as_ptr()
        }
    }

    fn lent<T>(self, slice: &mut [T]) -> *mut T {
        if slice.is_empty() && self.null_if_empty {
            std::ptr::null_mut()
        } else {
            slice.as_mut_ptr()
        }
    }

    pub fn check_table(self, lines: u8, table: &[u16]) -> Told {
        unsafe { c::tiles_check_table(lines, self.given(table), table.len()) }.told()
    }

    pub fn synthesize(self, lines: u8, table: &[u16], room: &mut [u8]) -> Told {
        let (at, len) = (self.lent(room), room.len());
        unsafe { c::tiles_synthesize(lines, self.given(table), table.len(), at, len) }.told()
    }

    pub fn check_cascade(self, lines: u8, cascade: &[u8]) -> Told {
        unsafe { c::tiles_check_cascade(lines, self.given(cascade), cascade.len()) }.told()
    }

    pub fn run(self, lines: u8, cascade: &[u8], pattern: u16) -> Told {
        unsafe { c::tiles_run(lines, self.given(cascade), cascade.len(), pattern) }.told()
    }

    pub fn tabulate(self, lines: u8, cascade: &[u8], room: &mut [u16]) -> Told {
        let (at, len) = (self.lent(room), room.len());
        unsafe { c::tiles_tabulate(lines, self.given(cascade), cascade.len(), at, len) }.told()
    }

    pub fn invert(self, lines: u8, cascade: &[u8], room: &mut [u8]) -> Told {
        let (at, len) = (self.lent(room), room.len());
        unsafe { c::tiles_invert(lines, self.given(cascade), cascade.len(), at, len) }.told()
    }

    pub fn price(self, lines: u8, value: u8, fitted: u8, cascade: &[u8]) -> Told {
        unsafe { c::tiles_price(lines, value, fitted, self.given(cascade), cascade.len()) }.told()
    }

    pub fn tidy(self, lines: u8, cascade: &mut [u8]) -> Told {
        let (at, len) = (self.lent(cascade), cascade.len());
        unsafe { c::tiles_tidy(lines, at, len) }.told()
    }

    pub fn choose(self, lines: u8, value: u8, fitted: u8, first: &[u8], second: &[u8]) -> Told {
        let (a, b) = (self.given(first), self.given(second));
        unsafe { c::tiles_choose(lines, value, fitted, a, first.len(), b, second.len()) }.told()
    }

    pub fn write_file(self, lines: u8, cascade: &[u8], note: &[u8], room: &mut [u8]) -> Told {
        let (records, text) = (self.given(cascade), self.given(note));
        let (at, len) = (self.lent(room), room.len());
        unsafe { c::tiles_write_file(lines, records, cascade.len(), text, note.len(), at, len) }
            .told()
    }

    pub fn read_file(self, file: &[u8], records: &mut [u8], note: &mut [u8]) -> Told {
        let (at, len) = (self.lent(records), records.len());
        let (note_at, note_len) = (self.lent(note), note.len());
        unsafe { c::tiles_read_file(self.given(file), file.len(), at, len, note_at, note_len) }
            .told()
    }

    pub fn opening(self, file: &[u8]) -> Told {
        unsafe { c::tiles_opening(self.given(file), file.len()) }.told()
    }

    pub fn next(self, file: &[u8], lines: u8, place: usize, end: usize) -> Told {
        unsafe { c::tiles_next(self.given(file), file.len(), lines, place, end) }.told()
    }

    pub fn listing(self, lines: u8, cascade: &[u8], room: &mut [u8]) -> Told {
        let (at, len) = (self.lent(room), room.len());
        unsafe { c::tiles_listing(lines, self.given(cascade), cascade.len(), at, len) }.told()
    }

    pub fn sheet(self, file: &[u8], room: &mut [u8]) -> Told {
        let (at, len) = (self.lent(room), room.len());
        unsafe { c::tiles_sheet(self.given(file), file.len(), at, len) }.told()
    }

    pub fn read_names(self, lines: u8, text: &[u8], room: &mut [u8]) -> Told {
        let (at, len) = (self.lent(room), room.len());
        unsafe { c::tiles_read_names(lines, self.given(text), text.len(), at, len) }.told()
    }

    pub fn write_names(self, lines: u8, cascade: &[u8], room: &mut [u8]) -> Told {
        let (at, len) = (self.lent(room), room.len());
        unsafe { c::tiles_write_names(lines, self.given(cascade), cascade.len(), at, len) }.told()
    }

    pub fn serial_start(self, reader: &mut Reader, lines: u8) -> Told {
        unsafe { c::tiles_serial_start(reader, lines) }.told()
    }

    pub fn serial_part(self, reader: &mut Reader, part: &[u8]) -> Told {
        unsafe { c::tiles_serial_part(reader, self.given(part), part.len()) }.told()
    }

    pub fn serial_end(self, reader: &mut Reader, table: &mut [u16]) -> Told {
        let (at, len) = (self.lent(table), table.len());
        unsafe { c::tiles_serial_end(reader, at, len) }.told()
    }

    /// Calls, and tells the answer in numbers. Only `serial` takes a reader.
    pub fn answer(self, call: Call, given: Given, reader: &mut Reader) -> Told {
        let Given { lines, value, fitted, pattern, place, end, .. } = given;
        let Given { table, bytes, more_bytes, entries, room, note_room, .. } = given;
        let Given { more_entries, answers, .. } = given;
        match call {
            Call::CheckTable => self.check_table(lines, table),
            Call::Synthesize => self.synthesize(lines, table, room),
            Call::CheckCascade => self.check_cascade(lines, bytes),
            Call::Run => self.run(lines, bytes, pattern),
            Call::Tabulate => self.tabulate(lines, bytes, entries),
            Call::Invert => self.invert(lines, bytes, room),
            Call::Price => self.price(lines, value, fitted, bytes),
            Call::Tidy => self.tidy(lines, bytes),
            Call::Choose => self.choose(lines, value, fitted, bytes, more_bytes),
            Call::WriteFile => self.write_file(lines, bytes, more_bytes, room),
            Call::ReadFile => self.read_file(bytes, room, note_room),
            Call::Opening => self.opening(bytes),
            Call::Next => self.next(bytes, lines, place, end),
            Call::Listing => self.listing(lines, bytes, room),
            Call::Sheet => self.sheet(bytes, room),
            Call::ReadNames => self.read_names(lines, bytes, room),
            Call::WriteNames => self.write_names(lines, bytes, room),
            Call::Serial => {
                let (mut lent, tables) = (LentReader(self, reader), [entries, more_entries]);
                feed(&mut lent, lines, bytes, more_bytes, tables, answers)
            }
        }
    }
}

/// A reader that is lent to the library at each call.
struct LentReader<'a>(Library, &'a mut Reader);

impl Fed for LentReader<'_> {
    fn start(&mut self, lines: u8) -> Told {
        self.0.serial_start(self.1, lines)
    }

    fn part(&mut self, part: &[u8]) -> Told {
        self.0.serial_part(self.1, part)
    }

    fn end(&mut self, table: &mut [u16]) -> Told {
        self.0.serial_end(self.1, table)
    }
}
