//! Every call in one shape: numbers, bytes and rooms in, five numbers out.
//!
//! This is the shape of the library's C functions. Test cases ([`vectors`]) and
//! comparisons with another library are written in it, so that what is common to
//! all calls is said once.
//!
//! [`vectors`]: crate::vectors

use crate::answer::{Answer, Refusal};
use crate::cascade::{check, invert, price, run};
use crate::choice::choose;
use crate::feeding::feed;
use crate::file::{next, opening, read_file, write_file};
use crate::listing::listing;
use crate::names::{read_names, write_names};
use crate::serial::SerialReader;
use crate::sheet::sheet;
use crate::synthesis::synthesize;
use crate::table::check_table;
use crate::tabulating::tabulate;
use crate::tidying::tidy;

/// The calls that numbers, bytes and rooms are enough for.
#[derive(Clone, Copy, Debug, PartialEq, Eq)]
pub enum Call {
    CheckTable = 1,
    Synthesize,
    CheckCascade,
    Run,
    Tabulate,
    Invert,
    Price,
    Tidy,
    Choose,
    WriteFile,
    ReadFile,
    Opening,
    Next,
    Listing,
    Sheet,
    ReadNames,
    WriteNames,
    /// All calls of a reader of tables as text, from its start to behind its end.
    Serial,
}

/// All that is given or lent to a call. It looks only at what it takes.
#[derive(Default)]
pub struct Given<'a> {
    pub lines: u8,
    pub value: u8,
    pub fitted: u8,
    pub pattern: u16,
    pub place: usize,
    pub end: usize,
    pub table: &'a [u16],
    /// The cascade, the first of two, the file, the list, or the text of a table. Tidying
    /// changes it.
    pub bytes: &'a mut [u8],
    /// The second cascade, the note, or the lengths of a text's parts.
    pub more_bytes: &'a [u8],
    /// The room for a table.
    pub entries: &'a mut [u16],
    /// The table that is lent behind the end of a text.
    pub more_entries: &'a mut [u16],
    /// The room for records, a file or a text.
    pub room: &'a mut [u8],
    /// The room for a note.
    pub note_room: &'a mut [u8],
    /// The room for what each call of a reader answers.
    pub answers: &'a mut [Told],
}

/// An answer as numbers. The number is 0 if the call was accepted; otherwise it
/// is the refusal's, and all but it and the place are 0.
#[derive(Clone, Copy, Debug, Default, PartialEq, Eq)]
pub struct Told {
    pub number: u64,
    pub place: u64,
    pub first: u64,
    pub second: u64,
    pub third: u64,
}

impl Call {
    pub const ALL: [Call; 18] = [
        Call::CheckTable,
        Call::Synthesize,
        Call::CheckCascade,
        Call::Run,
        Call::Tabulate,
        Call::Invert,
        Call::Price,
        Call::Tidy,
        Call::Choose,
        Call::WriteFile,
        Call::ReadFile,
        Call::Opening,
        Call::Next,
        Call::Listing,
        Call::Sheet,
        Call::ReadNames,
        Call::WriteNames,
        Call::Serial,
    ];

    pub fn from_number(number: u32) -> Option<Call> {
        Call::ALL.into_iter().find(|&call| call.number() == number)
    }

    pub fn number(self) -> u32 {
        self as u32
    }

    pub fn name(self) -> &'static str {
        match self {
            Call::CheckTable => "check_table",
            Call::Synthesize => "synthesize",
            Call::CheckCascade => "check_cascade",
            Call::Run => "run",
            Call::Tabulate => "tabulate",
            Call::Invert => "invert",
            Call::Price => "price",
            Call::Tidy => "tidy",
            Call::Choose => "choose",
            Call::WriteFile => "write_file",
            Call::ReadFile => "read_file",
            Call::Opening => "opening",
            Call::Next => "next",
            Call::Listing => "listing",
            Call::Sheet => "sheet",
            Call::ReadNames => "read_names",
            Call::WriteNames => "write_names",
            Call::Serial => "serial",
        }
    }

    /// The refusals that the call can give, in the order in which it looks.
    pub fn refusals(self) -> &'static [u8] {
        match self {
            Call::CheckTable => &[1, 2, 3, 4],
            Call::Synthesize => &[1, 2, 3, 4, 5],
            Call::CheckCascade | Call::Tidy => &[1, 6, 7],
            Call::Run => &[1, 6, 7, 8],
            Call::Tabulate | Call::Invert | Call::Listing | Call::WriteNames => &[1, 6, 7, 5],
            Call::Price => &[1, 10, 13, 6, 7],
            Call::Choose => &[1, 10, 13, 6, 7, 11],
            Call::WriteFile => &[1, 6, 7, 9, 5],
            Call::ReadFile => &[9, 1, 6, 7, 5],
            Call::Opening => &[9, 1, 6, 7],
            Call::Next => &[1, 7],
            Call::Sheet => &[5],
            Call::ReadNames => &[1, 12, 6, 5],
            Call::Serial => &[1, 14, 2, 3, 4, 5],
        }
    }

    /// Calls, and tells the answer in numbers.
    pub fn answer(self, given: Given) -> Told {
        let Given { lines, value, fitted, pattern, place, end, .. } = given;
        let Given { table, bytes, more_bytes, entries, room, note_room, .. } = given;
        let Given { more_entries, answers, .. } = given;
        match self {
            Call::CheckTable => told(check_table(lines, table), |()| [0; 3]),
            Call::Synthesize => told(synthesize(lines, table, room), one),
            Call::CheckCascade => told(check(lines, bytes), one),
            Call::Run => told(run(lines, bytes, pattern), |pattern| one(pattern as usize)),
            Call::Tabulate => told(tabulate(lines, bytes, entries), one),
            Call::Invert => told(invert(lines, bytes, room), one),
            Call::Price => told(price(lines, value, fitted, bytes), |cost| one(cost as usize)),
            Call::Tidy => told(tidy(lines, bytes), |tidied| [tidied.gates, tidied.steps, 0]),
            Call::Choose => {
                told(choose(lines, value, fitted, bytes, more_bytes), |which| one(which as usize))
            }
            Call::WriteFile => told(write_file(lines, bytes, more_bytes, room), one),
            Call::ReadFile => told(read_file(bytes, room, note_room), |found| {
                [found.lines as usize, found.gates, found.note]
            }),
            Call::Opening => {
                told(opening(bytes), |opening| [opening.lines as usize, opening.place, opening.end])
            }
            // A gate and the place behind it; at the end the place stays.
            Call::Next => told(next(bytes, lines, place, end), |gate| match gate {
                Some(gate) => {
                    let operator = gate.operator().number() as usize;
                    let controls = gate.packed_controls() as usize;
                    [1, place + 8, operator + 256 * gate.target() + 65_536 * controls]
                }
                None => [0, place, 0],
            }),
            Call::Listing => told(listing(lines, bytes, room), one),
            Call::Sheet => told(sheet(bytes, room), one),
            Call::ReadNames => told(read_names(lines, bytes, room), one),
            Call::WriteNames => told(write_names(lines, bytes, room), one),
            Call::Serial => {
                let (reader, tables) = (&mut SerialReader::start(0), [entries, more_entries]);
                feed(reader, lines, bytes, more_bytes, tables, answers)
            }
        }
    }
}

pub(crate) fn one(value: usize) -> [usize; 3] {
    [value, 0, 0]
}

pub(crate) fn told<T>(answer: Answer<T>, values: impl FnOnce(T) -> [usize; 3]) -> Told {
    match answer {
        Ok(answer) => {
            let [first, second, third] = values(answer).map(|value| value as u64);
            Told { number: 0, place: 0, first, second, third }
        }
        Err(Refusal { number, place }) => {
            Told { number: number as u64, place: place as u64, ..Told::default() }
        }
    }
}
