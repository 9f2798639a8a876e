//! A text fed to a reader in parts: the calls that a case of `serial` makes, on any
//! library's reader.

use crate::calls::{one, told, Told};
use crate::serial::SerialReader;

/// How many calls are made beside one for each length that is given.
pub const OTHER_CALLS: usize = 5;

/// A reader of tables as text, as C callers have it.
pub trait Fed {
    /// Makes the reader anew.
    fn start(&mut self, lines: u8) -> Told;
    fn part(&mut self, part: &[u8]) -> Told;
    fn end(&mut self, table: &mut [u16]) -> Told;
}

impl Fed for SerialReader {
    fn start(&mut self, lines: u8) -> Told {
        *self = SerialReader::start(lines);
        told(self.answer(), one)
    }

    fn part(&mut self, part: &[u8]) -> Told {
        told(SerialReader::part(self, part), one)
    }

    fn end(&mut self, table: &mut [u16]) -> Told {
        told(SerialReader::end(self, table), one)
    }
}

/// Starts a reader; feeds it the text, a part for each length and one with what is left;
/// tells it the end with the first table; and then, which must change nothing, feeds it the
/// whole text once more and tells it the end with the other table. Answers what the first
/// end did. Each call's answer goes to the next of the answers.
pub fn feed(
    reader: &mut impl Fed,
    lines: u8,
    text: &[u8],
    lengths: &[u8],
    [table, other]: [&mut [u16]; 2],
    answers: &mut [Told],
) -> Told {
    let mut answers = answers.iter_mut();
    let mut note = |told: Told| {
        if let Some(answer) = answers.next() {
            *answer = told;
        }
        told
    };
    note(reader.start(lines));
    let mut rest = text;
    for &length in lengths {
        let (part, behind) = rest.split_at(rest.len().min(length as usize));
        note(reader.part(part));
        rest = behind;
    }
    note(reader.part(rest));
    let told = note(reader.end(table));
    note(reader.part(text));
    note(reader.end(other));
    told
}
