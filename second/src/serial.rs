//! Tables as text over the serial lead, as document 02's order 4 has them.
//!
//! A text is decimal numbers without leading zeros, a space or a newline behind each,
//! behind the last a newline. It comes in parts of any length. Of what has come, a reader
//! keeps the numbers that a table has room for, how many there were, and what the next
//! byte may be, so that it makes no difference where the text is cut.

use crate::answer::{Answer, Refusal};
use crate::pattern::{Lines, MOST_PATTERNS};
use crate::table::check_table;

/// The most bytes of a text: what stands at this offset is refused, whatever it is.
pub const LONGEST_TEXT: usize = 65_535;

/// What the text has last.
#[derive(Clone, Copy, Debug, PartialEq, Eq)]
enum Last {
    /// A space, or nothing yet: a number must begin.
    Space,
    /// A newline: a number may begin, or the text end.
    Newline,
    /// A number, which may go on. It has as many digits as its value, since none of them
    /// is a leading zero.
    Number(u16),
}

/// Takes a text in parts, then its end.
#[derive(Clone, Debug)]
pub struct SerialReader {
    lines: u8,
    /// What every call answers from now on: a refusal, or what the end answered.
    settled: Option<Answer<usize>>,
    last: Last,
    /// The bytes that have come.
    length: usize,
    /// The numbers that have come, also those that there is no entry for.
    count: usize,
    entries: [u16; MOST_PATTERNS],
}

impl SerialReader {
    /// A reader is made in any case. Refusal 1, which [`answer`](Self::answer) tells, then
    /// stands in it.
    pub fn start(lines: u8) -> SerialReader {
        SerialReader {
            lines,
            settled: Lines::check(lines).err().map(Err),
            last: Last::Space,
            length: 0,
            count: 0,
            entries: [0; MOST_PATTERNS],
        }
    }

    /// What the last call answered: 0 for the start and for a part that was taken, and for
    /// an end the entries.
    pub fn answer(&self) -> Answer<usize> {
        self.settled.unwrap_or(Ok(0))
    }

    /// Takes the next part. Refusals 1, 14, or what the end answered.
    pub fn part(&mut self, part: &[u8]) -> Answer<usize> {
        if self.settled.is_none() {
            self.settled = self.take(part).err().map(Err);
        }
        self.answer()
    }

    /// Tells that the text has ended, and writes the table. Refusals 1, 14, 2, 3, 4, 5; the
    /// answer is the number of entries. Only the first end looks at the table that is lent.
    pub fn end(&mut self, table: &mut [u16]) -> Answer<usize> {
        *self.settled.get_or_insert_with(|| {
            if self.last != Last::Newline {
                return Err(Refusal::not_in_a_text(self.length));
            }
            // More numbers than there are entries make no table on any lines.
            let read = self.entries.get(..self.count).ok_or(Refusal::table_length())?;
            check_table(self.lines, read)?;
            let room = table.get_mut(..self.count).ok_or(Refusal::room_too_small(self.count))?;
            room.copy_from_slice(read);
            Ok(self.count)
        })
    }

    /// Number by number. Refusal 14, after which the reader is of no use.
    fn take(&mut self, part: &[u8]) -> Answer<()> {
        let taken = part.len().min(LONGEST_TEXT - self.length);
        self.length += taken;
        let mut rest = &part[..taken];
        // Kept at hand: in memory, each count would wait for the one before to be stored.
        let (mut last, mut count) = (self.last, self.count);
        while !rest.is_empty() {
            let number;
            (number, last, rest) = take_number(last, rest)
                .map_err(|behind| Refusal::not_in_a_text(self.length - behind))?;
            if !matches!(last, Last::Number(_)) {
                if let Some(entry) = self.entries.get_mut(count) {
                    *entry = number;
                }
                count += 1;
            }
        }
        (self.last, self.count) = (last, count);
        if taken < part.len() {
            return Err(Refusal::not_in_a_text(LONGEST_TEXT));
        }
        Ok(())
    }
}

/// Takes a number and the byte behind it, or what there is of them, off a part that isn't
/// empty. Tells the number, what the text has last, and the rest; or, if a byte is wrong,
/// how far from the part's end the place of the refusal is.
#[inline]
fn take_number(last: Last, part: &[u8]) -> Result<(u16, Last, &[u8]), usize> {
    let (mut number, mut rest) = match (last, part) {
        (Last::Number(number), _) => (number as u32, part),
        (_, [first @ b'0'..=b'9', rest @ ..]) => ((first - b'0') as u32, rest),
        _ => return Err(part.len()),
    };
    while let Some((&byte, behind)) = rest.split_first() {
        match byte {
            // Nothing goes on behind a leading zero.
            b'0'..=b'9' if number > 0 => {
                let longer = 10 * number + (byte - b'0') as u32;
                if longer > u16::MAX as u32 {
                    let digits = 1 + number.ilog10() as usize;
                    return Err(rest.len() + digits);
                }
                number = longer;
            }
            b' ' => return Ok((number as u16, Last::Space, behind)),
            b'\n' => return Ok((number as u16, Last::Newline, behind)),
            _ => return Err(rest.len()),
        }
        rest = behind;
    }
    Ok((number as u16, Last::Number(number as u16), rest))
}
