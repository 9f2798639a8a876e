//! What the program prints for a table file: one byte n, then 3^n entries of 16
//! bits, low byte first.

use crate::answer::{Answer, Refusal};
use crate::cascade::Cascade;
use crate::gate::RECORD;
use crate::listing::Listing;
use crate::pattern::{Lines, MOST_PATTERNS};
use crate::synthesis::synthesize;

/// The longest good table file. One byte more is enough to see that a file is
/// too long.
pub const LONGEST_TABLE_FILE: usize = 1 + 2 * MOST_PATTERNS;

/// Writes the program's text. Refusal 5 alone; whatever else is wrong is part of
/// the text. The answer is the number of bytes.
pub fn sheet(file: &[u8], room: &mut [u8]) -> Answer<usize> {
    match cascade_of(file) {
        Ok((lines, records)) => Listing::of(Cascade::of_found(lines, &records)).write(room),
        Err(refusal) => {
            let text = refusal_text(refusal);
            let Some(room) = room.get_mut(..text.len()) else {
                return Err(Refusal::room_too_small(text.len()));
            };
            room.copy_from_slice(text.as_bytes());
            Ok(text.len())
        }
    }
}

/// The program's text: the listing of the table's cascade, or the refusal.
pub fn text(file: &[u8]) -> Vec<u8> {
    match cascade_of(file) {
        Ok((lines, records)) => Listing::of(Cascade::of_found(lines, &records)).text(),
        Err(refusal) => refusal_text(refusal).into_bytes(),
    }
}

/// The lines and the records of a table file's cascade. Refusals 1, 2, 3, 4.
fn cascade_of(file: &[u8]) -> Answer<(Lines, Vec<[u8; RECORD]>)> {
    // An empty file counts as one that says n = 0.
    let (&n, entries) = file.split_first().unwrap_or((&0, &[]));
    let lines = Lines::check(n)?;
    let (entries, odd_byte) = entries.as_chunks::<2>();
    if !odd_byte.is_empty() {
        return Err(Refusal::table_length());
    }
    let table: Vec<u16> =
        entries.iter().take(MOST_PATTERNS + 1).map(|&entry| u16::from_le_bytes(entry)).collect();
    let mut records = vec![[0; RECORD]; lines.gate_bound()];
    let gates = synthesize(n, &table, records.as_flattened_mut())?;
    records.truncate(gates);
    Ok((lines, records))
}

fn refusal_text(Refusal { number, place }: Refusal) -> String {
    format!("refused {number} at {place}\n")
}
