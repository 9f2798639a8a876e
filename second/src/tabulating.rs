//! Running a cascade on all patterns at once, by whichever way is shorter.

use crate::answer::{Answer, Refusal};
use crate::cascade::Cascade;
use crate::pattern::Lines;
use crate::{planes, standing};

/// What the cascade makes of every pattern, as a table. Refusals 1, 6, 7, 5; the
/// answer is the number of entries.
pub fn tabulate(lines: u8, cascade: &[u8], room: &mut [u16]) -> Answer<usize> {
    let lines = Lines::check(lines)?;
    let cascade = Cascade::check(lines, cascade)?;
    let entries = lines.patterns();
    let Some(room) = room.get_mut(..entries) else {
        return Err(Refusal::room_too_small(entries));
    };
    write_table(cascade, room);
    Ok(entries)
}

/// Writes what the cascade computes into a room of exactly 3^n entries.
pub(crate) fn write_table(cascade: Cascade, entries: &mut [u16]) {
    // A row on which a gate acts takes as long as two words of planes. Where
    // planes have so few words, asking would take as long.
    let words = planes::words(cascade.lines());
    if words > 2 && 2 * standing::mean_rows(cascade) <= words {
        standing::tabulate(cascade, entries);
    } else {
        planes::tabulate(cascade, entries);
    }
}
