//! Lists of gates in the names of document 003, as document 02's order 1 has them.
//!
//! A line is a name, a space, the target as `x` and one digit, then a space and
//! `xk=v` for each control in rising k, and a newline. Nothing else stands in a
//! text, so that each accepted one is exactly what writing its cascade gives.

use crate::answer::{Answer, Refusal};
use crate::cascade::{Cascade, MOST_GATES};
use crate::gate::{Gate, NO_CONTROL, RECORD};
use crate::listing::{starts, Listing, Starts};
use crate::pattern::Lines;

/// What document 003 calls C1, C2, N, D and E.
const NAMES: [&str; 5] = ["+1", "+2", "02", "12", "01"];

static STARTS: Starts = starts(NAMES);

/// Writes the list. Refusals 1, 6, 7, 5; the answer is the number of bytes.
pub fn write_names(lines: u8, cascade: &[u8], room: &mut [u8]) -> Answer<usize> {
    let cascade = Cascade::check(Lines::check(lines)?, cascade)?;
    Listing::of_gates(cascade, &STARTS).write(room)
}

/// Reads a list into a room for records. Refusals 1, 12, 6, 5; the answer is the
/// number of gates.
pub fn read_names(lines: u8, text: &[u8], room: &mut [u8]) -> Answer<usize> {
    let lines = Lines::check(lines)?;
    let mut count = 0;
    for gate in gates(lines, text) {
        gate.ok_or(Refusal::not_a_line(count))?;
        count += 1;
    }
    if count > MOST_GATES {
        return Err(Refusal::cascade_length());
    }
    let (room, _) = room.as_chunks_mut::<RECORD>();
    let Some(room) = room.get_mut(..count) else {
        return Err(Refusal::room_too_small(count));
    };
    for (record, gate) in room.iter_mut().zip(gates(lines, text).flatten()) {
        *record = gate.record();
    }
    Ok(count)
}

/// The gate of each line, first to last; `None` for a line that says none. What
/// comes behind that one means nothing.
fn gates(lines: Lines, mut text: &[u8]) -> impl Iterator<Item = Option<Gate>> + '_ {
    std::iter::from_fn(move || (!text.is_empty()).then(|| take_gate(lines, &mut text)))
}

/// Takes a line off the start of a text and tells its gate; `None` if the line isn't of
/// the form or no gate on so many lines.
fn take_gate(lines: Lines, text: &mut &[u8]) -> Option<Gate> {
    let [n0, n1, b' ', b'x', target @ b'0'..=b'5', controls @ ..] = *text else { return None };
    let mut record = [NO_CONTROL; RECORD];
    record[0] = 1 + NAMES.iter().position(|name| name.as_bytes() == [*n0, *n1])? as u8;
    record[1] = target - b'0';
    let (mut rest, mut least) = (controls, b'0');
    while let [b' ', b'x', line @ b'0'..=b'5', b'=', value @ b'0'..=b'2', behind @ ..] = rest {
        if *line < least {
            return None;
        }
        record[2 + (line - b'0') as usize] = value - b'0';
        least = line + 1;
        rest = behind;
    }
    *text = rest.strip_prefix(b"\n")?;
    Gate::read(lines, record)
}
