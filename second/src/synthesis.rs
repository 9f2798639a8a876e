//! From table to cascade.

use crate::answer::{Answer, Refusal};
use crate::gate::{Gate, Head, Operator, RECORD};
use crate::pattern::{Lines, DIGITS, MOST_LINES, WEIGHT};
use crate::table::Permutation;

/// Writes the cascade that computes the table. Refusals 1, 2, 3, 4, 5; the answer
/// is the number of gates. The room asked is the bound, whatever the table needs.
pub fn synthesize(lines: u8, table: &[u16], room: &mut [u8]) -> Answer<usize> {
    let lines = Lines::check(lines)?;
    match lines.count() {
        1 => synthesize_sized::<3>(lines, table, room),
        2 => synthesize_sized::<9>(lines, table, room),
        3 => synthesize_sized::<27>(lines, table, room),
        4 => synthesize_sized::<81>(lines, table, room),
        5 => synthesize_sized::<243>(lines, table, room),
        _ => synthesize_sized::<729>(lines, table, room),
    }
}

/// For a number of lines that has tables of this size.
fn synthesize_sized<const SIZE: usize>(
    lines: Lines,
    table: &[u16],
    room: &mut [u8],
) -> Answer<usize> {
    let permutation = Permutation::<SIZE>::check(table)?;
    let (room, _) = room.as_chunks_mut::<RECORD>();
    let Some(room) = room.get_mut(..lines.gate_bound()) else {
        return Err(Refusal::room_too_small(lines.gate_bound()));
    };
    let gates = write_in_order_found(lines, permutation, room);
    // Each gate is its own inverse, so the way back to the table is the reverse.
    room[..gates].reverse();
    Ok(gates)
}

/// Writes the gates that turn the table into the identity, row by row.
fn write_in_order_found<const SIZE: usize>(
    lines: Lines,
    mut table: Permutation<SIZE>,
    room: &mut [[u8; RECORD]],
) -> usize {
    let mut gates = 0;
    for (row, wanted) in DIGITS.iter().enumerate().take(SIZE) {
        let mut present = table.table()[row] as usize;
        let both = DIGITS[present].0 << 2 | wanted.0;
        let mut differing = DIGITS[present].0 ^ wanted.0;
        while differing != 0 {
            let place = differing.trailing_zeros() as usize & !7;
            let change = &CHANGES[place / 8][(both >> place & 15) as usize];
            room[gates] = Gate::fully_controlled(lines, change.head, DIGITS[present]).record();
            gates += 1;
            // A fully controlled swap moves just two patterns, each to the other.
            // What it does to this row, which isn't read again, is kept here.
            let after = present.wrapping_add(change.difference);
            table.replace_output(after, present);
            present = after;
            differing &= !(0xff << place);
        }
    }
    gates
}

/// What it takes to change a digit of a pattern.
#[derive(Clone, Copy)]
struct Change {
    /// The one of N, D, E that exchanges the two digits, on their line.
    head: Head,
    /// To be added to the pattern, round the end of the numbers if it falls.
    difference: usize,
}

/// The changes of each line's digit, by four times the old one plus the new one.
static CHANGES: [[Change; 16]; MOST_LINES] = {
    let none = Change { head: Head::of(Operator::N, 0), difference: 0 };
    let mut changes = [[none; 16]; MOST_LINES];
    let mut line = 0;
    while line < MOST_LINES {
        let mut digits = 0;
        while digits < 9 {
            let (from, to) = (digits / 3, digits % 3);
            let weight = WEIGHT[line] as usize;
            changes[line][4 * from + to] = Change {
                head: Head::of(swap(from, to), line),
                difference: (weight * to).wrapping_sub(weight * from),
            };
            digits += 1;
        }
        line += 1;
    }
    changes
};

/// The one of N, D, E that exchanges two different digits. Their sum tells which.
const fn swap(one: usize, other: usize) -> Operator {
    match one + other {
        1 => Operator::E,
        2 => Operator::N,
        _ => Operator::D,
    }
}
