//! Cascade files, good and damaged, and made-up readers of them.

use samples::Numbers;

use super::cascades::{good_cascade, some_cascade};
use super::{board, said, some_note};

fn file_of(lines: u8, cascade: &[u8], note: &[u8]) -> Vec<u8> {
    let mut file = [note, cascade].concat();
    file.extend((cascade.len() as u32).to_le_bytes());
    file.extend((cascade.len() as u32 / 8).to_le_bytes()[..2].iter());
    file.extend([lines, 1]);
    file
}

/// A file and the lines that its records are made for.
pub fn some_file(numbers: &mut Numbers) -> (usize, Vec<u8>) {
    let lines = board(numbers);
    let cascade = match numbers.below(200) {
        0 => numbers.gate(lines, 50).repeat(8_000 + numbers.below(2)),
        1..=24 => some_cascade(numbers, lines),
        _ => good_cascade(numbers, lines),
    };
    let note = some_note(numbers);
    let said = said(numbers, lines);
    let mut file = file_of(said, &cascade, &note);
    if numbers.one_in(2) {
        return (lines, file);
    }
    match numbers.below(14) {
        0..=6 => change_trailer(numbers, &mut file),
        7 => file.truncate(numbers.below(file.len() + 1)),
        8 => drop(file.drain(..numbers.below(file.len() + 1))),
        9 => {
            let more = 1 + numbers.below(9);
            file.extend(numbers.bytes(more));
        }
        10 => {
            let length = numbers.below(17);
            file = numbers.bytes(length);
        }
        11 => {
            let records = note.len()..file.len() - 8;
            numbers.spoil_a_gate(lines, &mut file[records]);
        }
        12 => numbers.change_a_byte(&mut file),
        // The largest note that there is room for, and one byte more.
        _ => {
            let length = 1_024 + numbers.below(2);
            file = file_of(said, &cascade, &numbers.bytes(length));
        }
    }
    (lines, file)
}

/// Changes something in the last eight bytes: the distance, the count, the lines, the
/// edition.
fn change_trailer(numbers: &mut Numbers, file: &mut [u8]) {
    let trailer = file.split_at_mut(file.len() - 8).1;
    let count = u16::from_le_bytes([trailer[4], trailer[5]]);
    match numbers.below(8) {
        0..=2 => {
            let byte = numbers.below(8);
            trailer[byte] = match numbers.below(4) {
                0 => numbers.byte(),
                1 => trailer[byte] ^ 1 << numbers.below(8),
                2 => trailer[byte].wrapping_add(1),
                _ => numbers.below(9) as u8,
            };
        }
        3 => trailer[7] = numbers.pick(&[0, 2, 3, 255]),
        // Distance and count changed alike.
        4 | 5 => {
            let count = count.wrapping_add(numbers.pick(&[1, 2, u16::MAX]));
            trailer[..4].copy_from_slice(&(8 * count as u32).to_le_bytes());
            trailer[4..6].copy_from_slice(&count.to_le_bytes());
        }
        // The count's highest bit set, the distance still the records'.
        6 => trailer[5] ^= 0x80,
        // The distance to something large.
        _ => {
            let distance =
                numbers.pick(&[u32::MAX, 1 << 31, 1 << 19, 8 * 65_535, 8 * 8_001, u32::MAX - 7]);
            trailer[..4].copy_from_slice(&distance.to_le_bytes());
            if numbers.one_in(2) {
                trailer[4..6].copy_from_slice(&((distance / 8) as u16).to_le_bytes());
            }
        }
    }
}

/// Where a made-up reader stands.
pub fn some_place(numbers: &mut Numbers, file: &[u8], place: usize, end: usize) -> usize {
    match numbers.below(12) {
        0..=4 => place + 8 * numbers.below(end.saturating_sub(place) / 8 + 1),
        5 => end.saturating_sub(numbers.below(12)),
        6 => numbers.below(file.len() + 12),
        7 => file.len().saturating_sub(numbers.below(12)),
        8 => usize::MAX - numbers.below(20),
        9 => numbers.next() as usize,
        10 => numbers.pick(&[0, usize::MAX, usize::MAX - 7, usize::MAX - 8, usize::MAX / 2]),
        _ => place + numbers.below(9),
    }
}

/// Where it says that the records end.
pub fn some_end(numbers: &mut Numbers, file: &[u8], place: usize, end: usize) -> usize {
    match numbers.below(10) {
        0 => place.wrapping_add(8),
        1 => place.wrapping_add(7),
        2 => place.wrapping_add(numbers.below(12)),
        3 => file.len(),
        4 => numbers.below(file.len() + 12),
        5 => usize::MAX - numbers.below(20),
        6 => numbers.pick(&[0, usize::MAX, usize::MAX - 8, 1 << 32]),
        _ => end,
    }
}
