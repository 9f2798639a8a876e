//! Files: written, read, opened and read gate by gate.

use super::cascades::{with_one_bad_record, RIGHT_RECORD};
use super::making::{
    all_on_file, file, gate, gates, on_cascade, on_long_cascade, reader, reading, trailer,
};
use crate::calls::Call;
use crate::cascade::MOST_GATES;
use crate::draws::Draws;
use crate::gate::RECORD;
use crate::vectors::Case;

/// A file of two lines, a note of five bytes and three gates: 37 bytes.
fn example_file() -> Vec<u8> {
    file(2, &gates("D x0, C1 x1 x0=2, C2 x0"), b"hello")
}

/// Writing files: refusal 9 for the note, refusal 5.
pub(super) fn written_files() -> Vec<Case> {
    let mut cases = vec![];
    let two = gates("D x0, E x0");
    for length in [0, 1, 1_023, 1_024, 1_025, 2_000] {
        for room in [0, length + 23, length + 24, length + 25] {
            let more_stored = vec![7; length];
            cases.push(Case { more_stored, room, ..on_cascade(Call::WriteFile, 1, &two) });
        }
    }
    // Byte for byte, then the longest file.
    let small = on_cascade(Call::WriteFile, 3, &gates("D x0 x2=1, C2 x1"));
    cases.push(Case { more_stored: b"AB".to_vec(), room: 26, ..small });
    cases.push(Case { more_stored: vec![], room: 8, ..on_cascade(Call::WriteFile, 6, &[]) });
    for room in [65_031, 65_032, 65_033] {
        let longest = on_long_cascade(Call::WriteFile, 1, gate("E x0"), MOST_GATES, &[]);
        cases.push(Case { more_stored: vec![9; 1_024], room, ..longest });
    }
    for lines in 1..=6 {
        let drawn = Draws::from_seed(180 + lines as u32).cascade(lines as usize, 9);
        cases.push(on_cascade(Call::WriteFile, lines, &drawn));
    }
    cases
}

/// Refusals 9, 1, 6, 7 of files, in that order.
pub(super) fn frames() -> Vec<Case> {
    [
        damaged_files(),
        editions(),
        distances(),
        flipped_bits(),
        lines_of_files(),
        bad_records_in_files(),
        lengths_of_files(),
    ]
    .concat()
}

/// Cut at either end; every byte changed, to small values and to the largest.
fn damaged_files() -> Vec<Case> {
    let mut cases = vec![];
    let good = example_file();
    for length in 0..=good.len() {
        cases.extend(all_on_file(&good[..length]));
        cases.extend(all_on_file(&good[length..]));
    }
    for place in 0..good.len() {
        for value in [0, 1, 3, 6, 9, 255] {
            let mut file = good.clone();
            file[place] = value;
            cases.push(Case { stored: file, ..Case::new(Call::Opening) });
        }
    }
    cases
}

/// Every number for the edition of a file that is good otherwise.
fn editions() -> Vec<Case> {
    let mut cases = vec![];
    for edition in 0..=255 {
        let mut file = file(1, &gates("D x0"), b"");
        file[15] = edition;
        let opening = Case { stored: file.clone(), ..Case::new(Call::Opening) };
        cases.extend([reading(&file, RECORD, 0), opening]);
    }
    cases
}

/// Each bit of distance and count, where the others fit.
fn flipped_bits() -> Vec<Case> {
    let mut cases = vec![];
    let good = example_file();
    for bit in 0..48 {
        let mut file = good.clone();
        file[good.len() - 8 + bit / 8] ^= 1 << (bit % 8);
        cases.extend(all_on_file(&file));
    }
    // No records, and a count of 2^15.
    cases.extend(all_on_file(&[b"note", &trailer(2, 0, 1 << 15)[..]].concat()));
    cases
}

/// Distance and count, one or both of them changed.
fn distances() -> Vec<Case> {
    let mut cases = vec![];
    let good = example_file();
    for (distance, count) in [
        (16, 2),
        (24, 2),
        (24, 4),
        (16, 3),
        (32, 4),
        (25, 3),
        (23, 3),
        (24 + 256, 3),
        (24 + 65_536, 3),
        (24 + (1 << 24), 3),
        (24, 3 + 256),
        (0, 0),
        (8, 1),
        (8 * 65_535, 65_535),
        (u32::MAX as usize, 65_535),
        (1 << 31, 0),
        (1 << 19, 0),
    ] {
        let mut file = good[..good.len() - 8].to_vec();
        file.extend(trailer(2, distance, count));
        cases.extend(all_on_file(&file));
        // With three bytes more of note, four records would fit.
        cases.extend(all_on_file(&[b"abc", &file[..]].concat()));
    }
    cases
}

/// Long notes; 9 before 1, 1 before 6 and 7.
fn lines_of_files() -> Vec<Case> {
    let mut cases = vec![];
    for note in [1_023, 1_024, 1_025, 3_000] {
        cases.extend(all_on_file(&file(1, &gates("D x0"), &vec![5; note])));
    }
    let good = example_file();
    let trailer_at = good.len() - 8;
    for lines in 0..=8 {
        let mut file = good.clone();
        file[trailer_at + 6] = lines;
        cases.extend(all_on_file(&file));
        file[trailer_at] = 1;
        cases.extend(all_on_file(&file));
        file[trailer_at] = 24;
        file[5] = 0;
        cases.extend(all_on_file(&file));
    }
    cases
}

/// Refusal 7 wherever the bad record stands.
fn bad_records_in_files() -> Vec<Case> {
    let mut cases = vec![];
    for (times, rest) in with_one_bad_record() {
        let count = times + rest.len() / RECORD;
        let stored = [&rest[..], &trailer(4, RECORD * count, count)].concat();
        let opening = Case { record: RIGHT_RECORD, times, stored, ..Case::new(Call::Opening) };
        let room = RECORD * count;
        cases.push(Case { call: Call::ReadFile, room, ..opening.clone() });
        cases.push(opening);
    }
    cases
}

/// Too many records, and as many as there may be; good and bad ones.
fn lengths_of_files() -> Vec<Case> {
    let mut cases = vec![];
    for record in [gate("D x0"), [0; 8]] {
        for count in [MOST_GATES, MOST_GATES + 1] {
            for lines in [0, 1, 7] {
                let stored = trailer(lines, RECORD * count, count).to_vec();
                let opening = Case { record, times: count, stored, ..Case::new(Call::Opening) };
                let room = RECORD * MOST_GATES;
                cases.push(Case { call: Call::ReadFile, room, ..opening.clone() });
                cases.push(opening);
            }
        }
    }
    // The longest file: its note has as many bytes as 128 records.
    let stored = trailer(1, RECORD * MOST_GATES, MOST_GATES).to_vec();
    let opening = Case { record: gate("D x0"), times: 8_128, stored, ..Case::new(Call::Opening) };
    for (room, note_room) in [(63_999, 1_024), (64_000, 1_023), (64_000, 1_024)] {
        cases.push(Case { call: Call::ReadFile, room, note_room, ..opening.clone() });
    }
    cases.push(Case { times: 8_129, ..opening.clone() });
    cases.push(opening);
    cases
}

/// Refusal 5 in reading: the records' room first.
pub(super) fn rooms_for_files() -> Vec<Case> {
    let mut cases = vec![];
    for room in [0, 8, 16, 23, 24, 25, 31, 32] {
        for note_room in [0, 4, 5, 6] {
            cases.push(reading(&example_file(), room, note_room));
        }
    }
    for (file, room, note_room) in [
        (file(4, &[], b""), 0, 0),
        (file(4, &[], b"n"), 0, 0),
        (file(4, &[], b"n"), 0, 1),
        (file(4, &gates("D x3"), b""), 7, 0),
        (file(4, &gates("D x3"), b""), 8, 0),
    ] {
        cases.push(reading(&file, room, note_room));
    }
    for lines in 1..=6 {
        let drawn = Draws::from_seed(220 + lines as u32).cascade(lines as usize, 9);
        cases.extend(all_on_file(&file(lines, &drawn, b"drawn")));
    }
    cases
}

/// Readers, good and made up.
pub(super) fn readers() -> Vec<Case> {
    let mut cases = vec![];
    // 0 to 2 a note, 3 to 18 two records, 19 to 26 the trailer.
    let file = file(2, &gates("D x0, C1 x1 x0=2"), b"abc");
    for place in 0..30 {
        for end in [0, 10, 11, 18, 19, 20, 27, 1_000, u64::MAX] {
            cases.push(reader(&file, 2, place, end));
        }
    }
    for lines in [0, 1, 3, 6, 7, 255] {
        for (place, end) in [(3, 19), (11, 19), (0, 19), (19, 19), (u64::MAX, u64::MAX)] {
            cases.push(reader(&file, lines, place, end));
        }
    }
    for below in [0, 1, 6, 7, 8, 9, 16, 27] {
        for end in [0, 19, 27, u64::MAX - 8, u64::MAX] {
            cases.push(reader(&file, 2, u64::MAX - below, end));
        }
    }
    for place in [1 << 31, 1 << 32, (1 << 32) + 3, 1 << 63, (1 << 63) + 3] {
        for end in [19, 1 << 32, u64::MAX] {
            cases.push(reader(&file, 2, place, end));
        }
    }
    for end in [0, 8, u64::MAX] {
        cases.push(reader(&[], 1, 0, end));
    }
    // Every operator, target and control that a record can tell.
    let records = gates(
        "C1 x0 x1=0 x2=1 x3=2 x4=0 x5=1, C2 x1, N x2 x0=2, D x3 x5=2, E x5 x0=0 x4=1, D x4 x2=2",
    );
    for place in [0, 8, 16, 24, 32, 40, 48] {
        cases.push(reader(&records, 6, place, 48));
        cases.push(reader(&records, 5, place, 48));
    }
    cases
}
