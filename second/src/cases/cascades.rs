//! The calls on a cascade: each refusal, and what accepted cascades give.

use super::making::{
    all_else_wrong, all_on_cascade, all_on_long_cascade, choosing, gate, gates, on_cascade,
    on_long_cascade, size, NO_LINES,
};
use crate::calls::Call;
use crate::cascade::MOST_GATES;
use crate::draws::Draws;
use crate::gate::RECORD;
use crate::vectors::Case;

/// A gate on three lines or more.
pub const RIGHT_RECORD: [u8; RECORD] = [2, 1, 0, 3, 2, 3, 3, 3];

/// Records that are no gate on four lines, each in one way or in two.
pub const WRONG_RECORDS: [[u8; RECORD]; 18] = [
    [0, 1, 0, 3, 2, 3, 3, 3],
    [6, 1, 0, 3, 2, 3, 3, 3],
    [255, 1, 0, 3, 2, 3, 3, 3],
    [2, 4, 0, 1, 2, 3, 3, 3],
    [2, 4, 0, 1, 2, 3, 4, 3],
    [2, 6, 0, 1, 2, 3, 3, 3],
    [2, 255, 0, 1, 2, 3, 3, 3],
    [2, 1, 4, 3, 2, 3, 3, 3],
    [2, 1, 255, 3, 2, 3, 3, 3],
    [2, 1, 0, 0, 2, 3, 3, 3],
    [2, 1, 0, 2, 2, 3, 3, 3],
    [2, 1, 0, 4, 2, 3, 3, 3],
    [2, 1, 0, 3, 2, 3, 0, 3],
    [2, 1, 0, 3, 2, 3, 3, 2],
    [2, 1, 0, 3, 2, 3, 3, 4],
    [2, 1, 0, 3, 2, 3, 3, 131],
    [2, 1, 0, 3, 2, 7, 3, 3],
    [0; 8],
];

/// Refusal 1 of the calls on a cascade, before all others.
pub(super) fn lines_of_cascades() -> Vec<Case> {
    let mut cases = vec![];
    for lines in 1..=6 {
        cases.extend(all_on_cascade(lines, &gates("D x0")));
    }
    for lines in NO_LINES {
        cases.extend(all_on_cascade(lines, &gates("D x0")));
        cases.extend(all_on_cascade(lines, &[]));
        let wrong = all_on_cascade(lines, &[0; 13]).into_iter();
        cases.extend(wrong.map(all_else_wrong).map(|case| Case { value: 3, ..case }));
    }
    cases
}

/// Refusal 6, and that it comes before 7, 8, 9 and 5.
pub(super) fn lengths_of_cascades() -> Vec<Case> {
    let record = gate("D x0");
    let mut cases = vec![];
    for length in [0, 1, 7, 8, 9, 15, 16, 63_999, 64_000, 64_001, 64_007, 64_008] {
        let (times, odd) = (length / RECORD, &record[..length % RECORD]);
        cases.extend(all_on_long_cascade(3, record, times, odd));
    }
    for (times, odd) in [(0, 1), (1, 7), (MOST_GATES, 4), (MOST_GATES + 1, 0)] {
        let wrong = all_on_long_cascade(3, [0; 8], times, &[0; 8][..odd]).into_iter();
        cases.extend(wrong.map(all_else_wrong));
    }
    // The longest cascades of other kinds, and the room that they take.
    for text in ["C1 x0", "C2 x5 x0=0 x1=1 x2=2 x3=0 x4=1", "E x2 x3=2"] {
        cases.extend(all_on_long_cascade(6, gate(text), MOST_GATES, &[]));
    }
    cases
}

/// Refusal 7, and that it comes before 8, 9, 11 and 5.
pub(super) fn records() -> Vec<Case> {
    let mut cases = vec![];
    for lines in 1..=6 {
        cases.extend(all_on_cascade(lines, &RIGHT_RECORD));
    }
    for record in WRONG_RECORDS {
        cases.extend(all_on_cascade(4, &record));
        cases.extend(all_on_cascade(4, &[RIGHT_RECORD, record, RIGHT_RECORD, record].concat()));
    }
    cases.extend(all_on_long_cascade(4, RIGHT_RECORD, MOST_GATES - 1, &WRONG_RECORDS[0]));
    let wrong = all_on_cascade(4, &[RIGHT_RECORD, WRONG_RECORDS[1]].concat()).into_iter();
    cases.extend(wrong.map(all_else_wrong));
    // Every value of every byte of a record, small ones and the largest.
    for place in 0..RECORD {
        for value in [0, 1, 2, 3, 4, 5, 6, 255] {
            let mut record = [4, 2, 1, 0, 3, 2, 3, 3];
            record[place] = value;
            cases.push(on_cascade(Call::CheckCascade, 4, &record));
        }
    }
    cases
}

/// Refusal 7 wherever the bad record stands, and no refusal without one.
pub(super) fn places_of_bad_records() -> Vec<Case> {
    let mut cases = vec![];
    for (times, rest) in with_one_bad_record() {
        cases.extend(all_on_long_cascade(4, RIGHT_RECORD, times, &rest));
    }
    for times in [63, 64, 65, 1_000] {
        cases.extend(all_on_long_cascade(4, RIGHT_RECORD, times, &[]));
    }
    cases
}

/// Cascades on four lines with a bad record that is not the first: how often
/// [`RIGHT_RECORD`] stands before it, and it with what stands behind it.
pub(super) fn with_one_bad_record() -> Vec<(usize, Vec<u8>)> {
    let mut cascades = vec![];
    for count in [63, 64, 65, 1_000, MOST_GATES] {
        let middle = if count < MOST_GATES { count / 2 } else { MOST_GATES - 200 };
        let mut places = [1, 62, 63, middle, count - 2, count - 1];
        places.sort_unstable();
        for (number, &place) in places.iter().enumerate() {
            // What stands behind is stored, so in long ones the bad one stands late.
            if place < count && count - place <= 500 && !places[..number].contains(&place) {
                let bad = WRONG_RECORDS[(count + place) % WRONG_RECORDS.len()];
                let behind = RIGHT_RECORD.repeat(count - place - 1);
                cascades.push((place, [&bad[..], &behind].concat()));
            }
        }
    }
    cascades
}

/// Running: refusal 8, and every operator under a control.
pub(super) fn patterns() -> Vec<Case> {
    let mut cases = vec![];
    let mut with = |lines: u8, cascade: &[u8], pattern: usize| {
        let pattern = pattern as u16;
        cases.push(Case { pattern, ..on_cascade(Call::Run, lines, cascade) });
    };
    for lines in 1..=6 {
        let end = size(lines);
        let drawn = Draws::from_seed(40 + lines as u32).cascade(lines as usize, 12);
        for pattern in [0, 1, 2, end / 2, end - 1, end, end + 1, 729, 65_535] {
            with(lines, &[], pattern);
            with(lines, &gates("C1 x0, N x0"), pattern);
            with(lines, &drawn, pattern);
        }
    }
    for operator in ["C1", "C2", "N", "D", "E"] {
        for pattern in 0..9 {
            for value in 0..3 {
                with(2, &gates(&format!("{operator} x0 x1={value}")), pattern);
            }
            with(2, &gates(&format!("{operator} x1")), pattern);
        }
    }
    cases
}

/// Refusal 5 of the calls on a cascade.
pub(super) fn rooms_for_cascades() -> Vec<Case> {
    let mut cases = vec![];
    let three = gates("D x0, C1 x1 x0=2, C2 x0");
    let mut with = |call: Call, lines: u8, cascade: &[u8], room: usize| {
        cases.push(Case { room, ..on_cascade(call, lines, cascade) });
    };
    for lines in 1..=6 {
        let drawn = Draws::from_seed(60 + lines as u32).cascade(lines as usize, 20);
        for room in [0, size(lines) - 1, size(lines), size(lines) + 1, 1_000] {
            with(Call::Tabulate, lines, &drawn, room);
            with(Call::Tabulate, lines, &[], room);
        }
        for room in [0, 152, 159, 160, 161, 167, 168, 200] {
            with(Call::Invert, lines, &drawn, room);
        }
        with(Call::Listing, lines, &drawn, 1_000);
    }
    for room in [0, 8, 16, 23, 24, 25, 31, 32] {
        with(Call::Invert, 2, &three, room);
        with(Call::Invert, 1, &[], room);
    }
    // "note", three records, a trailer: 36 bytes.
    for room in [0, 8, 35, 36, 37, 100] {
        with(Call::WriteFile, 2, &three, room);
    }
    let text = "lines 2 gates 3 cost 3\nD x0\nC1 x1 x0=2\nC2 x0\n".len();
    for room in [0, 1, text - 1, text, text + 1, text + 50] {
        with(Call::Listing, 2, &three, room);
    }
    cases
}

/// Refusal 10, the price of a gate and of a cascade.
pub(super) fn values() -> Vec<Case> {
    let mut cases = vec![];
    let cascades = [gates("D x0 x1=2"), vec![], gates("D x0")[..7].to_vec(), vec![0; 8]];
    for value in [0, 1, 2, 3, 4, 255] {
        for cascade in &cascades {
            cases.push(Case { value, ..on_cascade(Call::Price, 2, cascade) });
            cases.push(choosing(2, value, cascade, cascade));
            cases.push(choosing(2, value, &[], cascade));
        }
        let dearest = gate("D x0 x1=0 x2=0 x3=0 x4=0 x5=0");
        let dearest = on_long_cascade(Call::Price, 6, dearest, MOST_GATES, &[]);
        cases.push(Case { value, ..dearest });
    }
    for lines in 1..=6 {
        let drawn = Draws::from_seed(80 + lines as u32).cascade(lines as usize, 30);
        for value in 0..3 {
            cases.push(Case { value, ..on_cascade(Call::Price, lines, &drawn) });
        }
    }
    cases
}
