//! Lists in document 003's names: read, written, and read back.

use super::cascades::{lengths_of_cascades, lines_of_cascades, places_of_bad_records, records};
use super::making::{gate, gates, on_cascade, on_long_cascade, synthesized, VECTOR_OF_003};
use crate::calls::Call;
use crate::cascade::MOST_GATES;
use crate::draws::Draws;
use crate::gate::{NO_CONTROL, RECORD};
use crate::names::write_names;
use crate::vectors::Case;

const NAMES: [&str; 5] = ["+1", "+2", "02", "12", "01"];

/// Lines that are none on four lines, without their newline.
const WRONG_LINES: [&str; 68] = [
    // Parts of a line, and more than one.
    "",
    " ",
    "+",
    "+1",
    "+1 ",
    "+1 x",
    "x1",
    " x1",
    "+1 x1 ",
    "+1 x1 x",
    "+1 x1 x2",
    "+1 x1 x2=",
    "+1 x1 x2=0 ",
    "+1 x1 x2=0 x3",
    "+1 x1 +1 x1",
    "+1 x1 x2=0;",
    "+1 x1 x2=0 # note",
    "lines 4 gates 1 cost 1",
    // No gate on four lines.
    "+1 x4",
    "+1 x6",
    "+1 x9",
    "+1 x1 x4=0",
    "+1 x1 x6=0",
    "+1 x1 x9=0",
    "+1 x1 x1=0",
    "+1 x1 x0=2 x1=0",
    "+1 x4 x1=0",
    "+1 x1 x2=3",
    "+1 x1 x2=9",
    "+1 x1 x2=-",
    // Controls that fall, or stand twice.
    "+1 x1 x2=0 x0=1",
    "+1 x1 x3=0 x2=1 x0=1",
    "+1 x1 x2=0 x2=0",
    "+1 x1 x2=0 x2=1",
    "+1 x1 x0=0 x2=1 x0=0",
    // Spaces, and what stands in their place.
    " +1 x1",
    "+1  x1",
    "+1x1",
    "+1\tx1",
    "+1_x1",
    "+1 x1  x2=0",
    "+1 x1x2=0",
    "+1 x1\tx2=0",
    "+1 x1,x2=0",
    "+1 x1 x2 =0",
    "+1 x1 x2= 0",
    "+1 x 1",
    "+ 1 x1",
    // Digits, letters and signs.
    "+01 x1",
    "+1 x01",
    "+1 x1 x02=0",
    "+1 x1 x2=00",
    "+1 x1 x2=1.",
    "+1 x-1",
    "+1 xa",
    "+1 1",
    "+1 y1",
    "+1 X1",
    "+1 x1 X2=0",
    "+1 x1 2=0",
    "+1 x1 x2:0",
    "+1 x1 x2==0",
    "+1 x1=0",
    "+1 x1=0 x2=0",
    // Other ends of a line, and other bytes.
    "+1 x1\r",
    "+1 x1 x2=0\r",
    "+1 x1\0",
    "\u{feff}+1 x1",
];

fn reading(lines: u8, text: impl AsRef<[u8]>, room: usize) -> Case {
    let stored = text.as_ref().to_vec();
    Case { lines, stored, room, ..Case::new(Call::ReadNames) }
}

/// Refusal 1, before all others; the last line of each board, and what is behind it.
pub(super) fn boards_of_lists() -> Vec<Case> {
    let mut cases = vec![];
    for lines in (0..=8).chain([255]) {
        cases.push(reading(lines, "+1 x0\n", 8));
        cases.push(reading(lines, "", 8));
        cases.push(reading(lines, "no list", 0));
    }
    for lines in 1..=6 {
        for line in [lines - 1, lines, 9] {
            cases.push(reading(lines, format!("01 x{line}\n"), 8));
            let target = (line + 1) % lines;
            cases.push(reading(lines, format!("02 x{target} x{line}=1\n"), 8));
        }
    }
    cases
}

/// Refusal 12 for the form of a line, wherever it stands.
pub(super) fn forms_of_lines() -> Vec<Case> {
    let named = |name: &str| reading(3, format!("{name} x2 x0=1\n"), RECORD);
    let mut cases = vec![];
    // Every name of two of these signs, then the five cut and with a sign twice.
    for first in "+-0123".chars() {
        cases.extend("+-0123".chars().map(|second| named(&format!("{first}{second}"))));
    }
    for name in NAMES {
        let (first, second) = name.split_at(1);
        let twice = [format!("{first}{name}"), format!("{name}{second}")];
        cases.extend([first, second, &twice[0], &twice[1]].map(named));
    }
    cases.extend(["C1", "C2", "N", "D", "E", "c1", "+12"].map(named));
    let (one, other) = ("12 x0 x3=2\n", "+2 x3\n");
    for wrong in WRONG_LINES {
        for text in [
            format!("{wrong}\n{one}{other}"),
            format!("{one}{wrong}\n{other}"),
            format!("{one}{other}{wrong}\n"),
        ] {
            cases.push(reading(4, text, 3 * RECORD));
        }
    }
    cases
}

/// A line of three controls between two others: each byte of it changed, taken out,
/// and one put in before it.
pub(super) fn damaged_lines() -> Vec<Case> {
    let good = b"12 x1 x0=2 x2=0 x4=1\n";
    let mut cases = vec![];
    let mut with = |start: &[u8], between: &[u8], end: &[u8]| {
        let text = [b"+2 x3\n", start, between, end, b"02 x4 x3=2\n"].concat();
        cases.push(reading(5, text, 4 * RECORD));
    };
    for place in 0..=good.len() {
        let (start, end) = good.split_at(place);
        for more in *b" 01x=\n+" {
            with(start, &[more], end);
        }
        if let Some((&byte, end)) = end.split_first() {
            with(start, &[], end);
            let near = [byte - 1, byte + 1, byte ^ 0x20, byte ^ 0x80];
            for other in [&near[..], b" \n0359x=+"].concat() {
                if other != byte {
                    with(start, &[other], end);
                }
            }
        }
    }
    cases
}

/// Lists without a line, without a last newline, and of more than 8,000 lines: 12
/// before 6, 6 before 5.
pub(super) fn lengths_of_lists() -> Vec<Case> {
    let mut cases: Vec<_> = [0, 8].map(|room| reading(2, "", room)).to_vec();
    for text in [
        "\n",
        "\n\n",
        "\r\n",
        "\0",
        "+1 x0",
        "+1 x0\n+1 x0",
        "+1 x0\n12 x1 x0=2",
        "+1 x0\n ",
        "+1 x0\n+",
        "+1 x0\n\n",
        "\n+1 x0\n",
        "+1 x0\n\n+1 x0\n",
        "+1 x0\n+1 x0\n+1 x0\n\n\n",
    ] {
        cases.push(reading(2, text, 3 * RECORD));
    }
    let most = RECORD * MOST_GATES;
    let with_a_wrong_one = |place, behind| {
        let wrong = b"+1 x6\n".to_vec();
        [long_list(place), wrong, long_list(behind)].concat()
    };
    cases.push(reading(6, long_list(MOST_GATES), most));
    cases.push(reading(6, long_list(MOST_GATES + 1), 0));
    cases.push(reading(6, with_a_wrong_one(MOST_GATES, 0), most + RECORD));
    cases.push(reading(6, with_a_wrong_one(9_000, 100), 0));
    cases
}

/// So many lines of six bytes, names and targets in turn.
fn long_list(lines: usize) -> Vec<u8> {
    (0..lines).flat_map(|k| format!("{} x{}\n", NAMES[k % 5], k % 6).into_bytes()).collect()
}

/// Refusal 5: in records for reading, in bytes for writing.
pub(super) fn rooms_for_lists() -> Vec<Case> {
    let (three, list) = (gates("D x0, C1 x1 x0=2, C2 x0"), "12 x0\n+1 x1 x0=2\n+2 x0\n");
    let mut cases = vec![];
    for room in [0, 7, 8, 16, 23, 24, 25, 31, 32, 100] {
        cases.push(reading(2, list, room));
        // 12 comes before.
        cases.push(reading(1, list, room));
        cases.push(reading(2, "01 x1\n", room));
    }
    for room in [479, 480] {
        cases.push(reading(6, long_list(60), room));
    }
    let mut writing = |room: usize, case: Case| cases.push(Case { room, ..case });
    for room in [0, 1, 8, 24, list.len() - 1, list.len(), list.len() + 1, list.len() + 50] {
        writing(room, on_cascade(Call::WriteNames, 2, &three));
    }
    for room in [0, 1, 100] {
        writing(room, on_cascade(Call::WriteNames, 3, &[]));
    }
    // The longest list, and the shortest of so many gates.
    let (long, short) = (gate("C1 x0 x1=0 x2=1 x3=2 x4=0 x5=1"), gate("N x4"));
    for (record, needed) in [(long, 31 * MOST_GATES), (short, 6 * MOST_GATES)] {
        for room in [needed - 1, needed, needed + 1] {
            writing(room, on_long_cascade(Call::WriteNames, 6, record, MOST_GATES, &[]));
        }
    }
    cases
}

/// What the listing of our own names is tried on: refusals 1, 6, 7, their order, and
/// long cascades.
pub(super) fn written_lists() -> Vec<Case> {
    let parts = [lines_of_cascades, lengths_of_cascades, records, places_of_bad_records];
    let listings = parts.into_iter().flat_map(|part| part());
    let listings = listings.filter(|case| case.call == Call::Listing);
    listings.map(|case| Case { call: Call::WriteNames, ..case }).collect()
}

/// Cascades written with the room that they take, and read back from the list.
pub(super) fn lists_read_back() -> Vec<Case> {
    let mut cascades: Vec<_> = (1..=3).map(|lines| (lines, all_gates(lines))).collect();
    cascades.push((6, gates_of_every_kind()));
    cascades.push((2, synthesized(2, &VECTOR_OF_003)));
    for lines in 1..=6 {
        let mut draws = Draws::from_seed(280 + lines as u32);
        cascades.extend([1, 2, 60].map(|count| (lines, draws.cascade(lines as usize, count))));
    }
    cascades.iter().flat_map(|(lines, cascade)| written_and_read(*lines, cascade)).collect()
}

fn written_and_read(lines: u8, cascade: &[u8]) -> [Case; 2] {
    let mut list = vec![0; 31 * cascade.len() / RECORD];
    let room = write_names(lines, cascade, &mut list).unwrap_or(0);
    list.truncate(room);
    let writing = Case { room, ..on_cascade(Call::WriteNames, lines, cascade) };
    [writing, reading(lines, list, cascade.len())]
}

/// Every gate on so many lines.
pub fn all_gates(lines: u8) -> Vec<u8> {
    let lines = lines as usize;
    let mut all = vec![];
    for code in 0..(5 * lines) << (2 * lines) {
        let (operator, target, controls) = (code % 5, code / 5 % lines, code / 5 / lines);
        let mut record = bare_gate(operator, target);
        for line in 0..lines {
            record[2 + line] = (controls >> (2 * line) & 3) as u8;
        }
        if record[2 + target] == NO_CONTROL {
            all.extend(record);
        }
    }
    all
}

/// On six lines a gate of each operator and target with 0, 1, .. 5 controls.
fn gates_of_every_kind() -> Vec<u8> {
    let mut all = vec![];
    for code in 0..5 * 6 * 6 {
        let (operator, target, controls) = (code % 5, code / 5 % 6, code / 30);
        let mut record = bare_gate(operator, target);
        // From the line behind the target on, past the last to the first.
        for step in 1..=controls {
            record[2 + (target + step) % 6] = ((code + step) % 3) as u8;
        }
        all.extend(record);
    }
    all
}

/// Operators are counted from 0 here.
fn bare_gate(operator: usize, target: usize) -> [u8; RECORD] {
    let mut record = [NO_CONTROL; RECORD];
    record[0] = 1 + operator as u8;
    record[1] = target as u8;
    record
}
