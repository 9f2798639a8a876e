//! Tables as text, fed to a reader in parts.

use super::making::{identity, size, NO_LINES, VECTOR_OF_003};
use crate::calls::Call;
use crate::draws::Draws;
use crate::hard::hardest;
use crate::serial::LONGEST_TEXT;
use crate::vectors::{Case, MOST_ENTRIES};

/// Texts on one line: what may stand where, and how many numbers there are.
const FORMS: [&str; 60] = [
    // Tables.
    "0 1 2\n",
    "2\n0\n1\n",
    "1 0\n2\n",
    "0\n2 1\n",
    // Ends that aren't straight behind a newline.
    "",
    "0",
    "0 ",
    "0 1 2",
    "0 1 2 ",
    "2\n1\n0",
    "2\n1\n0\n ",
    "2\n1\n0\n1",
    // Separators: leading, doubled, others.
    " ",
    "\n",
    " 0 1 2\n",
    "\n0 1 2\n",
    "0  1 2\n",
    "0\n\n1 2\n",
    "0 \n1 2\n",
    "0\n 1 2\n",
    "0 1 2 \n",
    "0 1 2\n\n",
    "0 1 2\r\n",
    "0\r\n1\r\n2\r\n",
    "0\r1 2\n",
    "0\t1 2\n",
    "0,1,2\n",
    "0\u{a0}1 2\n",
    // Signs, letters and other bytes.
    "-0 1 2\n",
    "0 -1 2\n",
    "+0 1 2\n",
    "0 1 2.\n",
    "0x0 1 2\n",
    "0 1e0 2\n",
    "0 1 2\0",
    "0 1 2\n\0",
    "\0",
    "\u{feff}0 1 2\n",
    "0 1 \u{662}\n",
    // Leading zeros.
    "00 1 2\n",
    "0 01 2\n",
    "0 1 02\n",
    "007",
    "0 00x",
    "0 1 2\n00",
    // Too few and too many numbers, also where 3 and 4 could be given.
    "0\n",
    "0 1\n",
    "0 0\n",
    "9 9\n",
    "0 1 2 3\n",
    "0 1 2 0\n",
    "0 0 9 9\n",
    "0 1 2 0 1 2 0\n",
    // Entries too large and repeated, 3 before 4; 14 before all.
    "0 1 3\n",
    "3 1 2\n",
    "0 0 1\n",
    "1 0 1\n",
    "0 0 3\n",
    "3 3 3\n",
    "0 0 3 9 x",
];

/// Numbers around the largest, and such as are below it in 16, 32 or 64 bits.
const NUMBERS: [&str; 30] = [
    "65535\n",
    "65535 65535 65535\n",
    "65535 1 2\n",
    "0 65535 2\n",
    "0 1 65535\n",
    "65536\n",
    "0 65536 2\n",
    "0 1 65538\n",
    "0 1 65538",
    "65534 65535 65536 65537\n",
    "65540\n",
    "70000\n",
    "99999",
    "10000 9999 x",
    "100000\n",
    "655350\n",
    "0 655350\n",
    "655359999\n",
    "6553 5\n",
    "6553\n5",
    "0 1 131074\n",
    "4294967296 1 2\n",
    "18446744073709551616 1 2\n",
    "99999x",
    "9999x",
    "65535x",
    "65536x",
    "1 99999 ",
    "1\n6553\r",
    "0 065536\n",
];

fn fed(lines: u8, text: impl AsRef<[u8]>, room: usize) -> Case {
    let stored = text.as_ref().to_vec();
    Case { lines, stored, room, ..Case::new(Call::Serial) }
}

/// In parts of such lengths, and a last one.
fn cut(case: &Case, lengths: &[u8]) -> Case {
    Case { more_stored: lengths.to_vec(), ..case.clone() }
}

/// In parts of these lengths, repeated to the end of the text, which is all stored.
fn cut_in_turn(case: &Case, lengths: [u8; 8]) -> Case {
    let round: usize = lengths.iter().map(|&length| length as usize).sum();
    let more_times = case.stored.len().div_ceil(round);
    Case { record: lengths, more_times, ..case.clone() }
}

const ONES: [u8; 8] = [1; 8];

/// With empty parts, and with such as end a number and begin another.
const MIXED: [u8; 8] = [0, 3, 1, 0, 0, 2, 5, 1];

/// In one part, in two of all lengths, in parts of one byte, of one and of none in turn, and
/// mixed.
fn every_cutting(case: Case) -> Vec<Case> {
    let mut cases: Vec<_> = (0..=case.stored.len()).map(|at| cut(&case, &[at as u8])).collect();
    cases.extend([ONES, [1, 0, 1, 0, 1, 0, 1, 0], MIXED].map(|turn| cut_in_turn(&case, turn)));
    cases.push(case);
    cases
}

/// Refusal 1, before all others, and that it stands in the reader.
pub(super) fn boards_of_texts() -> Vec<Case> {
    let mut cases = vec![];
    for lines in (1..=6).chain(NO_LINES) {
        for text in ["0 1 2\n", "", "no table"] {
            let case = fed(lines, text, 3);
            cases.push(cut(&case, &[2, 0, 3]));
            cases.push(Case { room: 0, ..case });
        }
    }
    cases
}

/// Refusals 14, 2, 3 and 4, wherever the text is cut.
pub(super) fn forms_of_texts() -> Vec<Case> {
    let texts = FORMS.iter().chain(&NUMBERS);
    texts.flat_map(|text| every_cutting(fed(1, text, 3))).collect()
}

/// Every byte at the start, behind a digit, behind a space and behind a newline.
pub(super) fn bytes_of_texts() -> Vec<Case> {
    let mut cases = vec![];
    for start in ["", "1", "1 ", "1\n"] {
        for byte in 0..=255 {
            let text = [start.as_bytes(), &[byte], b" 0 2\n"].concat();
            cases.push(cut(&fed(1, text, 3), &[start.len() as u8]));
        }
    }
    cases
}

/// 003's vector, each byte changed, taken out, and one put in before it; cut there.
pub(super) fn damaged_texts() -> Vec<Case> {
    let good = b"5 6 1\n7 2 3\n8 0 4\n";
    let mut cases = vec![];
    let mut with = |start: &[u8], between: &[u8], end: &[u8]| {
        let case = fed(2, [start, between, end].concat(), 9);
        cases.push(cut(&case, &[start.len() as u8, between.len() as u8]));
    };
    for place in 0..=good.len() {
        let (start, end) = good.split_at(place);
        for more in *b" \n01x" {
            with(start, &[more], end);
        }
        if let Some((&byte, end)) = end.split_first() {
            with(start, &[], end);
            let near = [byte - 1, byte + 1, byte ^ 0x10, byte ^ 0x80];
            for other in [&near[..], b" \n09\r"].concat() {
                if other != byte {
                    with(start, &[other], end);
                }
            }
        }
    }
    cases
}

/// The text of a table: a newline behind every so many numbers and behind the last, spaces
/// behind the others.
fn text_of(table: &[u16], row: usize) -> String {
    let rows = table.chunks(row).map(|row| {
        let numbers: Vec<_> = row.iter().map(|entry| entry.to_string()).collect();
        numbers.join(" ") + "\n"
    });
    rows.collect()
}

/// On each number of lines good tables in several layouts, and bad ones.
pub(super) fn tables_as_text() -> Vec<Case> {
    let mut cases = every_cutting(fed(2, text_of(&VECTOR_OF_003, 3), 9));
    for lines in 1..=6 {
        let size = size(lines);
        let drawn = Draws::from_seed(360 + lines as u32).table(lines as usize);
        for (row, lengths) in [(1, ONES), (3, MIXED), (size / 3 + 1, ONES), (size, MIXED)] {
            cases.push(cut_in_turn(&fed(lines, text_of(&drawn, row), size), lengths));
        }
        cases.push(fed(lines, text_of(&identity(lines), 9), size));
        cases.push(cut_in_turn(&fed(lines, text_of(&hardest(lines), 4), size), [16; 8]));
        for table in bad_tables(&drawn) {
            let case = fed(lines, text_of(&table, 27), size);
            cases.push(cut_in_turn(&case, [7, 1, 30, 0, 255, 2, 90, 5]));
        }
    }
    cases
}

/// Such as a good one is not: too short, too long, with an entry too large or repeated.
fn bad_tables(good: &[u16]) -> [Vec<u16>; 6] {
    let (size, last) = (good.len() as u16, good.len() - 1);
    let with = |place: usize, entry: u16| {
        let mut table = good.to_vec();
        table[place] = entry;
        table
    };
    let two_wrong = [&[good[1], good[1]], &good[2..last], &[size]].concat();
    [
        good[..last].to_vec(),
        [good, &[size]].concat(),
        with(last, size),
        with(1, u16::MAX),
        with(last, good[0]),
        two_wrong,
    ]
}

/// Refusal 5, behind all others, and that a later end with a larger table gets it too.
pub(super) fn rooms_for_texts() -> Vec<Case> {
    let mut cases = vec![];
    for lines in 1..=6 {
        let needed = size(lines);
        let good = Draws::from_seed(370 + lines as u32).table(lines as usize);
        for room in [0, needed - 1, needed, needed + 1, MOST_ENTRIES] {
            cases.push(fed(lines, text_of(&good, 9), room));
        }
    }
    for text in ["0 1 2\n", "0 1 2", "0 1\n", "0 1 2 0\n", "0 1 3\n", "0 1 1\n", "0 1 65536\n"] {
        let rooms = [0, 2, 3, 4, 100];
        cases.extend(rooms.map(|room| cut(&fed(1, text, room), &[3, 0, 3])));
    }
    cases
}

const RECORD_OF_ONES: [u8; 8] = *b"1 1 1 1 ";

/// So many numbers, of which all but the last four to seven take no stored byte.
fn so_many_numbers(lines: u8, count: usize) -> Case {
    let times = count / 4 - 1;
    let stored = text_of(&vec![1; count - 4 * times], 9);
    Case { record: RECORD_OF_ONES, times, ..fed(lines, stored, size(lines)) }
}

/// Numbers about as many as there may be, and far more: 2 also where the count is right
/// modulo 256, 729, 1,024 or more.
pub(super) fn counts_of_numbers() -> Vec<Case> {
    let mut cases = vec![];
    for lines in 1..=6 {
        let right = size(lines);
        let more = [256, 729, 1_024, 4_096, 8_192, 16_384].map(|more| right + more);
        for count in more.into_iter().chain([728, 729, 730, 731, 1_023, 1_025, 32_767]) {
            cases.push(so_many_numbers(lines, count));
            // In parts of 49 and 32 bytes, as the record has it.
            cases.push(Case { more_times: 2, ..so_many_numbers(lines, count) });
        }
    }
    cases
}

/// A text of so many bytes that ends so. All but some bytes of it take no stored byte.
fn long_text(length: usize, end: &str) -> Case {
    let before = length - end.len();
    let times = before / 8 - 1;
    let stored = filler(before - 8 * times) + end;
    Case { record: RECORD_OF_ONES, times, ..fed(6, stored, 729) }
}

/// So many bytes, two at least, of numbers and a space behind each.
fn filler(length: usize) -> String {
    let start = if length.is_multiple_of(2) { "" } else { "11 " };
    start.to_string() + &"1 ".repeat((length - start.len()) / 2)
}

/// The longest texts: what is accepted and what is refused at their last bytes, and behind
/// these, in one part, cut before each of the last bytes, and the last 256 byte by byte.
pub(super) fn longest_texts() -> Vec<Case> {
    let longest = LONGEST_TEXT;
    let texts = [
        long_text(longest - 1, "1\n"),
        long_text(longest, "1\n"),
        long_text(longest + 1, "1\n"),
        // Ends that aren't behind a newline.
        long_text(longest - 1, "1"),
        long_text(longest, "1"),
        long_text(longest - 1, "1 "),
        long_text(longest, "1 "),
        long_text(longest + 1, "1 "),
        long_text(longest + 1, "1"),
        // A byte that can't stand there, at the last offset and behind it.
        long_text(longest, "x"),
        long_text(longest + 1, "x"),
        long_text(longest + 1, "1\n\n"),
        long_text(longest + 1, "00"),
        long_text(longest, "00"),
        long_text(longest + 1, "0\0x"),
        // A number too large, shown by the byte at offset 65,534 and at 65,535.
        long_text(longest, "65536"),
        long_text(longest, "99999"),
        long_text(longest, "100000"),
        long_text(longest + 1, "999990"),
        long_text(longest + 1, "65536"),
        long_text(longest + 1, "99999"),
        long_text(longest + 1, "100000"),
        long_text(longest + 1, "65535"),
        long_text(longest + 1, "6553\n"),
    ];
    let mut cases = vec![];
    for case in texts {
        for before in 0..=2 {
            cases.push(cut(&case, &up_to(longest - before)));
        }
        let by_bytes = [up_to(longest - 255), vec![1; 256]].concat();
        cases.push(cut(&case, &by_bytes));
        // In parts of 49 and 32 bytes, as the record has it.
        cases.push(Case { more_times: 210, ..case.clone() });
        cases.push(case);
    }
    cases.push(cut_in_turn(&fed(6, drawn_text(longest), 729), ONES));
    cases
}

/// Lengths that add up to this.
fn up_to(place: usize) -> Vec<u8> {
    let mut lengths = vec![255; place / 255];
    lengths.push((place % 255) as u8);
    lengths
}

/// A text of so many bytes with numbers of one to five digits.
fn drawn_text(length: usize) -> String {
    let mut draws = Draws::from_seed(380);
    let mut text = String::new();
    while text.len() < length - 10 {
        let below = [10, 100, 729, 10_000, 65_536][draws.below(5)];
        text += &draws.below(below).to_string();
        text += [" ", "\n"][draws.below(2)];
    }
    text += &filler(length - text.len());
    text.pop();
    text + "\n"
}
