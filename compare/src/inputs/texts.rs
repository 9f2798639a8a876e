//! Tables as text, good and damaged, and the parts in which they come.

use samples::Numbers;
use second::serial::LONGEST_TEXT;

use super::tables::some_table;

/// The text of a table, now and then damaged, and now and then as long as one may be.
pub fn some_text(numbers: &mut Numbers, lines: usize) -> Vec<u8> {
    let mut text = match numbers.below(100) {
        0 => long_text(numbers),
        1 => (0..numbers.below(40)).map(|_| numbers.pick(b"0019 \n65x")).collect(),
        _ => {
            let table = some_table(numbers, lines);
            text_of(numbers, &table)
        }
    };
    if numbers.below(10) < 4 {
        damage(numbers, &mut text);
    }
    text
}

/// All separators alike, but for the last, or each drawn.
fn text_of(numbers: &mut Numbers, table: &[u16]) -> Vec<u8> {
    let separators: &[u8] = numbers.pick(&[b" ", b"\n", b" \n", b"       \n"]);
    let mut text = vec![];
    for entry in table {
        text.extend(entry.to_string().into_bytes());
        text.push(numbers.pick(separators));
    }
    if let Some(last) = text.last_mut() {
        *last = b'\n';
    }
    text
}

/// A text about as long as one may be, or much shorter or longer; now and then its last
/// number is about as large as one may be.
fn long_text(numbers: &mut Numbers) -> Vec<u8> {
    let length = match numbers.below(8) {
        0 => numbers.below(4_000),
        1 => numbers.below(LONGEST_TEXT),
        2 => LONGEST_TEXT + numbers.below(70_000),
        _ => LONGEST_TEXT + 4 - numbers.below(9),
    };
    let below = numbers.pick(&[2, 10, 729, 10_000, 65_536]);
    let end =
        numbers.pick(&["\n", "\n", "\n", " 65535\n", " 65536", " 99999", " 100000", " 655350"]);
    let mut text = vec![];
    while text.len() + end.len() < length {
        text.extend(numbers.below(below).to_string().into_bytes());
        text.push(numbers.pick(b"    \n"));
    }
    // The end stands straight behind a number.
    text.truncate(length.saturating_sub(end.len()));
    if let Some(last) = text.last_mut() {
        *last = b'1';
    }
    text.extend(end.as_bytes());
    text
}

fn damage(numbers: &mut Numbers, text: &mut Vec<u8>) {
    match numbers.below(12) {
        0..=4 => edit(numbers, text),
        5 => {
            for _ in 0..2 + numbers.below(3) {
                edit(numbers, text);
            }
        }
        6 => text.truncate(numbers.below(text.len() + 1)),
        // The end cut, or something more behind it.
        7 => text.truncate(text.len().saturating_sub(1 + numbers.below(3))),
        8 | 9 => {
            let more = ["\n", " ", "0", "1\n", "00\n", "65536\n", "-1\n", "\r\n", "\0", "99999x"];
            text.extend(numbers.pick(&more).as_bytes());
        }
        10 => drop(text.drain(..numbers.below(text.len() + 1))),
        _ => {
            let length = numbers.below(12);
            *text = numbers.bytes(length);
        }
    }
}

/// Changes a byte, takes one out or puts one in: mostly such as stand in texts.
fn edit(numbers: &mut Numbers, text: &mut Vec<u8>) {
    let byte = match numbers.below(8) {
        0 => numbers.byte(),
        _ => numbers.pick(b"0123456789  \n\n\r\t-+,x"),
    };
    let place = numbers.below(text.len() + 1);
    match numbers.below(4) {
        0 => text.insert(place, byte),
        1 if place < text.len() => drop(text.remove(place)),
        2 if place < text.len() => text[place] ^= 1 << numbers.below(8),
        _ if place < text.len() => text[place] = byte,
        _ => text.push(byte),
    }
}

/// Lengths of parts: none, two parts, bytes, parts of like length, or each drawn. They need
/// not reach the end of the text, and may go beyond it.
pub fn some_lengths(numbers: &mut Numbers, text: usize) -> Vec<u8> {
    let most = numbers.pick(&[1, 2, 4, 10, 256]);
    let length = numbers.pick(&[1, 2, 3, 7, 16, 255]);
    match numbers.below(8) {
        0 => vec![],
        1 | 2 => up_to(numbers.below(text + 1)),
        // Near the end, and near where the longest text has it.
        3 => up_to(text.min(LONGEST_TEXT + 1).saturating_sub(numbers.below(4))),
        4 => vec![1; text],
        5 => vec![length; text / length as usize + numbers.below(3)],
        _ => (0..numbers.below(text / most + 4)).map(|_| numbers.below(most + 1) as u8).collect(),
    }
}

/// Lengths that add up to this.
fn up_to(place: usize) -> Vec<u8> {
    let mut lengths = vec![255; place / 255];
    lengths.push((place % 255) as u8);
    lengths
}
