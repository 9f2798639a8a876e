//! Lists in document 003's names, good and damaged.

use samples::Numbers;
use second::cascade::MOST_GATES;
use second::names::write_names;

use super::cascades::good_cascade;

/// The list of a good cascade, also of more gates than a cascade may have.
fn list_of(lines: usize, cascade: &[u8]) -> Vec<u8> {
    let mut list = vec![];
    for part in cascade.chunks(8 * MOST_GATES) {
        let mut room = vec![0; 4 * part.len()];
        let bytes = write_names(lines as u8, part, &mut room).unwrap_or(0);
        list.extend(&room[..bytes]);
    }
    list
}

pub fn some_list(numbers: &mut Numbers, lines: usize) -> Vec<u8> {
    let mut list = match numbers.below(200) {
        // As many lines as there may be, and more.
        0 => {
            let more = numbers.pick(&[0, 0, 1, 1, 2, 1_000]);
            list_of(lines, &numbers.dense_cascade(lines, MOST_GATES + more, 9, 30))
        }
        _ => list_of(lines, &good_cascade(numbers, lines)),
    };
    if numbers.below(10) < 4 {
        damage(numbers, &mut list);
    }
    list
}

fn damage(numbers: &mut Numbers, list: &mut Vec<u8>) {
    match numbers.below(12) {
        0..=4 => numbers.edit(list),
        5 | 6 => {
            for _ in 0..2 + numbers.below(3) {
                numbers.edit(list);
            }
        }
        7 => list.truncate(numbers.below(list.len() + 1)),
        // The last line cut, or one more that is none.
        8 => list.truncate(list.len().saturating_sub(1 + numbers.below(12))),
        9 => {
            let more =
                ["\n", " ", "+1 x0", "+1 x6\n", "C1 x0\n", "+1 x0 x1=3\n", "+1 x0\r\n", "\0"];
            list.extend(numbers.pick(&more).as_bytes());
        }
        10 => drop(list.drain(..numbers.below(list.len() + 1))),
        _ => {
            let length = numbers.below(34);
            *list = numbers.bytes(length);
        }
    }
}
