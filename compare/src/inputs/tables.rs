//! Tables, good and bad.

use samples::Numbers;

use super::{board, said};

pub fn permutation(numbers: &mut Numbers, lines: usize) -> Vec<u16> {
    let mut table: Vec<u16> = (0..3u16.pow(lines as u32)).collect();
    match numbers.below(8) {
        0 => {}
        1 | 2 => {
            for _ in 0..1 + numbers.below(3) {
                let (one, other) = (numbers.below(table.len()), numbers.below(table.len()));
                table.swap(one, other);
            }
        }
        _ => numbers.shuffle(&mut table),
    }
    table
}

pub fn some_table(numbers: &mut Numbers, lines: usize) -> Vec<u16> {
    let mut table = permutation(numbers, lines);
    if numbers.below(10) < 6 {
        return table;
    }
    for _ in 0..1 + numbers.below(2) {
        if table.is_empty() {
            break;
        }
        let size = table.len();
        let place = numbers.below(size);
        match numbers.below(8) {
            0 => table[place] = size as u16,
            1 => table[place] = numbers.pick(&[size as u16 + 1, 729, 730, u16::MAX, 256]),
            2 | 3 => table[place] = table[numbers.below(size)],
            4 => table[place] = numbers.below(size + 2) as u16,
            5 => drop(table.pop()),
            6 => table.push(numbers.below(size + 2) as u16),
            _ => {
                let length =
                    numbers.pick(&[0, 1, 2, 3, 4, 8, 9, 10, 26, 27, 28, 81, 243, 729, 730]);
                let most = 1 + numbers.below(length + 2);
                table = (0..length).map(|_| numbers.below(most) as u16).collect();
            }
        }
    }
    table
}

/// A table file: one byte for the lines, then the entries; now and then cut, longer or
/// with another byte.
pub fn some_table_file(numbers: &mut Numbers) -> Vec<u8> {
    let lines = board(numbers);
    let table = some_table(numbers, lines);
    let mut file = vec![said(numbers, lines)];
    file.extend(table.iter().flat_map(|entry| entry.to_le_bytes()));
    match numbers.below(12) {
        0 => file.truncate(numbers.below(file.len() + 1)),
        1 => {
            let more = 1 + numbers.below(3);
            file.extend(numbers.bytes(more));
        }
        2 => numbers.change_a_byte(&mut file),
        _ => {}
    }
    file
}
