//! The tables, their texts, cascades, files and lists that the calls are timed on.

use second::cascade::invert;
pub use second::cascade::MOST_GATES;
use second::draws::Draws;
use second::file::write_file;
use second::gate::RECORD;
use second::names::write_names;
use second::pattern::Lines;
use second::serial::LONGEST_TEXT;
use second::synthesis::synthesize;

/// The sets of D, E and N, and of D.
pub const ALL_FITTED: u8 = 7;
pub const D_FITTED: u8 = 1;

pub fn patterns(lines: u8) -> usize {
    3usize.pow(lines as u32)
}

/// The records that synthesis asks for.
pub fn bound(lines: u8) -> usize {
    Lines::check(lines).map_or(0, Lines::gate_bound)
}

// Tables.

pub fn identity(lines: u8) -> Vec<u16> {
    (0..patterns(lines) as u16).collect()
}

/// The door counter: each pattern goes to the next.
pub fn counter(lines: u8) -> Vec<u16> {
    let mut table = identity(lines);
    table.rotate_left(1);
    table
}

/// So many drawn tables.
pub fn drawn_tables(lines: u8, count: usize) -> Vec<Vec<u16>> {
    let mut draws = Draws::from_seed(lines as u32);
    (0..count).map(|_| draws.table(lines as usize)).collect()
}

/// Every permutation of so many numbers, one behind the other.
pub fn all_tables(entries: u16) -> Vec<u16> {
    let mut all = vec![];
    let mut table: Vec<u16> = (0..entries).collect();
    loop {
        all.extend(&table);
        // The next one in the order of a dictionary.
        let Some(rise) = table.windows(2).rposition(|pair| pair[0] < pair[1]) else {
            return all;
        };
        let larger = table.iter().rposition(|&entry| entry > table[rise]).unwrap_or(rise);
        table.swap(rise, larger);
        table[rise + 1..].reverse();
    }
}

/// One byte for the lines, then the entries.
pub fn table_file(lines: u8, table: &[u16]) -> Vec<u8> {
    let mut file = vec![lines];
    file.extend(table.iter().flat_map(|entry| entry.to_le_bytes()));
    file
}

/// A table as text, in rows of nine.
pub fn text_of(table: &[u16]) -> Vec<u8> {
    let mut text = vec![];
    for (place, entry) in table.iter().enumerate() {
        text.extend(entry.to_string().into_bytes());
        let at_end = place + 1 == table.len() || place % 9 == 8;
        text.push(if at_end { b'\n' } else { b' ' });
    }
    text
}

/// The texts of drawn tables, one behind the other, as many bytes as a reader takes. At its
/// end there are far too many numbers.
pub fn longest_text(lines: u8) -> Vec<u8> {
    let mut draws = Draws::from_seed(lines as u32);
    let mut text = vec![];
    while text.len() < LONGEST_TEXT {
        text.extend(text_of(&draws.table(lines as usize)));
    }
    text.truncate(LONGEST_TEXT);
    text
}

// Cascades, files and lists.

pub fn synthesized(lines: u8, table: &[u16]) -> Vec<u8> {
    let mut room = vec![0; RECORD * bound(lines)];
    let gates = synthesize(lines, table, &mut room).unwrap_or(0);
    room.truncate(RECORD * gates);
    room
}

pub fn drawn_cascade(lines: u8, gates: usize) -> Vec<u8> {
    Draws::from_seed(gates as u32).cascade(lines as usize, gates)
}

/// Drawn gates without their controls.
pub fn bare_cascade(lines: u8, gates: usize) -> Vec<u8> {
    let mut cascade = drawn_cascade(lines, gates);
    for record in cascade.chunks_mut(RECORD) {
        record[2..].fill(3);
    }
    cascade
}

/// A drawn cascade and then its inverse: the last gate of the one goes with the
/// first of the other, then the last but one, and so on to both ends.
pub fn there_and_back(lines: u8, gates: usize) -> Vec<u8> {
    let there = drawn_cascade(lines, gates / 2);
    let mut back = vec![0; there.len()];
    assert_eq!(invert(lines, &there, &mut back), Ok(gates / 2));
    [there, back].concat()
}

/// A cascade file.
pub fn file_of(lines: u8, cascade: &[u8], note: &[u8]) -> Vec<u8> {
    let mut file = [note, cascade, &[0; 8]].concat();
    let written = write_file(lines, cascade, note, &mut file);
    assert_eq!(written, Ok(file.len()));
    file
}

/// A list in document 003's names.
pub fn list_of(lines: u8, cascade: &[u8]) -> Vec<u8> {
    let mut list = vec![0; 4 * cascade.len()];
    let bytes = write_names(lines, cascade, &mut list).unwrap_or(0);
    list.truncate(bytes);
    list
}

/// Two cascades with no record in common that compute the same table: for each
/// drawn gate both have two gates with its target and controls, the operators
/// chosen so that they give the drawn one's, in each cascade by others.
pub fn alike(lines: u8, gates: usize) -> [Vec<u8>; 2] {
    // For C1, C2, N, D, E: first one operator, then the other.
    const ONE_WAY: [[u8; 2]; 5] = [[2, 2], [1, 1], [1, 4], [1, 5], [1, 3]];
    const OTHER_WAY: [[u8; 2]; 5] = [[5, 3], [3, 5], [2, 5], [2, 3], [2, 4]];
    let drawn = drawn_cascade(lines, gates / 2);
    [ONE_WAY, OTHER_WAY].map(|ways| {
        let twice = drawn.chunks(RECORD).flat_map(|record| {
            ways[record[0] as usize - 1].map(|operator| {
                let mut gate = [0; RECORD];
                gate.copy_from_slice(record);
                gate[0] = operator;
                gate
            })
        });
        twice.flatten().collect()
    })
}

#[cfg(test)]
mod tests {
    use super::*;
    use second::choice::choose;
    use second::hard::hardest;
    use second::serial::SerialReader;

    #[test]
    fn the_hardest_table_reaches_the_bound() {
        for lines in 1..=6 {
            assert_eq!(synthesized(lines, &hardest(lines)).len(), RECORD * bound(lines));
        }
    }

    #[test]
    fn the_two_alike_compute_the_same_table_and_share_no_record() {
        for lines in 1..=6 {
            let [one, other] = alike(lines, MOST_GATES);
            assert_eq!(one.len(), RECORD * MOST_GATES);
            assert_eq!(other.len(), RECORD * MOST_GATES);
            assert!(choose(lines, 2, ALL_FITTED, &one, &other).is_ok());
            let mut pairs = one.chunks(RECORD).zip(other.chunks(RECORD));
            assert!(pairs.all(|(one, other)| one != other));
        }
    }

    #[test]
    fn the_texts_are_taken() {
        for lines in 1..=6 {
            let mut reader = SerialReader::start(lines);
            assert_eq!(reader.part(&longest_text(lines)), Ok(0));
            assert!(reader.part(b"1").is_err());
            let (table, mut room) = (hardest(lines), vec![0; patterns(lines)]);
            let mut reader = SerialReader::start(lines);
            assert_eq!(reader.part(&text_of(&table)), Ok(0));
            assert_eq!(reader.end(&mut room), Ok(room.len()));
            assert_eq!(room, table);
        }
    }

    #[test]
    fn all_tables_are_there_once() {
        let all = all_tables(4);
        let mut tables: Vec<_> = all.chunks(4).collect();
        tables.dedup();
        assert_eq!(tables.len(), 24);
        assert!(tables.is_sorted());
    }
}
