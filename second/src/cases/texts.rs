//! Printed lists, and the program's text for table files.

use super::making::{bound, bytes_of, gate, gates, identity, on_cascade, on_long_cascade};
use crate::calls::Call;
use crate::cascade::MOST_GATES;
use crate::draws::Draws;
use crate::vectors::Case;

/// The listing's text and its longest.
pub(super) fn listings() -> Vec<Case> {
    let mut cases = vec![];
    for lines in 1..=6 {
        let drawn = Draws::from_seed(240 + lines as u32).cascade(lines as usize, 25);
        cases.push(on_cascade(Call::Listing, lines, &drawn));
        cases.push(on_cascade(Call::Listing, lines, &[]));
    }
    for text in ["C1 x0", "C2 x5 x0=0 x1=1 x2=2 x3=0 x4=1", "N x3 x1=2", "D x1", "E x2 x5=0"] {
        cases.push(on_cascade(Call::Listing, 6, &gates(text)));
    }
    let dearest = gate("C1 x0 x1=0 x2=0 x3=0 x4=0 x5=0");
    for room in [248_030, 248_031, 248_032] {
        let longest = on_long_cascade(Call::Listing, 6, dearest, MOST_GATES, &[]);
        cases.push(Case { room, ..longest });
    }
    // Numbers of one to four digits in the head.
    for times in [1, 9, 10, 99, 100, 999, 1_000] {
        cases.push(on_long_cascade(Call::Listing, 2, gate("N x1 x0=1"), times, &[]));
    }
    cases
}

/// The program's text for table files.
pub(super) fn sheets() -> Vec<Case> {
    let mut cases = vec![];
    let mut with = |stored: &[u8], room: usize| {
        cases.push(Case { stored: stored.to_vec(), room, ..Case::new(Call::Sheet) });
    };
    let table_file = |lines: u8, table: &[u16]| [&[lines][..], &bytes_of(table)].concat();
    let good = table_file(1, &[1, 2, 0]);
    for length in 0..=good.len() {
        with(&good[..length], 100);
    }
    with(&[&good[..], &[0]].concat(), 100);
    with(&[&good[..], &[0, 0]].concat(), 100);
    // "lines 1 gates 2 cost 2", "D x0", "E x0": 33 bytes; a refusal's 15.
    for room in [0, 14, 15, 16, 32, 33, 34] {
        with(&good, room);
        with(&good[..6], room);
        with(&[], room);
    }
    for lines in [0, 1, 2, 3, 6, 7, 8, 255] {
        with(&[lines], 100);
        with(&[lines, 0], 100);
        with(&[lines, 0, 0, 1, 0, 2, 0], 100);
    }
    for table in [[0, 1, 3], [0, 1, 256], [0, 2, 2], [0, 0, 3], [0, 0, 1], [2, 1, 0]] {
        with(&table_file(1, &table), 100);
    }
    with(&[1, 9, 9, 9, 9, 9, 9, 9], 100);
    for lines in 1..=6 {
        let mut table = Draws::from_seed(260 + lines as u32).table(lines as usize);
        with(&table_file(lines, &table), 50 + 30 * bound(lines));
        let last = table.len() - 1;
        table[last] = table[last / 2];
        with(&table_file(lines, &table), 100);
        with(&table_file(lines, &identity(lines)), 100);
        with(&[&table_file(lines, &identity(lines))[..], &[1]].concat(), 100);
        with(&[&table_file(lines, &identity(lines))[..], &[1, 0]].concat(), 100);
    }
    cases
}
