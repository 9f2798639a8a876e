//! Tables: checked, and made into cascades.

use super::making::{both_on_table, bound, identity, on_table, size, NO_LINES, VECTOR_OF_003};
use crate::calls::Call;
use crate::draws::Draws;
use crate::gate::RECORD;
use crate::hard::hardest;
use crate::vectors::Case;

/// Refusals 1 to 4, and what accepted tables give.
pub(super) fn tables() -> Vec<Case> {
    let mut given: Vec<(u8, Vec<u16>)> = vec![];
    // P1 to P7.
    given.extend([[0, 1, 2], [1, 2, 0], [0, 1, 3], [0, 0, 1], [0, 0, 3]].map(|t| (1, t.to_vec())));
    given.extend([(1, vec![0, 1]), (0, vec![]), (7, identity(1)), (2, VECTOR_OF_003.to_vec())]);
    for lines in NO_LINES {
        given.extend([(lines, vec![]), (lines, vec![0, 1, 2]), (lines, vec![9, 9])]);
    }
    // All tables on one line with entries up to 3.
    for code in 0..64 {
        given.push((1, vec![code % 4, code / 4 % 4, code / 16]));
    }
    for lines in 1..=6 {
        given.extend(tables_on(lines).into_iter().map(|table| (lines, table)));
    }
    given.iter().flat_map(|(lines, table)| both_on_table(*lines, table)).collect()
}

/// Good and bad tables on so many lines.
fn tables_on(lines: u8) -> Vec<Vec<u16>> {
    let (good, size) = (identity(lines), size(lines));
    let end = size as u16;
    let last = size - 1;
    let changes: [&[(usize, u16)]; 12] = [
        &[],
        &[(0, end)],
        &[(last, end)],
        &[(size / 2, u16::MAX)],
        &[(1, end), (last, end)],
        &[(1, 0), (last, end + 1)],
        &[(1, 0)],
        &[(2, 1)],
        &[(last, 0)],
        &[(last, end - 2)],
        &[(0, 1), (1, 0)],
        &[(last, end - 2), (last - 1, end - 1)],
    ];
    let mut tables: Vec<_> = changes
        .iter()
        .map(|changes| {
            let mut table = good.clone();
            changes.iter().for_each(|&(place, entry)| table[place] = entry);
            table
        })
        .collect();
    tables.push(good[..last].to_vec());
    tables.push([&good[..], &[0]].concat());
    tables.push(vec![u16::MAX; 1]);
    tables.push((0..end).rev().collect());
    tables.push((0..end).map(|p| (p + 1) % end).collect());
    tables.push(hardest(lines));
    tables.push(Draws::from_seed(lines as u32).table(lines as usize));
    tables
}

/// Refusal 5 of synthesis, and that it comes last.
pub(super) fn rooms_for_synthesis() -> Vec<Case> {
    let mut cases = vec![];
    let mut with = |lines: u8, table: &[u16], room: usize| {
        cases.push(Case { room, ..on_table(Call::Synthesize, lines, table) });
    };
    for lines in 1..=6 {
        let needed = RECORD * bound(lines);
        for room in [0, needed - 8, needed - 1, needed, needed + 1, needed + 7, needed + 8] {
            with(lines, &identity(lines), room);
        }
        with(lines, &identity(lines)[1..], 0);
        with(lines, &vec![u16::MAX; size(lines)], needed - 8);
        with(lines, &vec![0; size(lines)], needed - 8);
    }
    for room in [8 * 13, 8 * 13 + 7, 8 * 14, 8 * 14 + 3] {
        with(2, &VECTOR_OF_003, room);
    }
    with(0, &[], 0);
    cases
}
