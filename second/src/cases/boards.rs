//! Boards that lack some of D, E and N: prices and choices with each set of them.

use super::making::{choosing, gate, gates, on_cascade, on_long_cascade};
use crate::calls::Call;
use crate::cascade::MOST_GATES;
use crate::draws::Draws;
use crate::gate::RECORD;
use crate::tidying::tidy;
use crate::vectors::Case;

const OPERATORS: [&str; 5] = ["C1", "C2", "N", "D", "E"];

fn pricing(lines: u8, value: u8, fitted: u8, cascade: &[u8]) -> Case {
    Case { value, fitted, ..on_cascade(Call::Price, lines, cascade) }
}

/// With each good set, both ways round.
fn with_each_set(lines: u8, value: u8, first: &[u8], second: &[u8]) -> Vec<Case> {
    let ways = [(first, second), (second, first)];
    let with = |fitted| ways.map(|(a, b)| Case { fitted, ..choosing(lines, value, a, b) });
    (1..=7).flat_map(with).collect()
}

/// Every set that can be told. Of the five operators there are 1, 2, 4, 8 and 16 gates,
/// so that the cost tells which of them cost more.
pub(super) fn every_set() -> Vec<Case> {
    let fewer = ["N x0", "D x1 x0=2", "E x0", "C1 x0 x1=1"];
    let stored: Vec<u8> =
        (0..).zip(fewer).flat_map(|(power, text)| gates(text).repeat(1 << power)).collect();
    let most = on_long_cascade(Call::Price, 2, gate("C2 x1"), 16, &stored);
    (0..=255).map(|fitted| Case { fitted, ..most.clone() }).collect()
}

/// A gate of each operator with 0, 1, .. 5 controls, with each good set.
pub(super) fn every_operator() -> Vec<Case> {
    let mut cases = vec![];
    for (number, operator) in OPERATORS.into_iter().enumerate() {
        for controls in 0..=5 {
            // Of several controls some have the global value and some another.
            let at = |line: usize| (line + number) % 3;
            let text: String = (0..controls).map(|line| format!(" x{line}={}", at(line))).collect();
            let one = gates(&format!("{operator} x5{text}"));
            cases.extend((1..=7).map(|fitted| pricing(6, fitted % 3, fitted, &one)));
        }
    }
    cases
}

/// Refusal 13: behind 1 and 10, before 6, 7 and 11.
pub(super) fn refused_sets() -> Vec<Case> {
    let (good, other) = (gates("D x0 x1=2"), gates("E x1"));
    let (odd, bad) = (&good[..7], &[0; 8]);
    let mut cases = vec![];
    for (lines, value) in [(2, 2), (2, 3), (0, 2), (7, 3)] {
        for fitted in [0, 1, 7, 8, 255] {
            for cascade in [&good[..], &[], odd, bad] {
                cases.push(pricing(lines, value, fitted, cascade));
            }
            for (first, second) in [
                (&good[..], &good[..]),
                (&[], &[]),
                (&good, &other),
                (odd, bad),
                (bad, odd),
                (&good, odd),
                (&good, bad),
            ] {
                cases.push(Case { fitted, ..choosing(lines, value, first, second) });
            }
        }
    }
    // Bits that mean no operator, alone and beside one that does.
    for bit in [8, 16, 32, 64, 128] {
        cases.extend([bit, bit + 1].map(|fitted| Case { fitted, ..choosing(2, 0, &good, &good) }));
    }
    cases
}

/// The longest cascades of gates that cost the most, of each operator, with each good set.
pub(super) fn dearest_gates() -> Vec<Case> {
    let mut cases = vec![];
    for operator in OPERATORS {
        let dearest = gate(&format!("{operator} x0 x1=0 x2=0 x3=0 x4=0 x5=0"));
        let dearest = on_long_cascade(Call::Price, 6, dearest, MOST_GATES, &[]);
        cases.extend((1..=7).map(|fitted| Case { fitted, ..dearest.clone() }));
    }
    cases
}

/// Cost, gates, the first, as they come out with each set.
pub(super) fn choices_by_set() -> Vec<Case> {
    let mut cases = vec![];
    // Lines, the global value, and two that compute one table.
    for (lines, value, first, second) in [
        (1, 0, "", ""),
        (1, 1, "", "N x0, N x0"),
        // E decides.
        (1, 2, "C1 x0, C1 x0, C1 x0", "E x0, E x0"),
        // Without D the cost is the same where E is fitted, and the gates decide.
        (1, 2, "D x0", "C1 x0, E x0"),
        // As many gates, a swap in each: what costs less, or else the first.
        (1, 0, "C2 x0, D x0", "C1 x0, N x0"),
        (1, 1, "C1 x0, D x0", "C2 x0, E x0"),
        (1, 2, "C1 x0, E x0", "C2 x0, N x0"),
        (2, 2, "C1 x0 x1=2, E x0 x1=2", "C2 x0 x1=2, N x0 x1=2"),
        // Two gates with two controls cost 10, or 12 if they aren't fitted: against 11, and
        // against 12.
        (3, 1, "D x0 x1=1 x2=1, D x0 x1=1 x2=1", &("C1 x0, ".repeat(10) + "C2 x0")),
        (3, 1, "E x0 x1=1 x2=1, E x0 x1=1 x2=1", &("C2 x0, ".repeat(11) + "C2 x0")),
        // 4 against 6 with N, without it 6 against 6.
        (2, 2, "N x0, C1 x0, C2 x0, N x0", "C1 x0 x1=0, C2 x0 x1=0"),
        // Other tables.
        (2, 2, "D x0, N x1 x0=2", "D x0"),
    ] {
        cases.extend(with_each_set(lines, value, &gates(first), &gates(second)));
    }
    cases
}

/// Drawn cascades at each value with each good set; then tidied ones and such with two
/// gates for each swap, to be chosen from.
pub(super) fn drawn_on_boards() -> Vec<Case> {
    let mut cases = vec![];
    for lines in 1..=6 {
        let mut draws = Draws::from_seed(320 + lines as u32);
        let drawn = draws.cascade(lines as usize, 20);
        for value in 0..3 {
            cases.extend((1..=7).map(|fitted| pricing(lines, value, fitted, &drawn)));
        }
        let dense = draws.dense_cascade(lines as usize, 16, 4);
        let mut left = dense.clone();
        let gates = tidy(lines, &mut left).map_or(0, |tidied| tidied.gates);
        cases.extend(with_each_set(lines, lines % 3, &dense, &left[..RECORD * gates]));
        let [one, other] = in_pairs(&mut draws, &drawn[..RECORD * 10]);
        cases.extend(with_each_set(lines, (lines + 1) % 3, &one, &other));
    }
    cases
}

/// The cascade twice, in two gates for each swap: by one of the two equations that 000
/// has for it, and by the other.
fn in_pairs(draws: &mut Draws, cascade: &[u8]) -> [Vec<u8>; 2] {
    let mut both = [vec![], vec![]];
    for record in cascade.chunks(RECORD) {
        // For N, D and E: what comes behind a C1, and what behind a C2.
        let behind = match record[0] {
            3 => [4, 5],
            4 => [5, 3],
            5 => [3, 4],
            _ => {
                both.iter_mut().for_each(|one| one.extend(record));
                continue;
            }
        };
        let first = draws.below(2);
        for (number, one) in both.iter_mut().enumerate() {
            let way = (first + number) % 2;
            for operator in [1 + way as u8, behind[way]] {
                one.push(operator);
                one.extend(&record[1..]);
            }
        }
    }
    both
}
