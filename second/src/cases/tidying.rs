//! Tidying.

use super::making::{gates, inverse, on_cascade, synthesized};
use crate::calls::Call;
use crate::draws::Draws;
use crate::gate::RECORD;
use crate::vectors::Case;

/// Cascades on so many lines of which document 01 says what becomes of them, or
/// where it is easily misread.
const READINGS: [(u8, &str); 22] = [
    // P8 to P13, and cascades that tidy to themselves.
    (1, "C1 x0, C1 x0"),
    (1, "C2 x0, C2 x0"),
    (1, "C1 x0, C2 x0"),
    (2, "C1 x0 x1=0, C1 x0 x1=1"),
    (2, "D x0 x1=0, D x0 x1=2"),
    (2, "E x1, D x0 x1=2, E x1"),
    (2, "N x1, D x0 x1=2, N x1"),
    (2, "N x1, D x0 x1=1, N x1"),
    (1, ""),
    (6, "C2 x5 x0=0 x1=1 x2=2 x3=0 x4=1"),
    // A C1 and a C2 do not reduce.
    (2, "C1 x0 x1=0, C2 x0 x1=1"),
    // Openness is about gate i alone.
    (3, "D x0, D x1 x0=0, D x0"),
    (3, "D x0, D x1 x0=1, D x0"),
    (3, "D x0 x1=1, N x1, D x0 x1=1"),
    (3, "D x0 x1=2, N x1, D x0 x1=2"),
    (3, "D x0 x1=2, E x1, D x0 x1=0"),
    (3, "D x0 x1=0, E x1, D x0 x1=2"),
    (3, "C1 x0 x1=0, C2 x0 x2=2, C2 x0 x1=0"),
    (3, "D x0 x2=0, N x0 x2=1, D x0 x2=0"),
    // Steps start again from row 0, and the smallest j comes first.
    (1, "C1 x0, D x0, D x0, C1 x0"),
    (2, "D x0 x1=0, D x0 x1=1, D x0 x1=0"),
    (1, "E x0, D x0, D x0, N x0"),
];

/// The document's examples, what is easily misread, and drawn cascades.
pub(super) fn tidying() -> Vec<Case> {
    let tidy = |lines: u8, text: &str| on_cascade(Call::Tidy, lines, &gates(text));
    let mut cases: Vec<_> = READINGS.iter().map(|&(lines, text)| tidy(lines, text)).collect();
    // Which operator passes which control, from either side.
    for operator in ["C1", "C2", "N", "D", "E"] {
        for value in 0..3 {
            let undo = match operator {
                "C1" => "C2",
                "C2" => "C1",
                swap => swap,
            };
            cases.push(tidy(2, &format!("{operator} x1, D x0 x1={value}, {undo} x1")));
            cases.push(tidy(2, &format!("D x0 x1={value}, {operator} x1, D x0 x1={value}")));
        }
    }
    for lines in 1..=6 {
        let mut draws = Draws::from_seed(120 + lines as u32);
        for (count, kinds) in [(8, 2), (20, 3), (40, 5), (60, 8), (120, 12)] {
            let dense = draws.dense_cascade(lines as usize, count, kinds);
            cases.push(on_cascade(Call::Tidy, lines, &dense));
        }
        let mut there = draws.cascade(lines as usize, 12);
        let back: Vec<_> = there.rchunks(RECORD).flat_map(inverse).collect();
        there.extend(back);
        cases.push(on_cascade(Call::Tidy, lines, &there));
        let few = lines.min(4);
        let found = synthesized(few, &draws.table(few as usize));
        cases.push(on_cascade(Call::Tidy, lines, &found));
    }
    cases
}
