//! Tidying of long cascades that take many steps: what a search keeps in mind about
//! rows and places far from the start has to be right there too.

use super::making::{gate, on_long_cascade};
use crate::calls::Call;
use crate::cascade::MOST_GATES;
use crate::draws::Draws;
use crate::gate::Operator::{C1, C2};
use crate::gate::RECORD;
use crate::hard::{chains, segments, words, Part, Recipe};
use crate::vectors::Case;

/// Around sixteen places, a word of rows, and 256 rows; then many.
const LENGTHS: [usize; 11] = [16, 17, 63, 64, 65, 80, 255, 256, 257, 272, 1_000];

/// Each form at each length; with thousands of gates before it that all go, which
/// take no stored byte; and three of the longest there are.
pub(super) fn long_tidying() -> Vec<Case> {
    let mut cases = vec![];
    for gates in LENGTHS {
        for (lines, cascade) in forms(gates) {
            cases.push(on_long_cascade(Call::Tidy, lines, [0; RECORD], 0, &cascade));
        }
    }
    let front = MOST_GATES - 1_000;
    for (lines, cascade) in forms(1_000).into_iter().take(4) {
        cases.push(on_long_cascade(Call::Tidy, lines, gate("D x0"), front, &cascade));
    }
    for (lines, cascade) in forms(MOST_GATES).into_iter().take(3) {
        cases.push(on_long_cascade(Call::Tidy, lines, [0; RECORD], 0, &cascade));
    }
    cases
}

/// Cascades of so many gates, and their lines.
fn forms(gates: usize) -> Vec<(u8, Vec<u8>)> {
    let standing = (gates / 2).min(683);
    let equal = vec![words(C1, 5, 1, 188, 0)];
    let in_turn = vec![words(C1, 5, 7, 0, 0), words(C1, 5, 7, 1, 0), words(C2, 5, 5, 100, 0)];
    let behind = |order: u32, parts: &[Part]| {
        let recipe = Recipe { idle: 0, standing, order, parts: parts.to_vec() };
        (6, recipe.cascade(gates))
    };
    let mut draws = Draws::from_seed(gates as u32);
    vec![
        behind(4, &equal),
        behind(0, &in_turn),
        (3, draws.dense_cascade(3, gates, 8)),
        behind(1, &segments()),
        behind(2, &chains()),
        behind(0, &equal),
        (5, draws.dense_cascade(5, gates, 20)),
    ]
}
