//! The cheaper of two.

use crate::answer::{Answer, Refusal};
use crate::cascade::{check_board, Cascade};
use crate::pattern::MOST_PATTERNS;
use crate::tabulating::write_table;

/// The answers of [`choose`].
pub const FIRST: u8 = 1;
pub const SECOND: u8 = 2;

/// Hands back that lent cascade which costs less, then the one with fewer gates,
/// then the first. A refusal hands back the empty part at the start of the first;
/// [`choose`] tells which refusal.
pub fn cheaper<'a>(
    lines: u8,
    value: u8,
    fitted: u8,
    first: &'a [u8],
    second: &'a [u8],
) -> &'a [u8] {
    match choose(lines, value, fitted, first, second) {
        Ok(SECOND) => second,
        Ok(_) => first,
        Err(_) => &first[..0],
    }
}

/// Which of the two [`cheaper`] hands back: 1 or 2. Refusals 1, 10, 13, then 6 and 7
/// of the first, 6 and 7 of the second, 11.
pub fn choose(lines: u8, value: u8, fitted: u8, first: &[u8], second: &[u8]) -> Answer<u8> {
    let (lines, value, fitted) = check_board(lines, value, fitted)?;
    let first = Cascade::check(lines, first)?;
    let second = Cascade::check(lines, second)?;
    if let Some(input) = first_difference(first, second) {
        return Err(Refusal::different_tables(input));
    }
    let worth = |cascade: Cascade| (cascade.cost(value, fitted), cascade.len());
    Ok(if worth(second) < worth(first) { SECOND } else { FIRST })
}

/// The first input on which two cascades on the same lines differ.
fn first_difference(one: Cascade, other: Cascade) -> Option<usize> {
    let (mut ones, mut others) = ([0; MOST_PATTERNS], [0; MOST_PATTERNS]);
    let entries = ..one.lines().patterns();
    write_table(one, &mut ones[entries]);
    write_table(other, &mut others[entries]);
    (ones != others)
        .then(|| ones.iter().zip(&others).take_while(|(one, other)| one == other).count())
}
