//! The cheaper of two.

use super::making::{choosing, gate, gates, inverse};
use crate::cascade::MOST_GATES;
use crate::draws::Draws;
use crate::vectors::Case;

/// At each value, and both ways round.
fn both_ways(lines: u8, first: &[u8], second: &[u8]) -> Vec<Case> {
    let at = |value| [choosing(lines, value, first, second), choosing(lines, value, second, first)];
    (0..3).flat_map(at).collect()
}

/// Cost, gates, the first; refusal 11; the order of the two cascades' refusals.
pub(super) fn choices() -> Vec<Case> {
    let (good, other) = (gates("D x0, N x1 x0=2"), gates("D x0"));
    let bad = [&other[..], &[0; 8], &other[..]].concat();
    let odd = &good[..9];
    let mut cases = [
        both_ways(2, &gates("D x0 x1=0, D x0 x1=0"), &gates("D x0 x1=2, D x0 x1=2")),
        both_ways(3, &gates("D x0").repeat(10), &gates("D x0 x1=1 x2=1, D x0 x1=1 x2=1")),
        both_ways(1, &[], &gates("N x0, N x0")),
        both_ways(1, &[], &[]),
        both_ways(2, &gates("C1 x0 x1=0, C1 x0 x1=1"), &gates("C1 x0, C2 x0 x1=2")),
        both_ways(2, &good, &other),
        both_ways(2, odd, &bad),
        both_ways(2, &bad, odd),
        both_ways(2, &other, &bad),
        both_ways(2, &bad, &bad),
        both_ways(2, odd, odd),
    ]
    .concat();
    cases.extend(drawn_choices());
    // Too many gates in the second cascade, and as many as there may be.
    for more_times in [MOST_GATES, MOST_GATES + 1] {
        let record = gate("D x0");
        cases.push(Case { record, more_times, ..choosing(1, 2, &gates("E x0"), &[]) });
        cases.push(Case { record, more_times, ..choosing(1, 2, &[], &[]) });
    }
    cases
}

/// Another gate at the end, and the first input on which it shows; a gate and its
/// inverse at the start.
fn drawn_choices() -> Vec<Case> {
    let mut cases = vec![];
    for lines in 1..=6 {
        let mut draws = Draws::from_seed(160 + lines as u32);
        for _ in 0..4 {
            let first = draws.cascade(lines as usize, 10);
            let last: Vec<u8> = draws.gate(lines as usize).to_vec();
            cases.extend(both_ways(lines, &first, &[&first[..], &last].concat()));
            let pair = [&last[..], &inverse(&last), &first].concat();
            cases.extend(both_ways(lines, &first, &pair));
        }
        // They differ in the last two inputs only.
        let controls: String = (1..lines).map(|line| format!(" x{line}=2")).collect();
        cases.extend(both_ways(lines, &gates(&format!("D x0{controls}")), &[]));
    }
    cases
}
