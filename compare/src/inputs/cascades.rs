//! Cascades, good and bad.

use samples::{inverse, Numbers};
use second::gate::Operator::{C1, C2};
use second::hard::{words, Recipe};
use second::synthesis::synthesize;
use second::tabulating::tabulate;
use second::tidying::tidy;

use super::bound;
use super::tables::permutation;

/// How many gates: few as a rule, now and then many, and the most there may be.
fn some_length(numbers: &mut Numbers) -> usize {
    match numbers.below(1_000) {
        0..=99 => 0,
        100..=849 => 1 + numbers.below(8),
        850..=979 => numbers.below(40),
        980..=987 => numbers.below(120),
        988..=998 => long_length(numbers),
        _ => match numbers.below(20) {
            0..=9 => 8_000,
            10..=16 => 8_001,
            17 => 7_999,
            18 => 8_002 + numbers.below(1_000),
            _ => 65_535,
        },
    }
}

/// 121 to 7,999 gates, as often few hundred as a few thousand: what is kept in mind
/// while tidying goes on has edges at 256, 512 and 4,096 places.
fn long_length(numbers: &mut Numbers) -> usize {
    match numbers.below(4) {
        0 => 121 + numbers.below(400),
        1 => 500 + numbers.below(1_000),
        2 => 1_000 + numbers.below(3_500),
        _ => 4_000 + numbers.below(4_000),
    }
}

pub fn good_cascade(numbers: &mut Numbers, lines: usize) -> Vec<u8> {
    let length = some_length(numbers);
    let controls = numbers.pick(&[0, 30, 60, 60, 90, 100]);
    match numbers.below(10) {
        0..=2 => numbers.cascade(lines, length, controls),
        // Few distinct gates.
        3..=5 => {
            let kinds = 1 + numbers.below(6);
            numbers.dense_cascade(lines, length, kinds, controls)
        }
        6 | 7 => numbers.passing_cascade(lines, length, controls),
        // There and back again, but for a gate here and there.
        8 => {
            let mut bytes = numbers.there_and_back(lines, length / 2, controls);
            if !bytes.is_empty() && numbers.one_in(2) {
                let place = 8 * numbers.below(bytes.len() / 8);
                bytes[place..place + 8].copy_from_slice(&numbers.gate(lines, controls));
            }
            bytes
        }
        // What synthesis makes.
        _ => synthesized(lines, &permutation(numbers, lines)),
    }
}

/// A few kinds of gates over and over behind standing rows, on six lines: tidying takes
/// thousands of steps, and changes gates that are far from the rows that reach them.
pub fn hard_cascade(numbers: &mut Numbers) -> Vec<u8> {
    let kinds = 1 + numbers.below(3);
    let parts = (0..kinds).map(|_| {
        let operator = numbers.pick(&[C1, C2]);
        words(operator, 5, 1 + numbers.below(9), numbers.below(243), numbers.below(2))
    });
    let parts = parts.collect();
    let (standing, order) = (numbers.below(684), numbers.next() as u32);
    Recipe { idle: 0, standing, order, parts }.cascade(121 + numbers.below(7_880))
}

/// The cascade of a good table.
fn synthesized(lines: usize, table: &[u16]) -> Vec<u8> {
    let mut room = vec![0; 8 * bound(lines as u8)];
    let gates = synthesize(lines as u8, table, &mut room).unwrap_or(0);
    room.truncate(8 * gates);
    room
}

pub fn some_cascade(numbers: &mut Numbers, lines: usize) -> Vec<u8> {
    let mut bytes = good_cascade(numbers, lines);
    if numbers.below(10) < 3 {
        damage(numbers, lines, &mut bytes);
    }
    bytes
}

fn damage(numbers: &mut Numbers, lines: usize, bytes: &mut Vec<u8>) {
    match numbers.below(12) {
        0..=2 => numbers.change_a_byte(bytes),
        3..=6 => numbers.spoil_a_gate(lines, bytes),
        7 => bytes.truncate(numbers.below(bytes.len() + 1)),
        8 => {
            let more = 1 + numbers.below(7);
            bytes.extend(numbers.bytes(more));
        }
        9 => bytes.extend([0; 8]),
        // As tidying leaves it.
        10 => drop(tidy(lines as u8, bytes)),
        _ => {
            let length = numbers.below(34);
            *bytes = numbers.bytes(length);
        }
    }
    // Now and then a second fault, so that the first one has to be told.
    if numbers.one_in(4) {
        numbers.spoil_a_gate(lines, bytes);
    }
}

/// A second cascade: often one that computes the same table, often one that all
/// but does.
pub fn partner(numbers: &mut Numbers, lines: usize, bytes: &[u8]) -> Vec<u8> {
    let mut other = bytes.to_vec();
    match numbers.below(12) {
        0 => {}
        1..=3 => {
            if let Ok(tidied) = tidy(lines as u8, &mut other) {
                other.truncate(8 * tidied.gates);
            }
        }
        // A gate and its inverse put in between.
        4..=6 => {
            let place = 8 * numbers.below(bytes.len() / 8 + 1);
            let controls = numbers.pick(&[0, 50, 100]);
            let gate = numbers.gate(lines, controls);
            other.splice(place..place, [gate, inverse(gate)].concat());
        }
        7 => {
            let mut table = vec![0; 3usize.pow(lines as u32)];
            if tabulate(lines as u8, bytes, &mut table).is_ok() {
                other = synthesized(lines, &table);
            }
        }
        // Another gate at the end: different in a few inputs only.
        8 => other.extend(numbers.gate(lines, 100)),
        9 => {
            if !bytes.is_empty() {
                let place = 8 * numbers.below(bytes.len().div_ceil(8));
                other.truncate(place);
            }
        }
        10 => other = some_cascade(numbers, lines),
        _ => damage(numbers, lines, &mut other),
    }
    other
}

/// The cascade with two gates for each swap, a C1 or a C2 and then another swap. Which of
/// two such costs less is for the fitted set to say.
pub fn in_pairs(numbers: &mut Numbers, bytes: &[u8]) -> Vec<u8> {
    let mut pairs = vec![];
    for record in bytes.chunks(8) {
        // For N, D and E: the swap behind a C1, and the one behind a C2.
        let operators = match (record[0], numbers.below(2)) {
            (3, 0) => vec![1, 4],
            (3, _) => vec![2, 5],
            (4, 0) => vec![1, 5],
            (4, _) => vec![2, 3],
            (5, 0) => vec![1, 3],
            (5, _) => vec![2, 4],
            (other, _) => vec![other],
        };
        for operator in operators {
            pairs.push(operator);
            pairs.extend(&record[1..]);
        }
    }
    pairs
}
