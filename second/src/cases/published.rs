//! The gate tables and functions that the papers print.

use super::making::{
    both_on_table, bytes_of, choosing, gates, inverse, on_cascade, synthesized, VECTOR_OF_003,
};
use crate::calls::Call;
use crate::gate::RECORD;
use crate::vectors::Case;

const OPERATORS: [&str; 5] = ["C1", "C2", "N", "D", "E"];

/// 003's inverter that changes nothing: no gate.
const WIRE: &str = "-";

pub(super) fn published() -> Vec<Case> {
    [operators(), identities(), cost_steps(), chart(), functions()].concat()
}

/// What a cascade on one line makes of each digit.
fn at_each_digit(cascade: &[u8]) -> [Case; 3] {
    [0, 1, 2].map(|pattern| Case { pattern, ..on_cascade(Call::Run, 1, cascade) })
}

/// 000 table 1, 001's operators, 003 tables 1 and 2: every operator, and none, at
/// every digit; inverses, as 000 gives them.
fn operators() -> Vec<Case> {
    let mut cases = at_each_digit(&[]).to_vec();
    for operator in OPERATORS {
        let one = gates(&format!("{operator} x0"));
        cases.push(on_cascade(Call::Tabulate, 1, &one));
        cases.extend(at_each_digit(&one));
        cases.push(on_cascade(Call::Invert, 1, &one));
    }
    cases
}

/// 000's equations 1 to 5, the right operator first: each pair computes what the
/// single operator does, so that the choice is accepted.
fn identities() -> Vec<Case> {
    let mut cases = vec![];
    for (single, pair) in [
        ("C1", "C2 x0, C2 x0"),
        ("C2", "C1 x0, C1 x0"),
        ("D", "C1 x0, E x0"),
        ("D", "C2 x0, N x0"),
        ("E", "C2 x0, D x0"),
        ("E", "C1 x0, N x0"),
        ("N", "C1 x0, D x0"),
        ("N", "C2 x0, E x0"),
    ] {
        let single = gates(&format!("{single} x0"));
        cases.push(choosing(1, 0, &gates(pair), &single));
        cases.push(on_cascade(Call::Tabulate, 1, &gates(pair)));
    }
    cases
}

/// 001's cost steps: 0 to 5 controls, all at one value; each operator costs the same.
fn cost_steps() -> Vec<Case> {
    let mut cases = vec![];
    for controls in 0..=5 {
        for at in 0..3 {
            let text: String = (0..controls).map(|line| format!(" x{line}={at}")).collect();
            for value in 0..3 {
                let gate = gates(&format!("N x5{text}"));
                cases.push(Case { value, ..on_cascade(Call::Price, 6, &gate) });
            }
        }
    }
    for operator in OPERATORS {
        let gate = gates(&format!("{operator} x1 x5=0"));
        cases.push(Case { value: 0, ..on_cascade(Call::Price, 6, &gate) });
    }
    cases
}

/// 003's compatibility chart, its wire too. What two together make of each digit; and
/// one passes the other exactly if the first and its inverse cancel across it.
fn chart() -> Vec<Case> {
    let mut cases = vec![];
    for one in OPERATORS.into_iter().chain([WIRE]) {
        for other in OPERATORS.into_iter().chain([WIRE]) {
            let with = |operator, rest| match operator {
                WIRE => vec![],
                _ => gates(&format!("{operator} x0{rest}")),
            };
            cases.extend(at_each_digit(&[with(one, ""), with(other, "")].concat()));
            let (first, between) = (with(one, " x1=0"), with(other, " x2=0"));
            let undo: Vec<u8> = first.chunks(RECORD).flat_map(inverse).collect();
            cases.push(on_cascade(Call::Tidy, 3, &[first, between, undo].concat()));
        }
    }
    cases
}

/// 003's vector; 000's full adder, counter and rotation, and what their cascades
/// compute.
fn functions() -> Vec<Case> {
    let mut cases = both_on_table(2, &VECTOR_OF_003).to_vec();
    let file = [&[2][..], &bytes_of(&VECTOR_OF_003)].concat();
    cases.push(Case { stored: file, room: 200, ..Case::new(Call::Sheet) });
    let digit = |p: u16, line: u32| p / 3u16.pow(line) % 3;
    let adder: Vec<u16> = (0..81)
        .map(|p| {
            let sum = digit(p, 0) + digit(p, 1) + digit(p, 2);
            let carry = (sum / 3 + digit(p, 3)) % 3;
            sum % 3 + (digit(p, 1) + digit(p, 2)) % 3 * 3 + digit(p, 2) * 9 + carry * 27
        })
        .collect();
    let counter: Vec<u16> = (0..243).map(|p| (p % 81 + p / 81) % 81 + p / 81 * 81).collect();
    // By x3 = 0, 1, 2 the digits x0, x1, x2 come from these lines.
    let from = [[0, 1, 2], [2, 0, 1], [1, 2, 0]];
    let rotation: Vec<u16> = (0..81)
        .map(|p| {
            let [x0, x1, x2] = from[digit(p, 3) as usize].map(|line| digit(p, line));
            x0 + 3 * x1 + 9 * x2 + 27 * digit(p, 3)
        })
        .collect();
    for (lines, table) in [(4, adder), (5, counter), (4, rotation)] {
        cases.extend(both_on_table(lines, &table));
        cases.push(on_cascade(Call::Tabulate, lines, &synthesized(lines, &table)));
    }
    cases
}
