//! From table to cascade, and what the demands ask of it.

use samples::Numbers;
use second::gate::Operator;
use second::pattern::Lines;
use second::table::{check_table, Permutation};

use crate::calls::{computed, invert, synthesize, synthesized};
use crate::helpers::{identity, BOUND};
use crate::plain;

#[test]
fn the_plain_procedure_finds_the_same_gates() {
    let mut numbers = Numbers::from_seed(8);
    for lines in 1..=6 {
        for _ in 0..[0, 20, 200, 200, 50, 10, 2][lines] {
            let table = numbers.table(lines);
            let gates = synthesized(lines as u8, &table);
            assert_eq!(gates, plain::bytes(&plain::synthesize(lines, &table)));
        }
    }
}

#[test]
fn cascades_compute_their_tables_both_ways() {
    let mut numbers = Numbers::from_seed(9);
    for round in 0..600 {
        let lines = 1 + round % 6;
        let n = lines as u8;
        let mut table = numbers.table(lines);
        if round % 4 == 0 {
            // Near the identity.
            table = identity(lines);
            for _ in 0..2 {
                let (one, other) = (numbers.below(table.len()), numbers.below(table.len()));
                table.swap(one, other);
            }
        }
        let gates = synthesized(n, &table);
        assert!(gates.len() <= 8 * BOUND[lines]);
        assert_eq!(computed(n, &gates), table);

        let inverse = invert(n, &gates, gates.len()).unwrap();
        let inverse_table = computed(n, &inverse);
        for (input, &output) in table.iter().enumerate() {
            assert_eq!(inverse_table[output as usize] as usize, input);
        }
        if let Ok(checked) = Permutation::<729>::check(&table) {
            assert_eq!(checked.table()[..], table);
            assert_eq!(checked.inverse_table()[..], inverse_table);
        }
        // Swaps only, each with a control on every other line.
        for gate in plain::gates(lines, &gates) {
            assert!(matches!(gate.op, plain::Op::N | plain::Op::D | plain::Op::E));
            assert_eq!(gate.controls.iter().flatten().count(), lines - 1);
        }
    }
}

#[test]
fn a_table_is_accepted_exactly_if_it_is_a_permutation() {
    // All tables on one line with entries up to 4, of all lengths up to 4.
    for length in 0..=4u32 {
        for code in 0..5u16.pow(length) {
            let table: Vec<u16> = (0..length).map(|k| code / 5u16.pow(k) % 5).collect();
            let mut sorted = table.clone();
            sorted.sort();
            assert_eq!(check_table(1, &table).is_ok(), sorted == [0, 1, 2]);
            let refusal = check_table(1, &table).map_err(|r| (r.number, r.place));
            assert_eq!(refusal, plain::check_table(1, &table));
            assert_eq!(synthesize(1, &table, 16).is_ok(), sorted == [0, 1, 2]);
        }
    }
    // Random tables with a few bad entries.
    let mut numbers = Numbers::from_seed(10);
    for round in 0..20_000 {
        let lines = 1 + round % 5;
        let mut table = numbers.table(lines);
        for _ in 0..numbers.below(4) {
            let place = numbers.below(table.len());
            table[place] = numbers.below(table.len() + 2) as u16;
        }
        let answer = check_table(lines as u8, &table).map_err(|r| (r.number, r.place));
        assert_eq!(answer, plain::check_table(lines as u8, &table));
        assert_eq!(synthesize(lines as u8, &table, 8 * 1_094).is_ok(), answer.is_ok());
    }
}

/// A table whose cascade has as many gates as the bound allows. For row i the
/// leading digits 2 of i cannot change, since the entry is i or more; all others
/// are made to differ, the highest of them upward.
fn hardest_table(lines: usize) -> Vec<u16> {
    let mut found = Vec::new();
    for row in 0..3usize.pow(lines as u32) {
        let leading = (0..lines).rev().take_while(|&k| plain::digit(row, k) == 2).count();
        let mut present = row;
        for line in 0..lines - leading {
            let digit = plain::digit(row, line);
            let other = if line + 1 == lines - leading { digit + 1 } else { (digit + 1) % 3 };
            present = plain::with_digit(present, line, other);
        }
        for line in 0..lines - leading {
            let (from, to) = (plain::digit(present, line), plain::digit(row, line));
            let op = [plain::Op::N, plain::Op::D, plain::Op::E]
                .into_iter()
                .find(|&op| plain::act(op, from) == to)
                .unwrap();
            let mut controls = [None; 6];
            for k in (0..lines).filter(|&k| k != line) {
                controls[k] = Some(plain::digit(present, k));
            }
            found.push(plain::Gate { op, target: line, controls });
            present = plain::with_digit(present, line, to);
        }
    }
    found.reverse();
    computed(lines as u8, &plain::bytes(&found))
}

#[test]
fn the_bound_is_reached_on_every_number_of_lines() {
    for lines in 1..=6 {
        let table = hardest_table(lines);
        let gates = synthesized(lines as u8, &table);
        assert_eq!(gates.len(), 8 * BOUND[lines]);
        assert_eq!(computed(lines as u8, &gates), table);
    }
}

#[test]
fn the_bound_is_the_formula() {
    for lines in 1..=6u8 {
        let (n, size) = (lines as usize, 3usize.pow(lines as u32));
        assert_eq!(BOUND[n], n * size - (size - 1) / 2);
        assert_eq!(Lines::check(lines).unwrap().gate_bound(), BOUND[n]);
    }
    assert_eq!(Operator::from_number(0), None);
    assert_eq!(Operator::from_number(6), None);
    for operator in Operator::ALL {
        assert_eq!(Operator::from_number(operator.number()), Some(operator));
    }
}

#[test]
fn six_line_tables_come_back() {
    let mut numbers = Numbers::from_seed(11);
    for _ in 0..200 {
        let table = numbers.table(6);
        assert_eq!(computed(6, &synthesized(6, &table)), table);
    }
}
