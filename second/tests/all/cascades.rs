//! Running, tabulating, inverting and pricing against the plain reading.

use samples::Numbers;
use second::cascade::{check, price, run};
use second::gate::Gate;
use second::pattern::{Digits, Lines};

use crate::calls::{computed, invert};
use crate::helpers::identity;
use crate::plain;

#[test]
fn every_gate_on_up_to_three_lines() {
    for lines in 1..=3 {
        let mut gates = 0;
        for code in 0..5 * lines * 64 {
            let mut record = [3; 8];
            record[0] = 1 + (code % 5) as u8;
            record[1] = (code / 5 % lines) as u8;
            for line in 0..3 {
                record[2 + line] = ((code / 5 / lines) >> (2 * line) & 3) as u8;
            }
            let plainly = plain::decode(lines, &record);
            let gate = Gate::read(Lines::check(lines as u8).unwrap(), record);
            assert_eq!(gate.is_some(), plainly.is_some());
            let (Some(gate), Some(plainly)) = (gate, plainly) else { continue };
            gates += 1;

            assert_eq!(gate.record(), record);
            assert_eq!(gate.record(), plain::encode(&plainly));
            assert_eq!(gate.operator().number(), record[0]);
            assert_eq!(gate.target(), plainly.target);
            assert!((0..6).all(|line| gate.control(line) == plainly.controls[line]));
            assert_eq!(gate.control(6), None);
            let packed = (0..6).map(|k| record[2 + k] as u16 * 4u16.pow(k as u32)).sum::<u16>();
            assert_eq!(gate.packed_controls(), packed);
            assert_eq!(gate.inverse().record(), plain::encode(&plain::inverse(&plainly)));
            for pattern in 0..3usize.pow(lines as u32) {
                let digits = Digits::of(pattern).unwrap();
                let after = gate.apply(digits);
                assert_eq!(after.pattern() as usize, plain::apply(&plainly, pattern));
                assert_eq!(gate.inverse().apply(after), digits);
                let plainly_fires = (0..6).all(|line| {
                    plainly.controls[line].is_none_or(|v| v == plain::digit(pattern, line))
                });
                assert_eq!(gate.fires(digits), plainly_fires);
            }
        }
        assert_eq!(gates, 5 * lines * 4usize.pow(lines as u32 - 1));
    }
}

#[test]
fn patterns_and_digits() {
    for pattern in 0..729 {
        assert_eq!(Digits::of(pattern).unwrap().pattern() as usize, pattern);
    }
    assert_eq!(Digits::of(729), None);
    assert_eq!(Digits::of(usize::MAX), None);
}

#[test]
fn random_cascades_run_tabulate_invert_and_price() {
    let mut numbers = Numbers::from_seed(5);
    for round in 0..900 {
        let lines = 1 + round % 6;
        let n = lines as u8;
        let count = numbers.below(if round % 30 == 0 { 500 } else { 25 });
        let controls = [0, 20, 50, 80, 100][numbers.below(5)];
        let records = numbers.cascade(lines, count, controls);
        let gates = plain::gates(lines, &records);
        let table = plain::tabulate(lines, &gates);

        assert_eq!(check(n, &records), Ok(count));
        assert_eq!(computed(n, &records), table);
        for _ in 0..20 {
            let pattern = numbers.below(table.len());
            assert_eq!(run(n, &records, pattern as u16), Ok(table[pattern]));
        }
        for value in 0..3 {
            for fitted in 1..=7 {
                let cost = plain::cost(value, fitted, &gates);
                assert_eq!(price(n, value, fitted, &records), Ok(cost));
            }
        }

        let inverse = invert(n, &records, records.len()).unwrap();
        let plainly: Vec<_> = gates.iter().rev().map(plain::inverse).collect();
        assert_eq!(inverse, plain::bytes(&plainly));
        assert_eq!(computed(n, &[records.clone(), inverse.clone()].concat()), identity(lines));
        assert_eq!(computed(n, &[inverse.clone(), records.clone()].concat()), identity(lines));
        assert_eq!(invert(n, &inverse, inverse.len()), Ok(records));
    }
}

#[test]
fn the_longest_cascades() {
    let mut numbers = Numbers::from_seed(6);
    for lines in 1..=6 {
        let n = lines as u8;
        let records = numbers.cascade(lines, 8_000, 50);
        let table = computed(n, &records);
        for (pattern, &entry) in table.iter().enumerate() {
            assert_eq!(run(n, &records, pattern as u16), Ok(entry));
        }
        let gates = plain::gates(lines, &records);
        assert_eq!(plain::run(&gates, 2), table[2] as usize);
        let inverse = invert(n, &records, 64_000).unwrap();
        for (pattern, &entry) in table.iter().enumerate() {
            assert_eq!(run(n, &inverse, entry), Ok(pattern as u16));
        }
    }
}

#[test]
fn the_empty_cascade_is_the_identity() {
    for lines in 1..=6 {
        assert_eq!(computed(lines as u8, &[]), identity(lines));
        for value in 0..3 {
            for fitted in 1..=7 {
                assert_eq!(price(lines as u8, value, fitted, &[]), Ok(0));
            }
        }
    }
}
