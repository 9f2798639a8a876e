//! Tidying against the plain procedure, step by step.

use samples::Numbers;
use second::tidying::Rack;

use crate::plain;

/// Takes steps on both sides until none fits; after each the gates left must be the
/// same. Tells the steps.
fn compare_steps(lines: usize, records: &[u8]) -> usize {
    let mut rack = Rack::check(lines as u8, records).unwrap();
    let mut gates = plain::gates(lines, records);
    let mut steps = 0;
    loop {
        let step = rack.step();
        assert_eq!(step, plain::step(&mut gates));
        let left: Vec<u8> = rack.left().flat_map(|gate| gate.record()).collect();
        assert_eq!(left, plain::bytes(&gates));
        if !step {
            return steps;
        }
        steps += 1;
    }
}

/// Every pair of gates on three lines: the rule that fits it, or none.
#[test]
fn rules_fit_and_do_what_the_document_says() {
    let gates = plain::all_gates(3);
    for i in &gates {
        for j in &gates {
            let pair = [i.clone(), j.clone()];
            let mut left = pair.to_vec();
            let fits = plain::use_rule(&mut left, 0, 1);
            assert_eq!(compare_steps(3, &plain::bytes(&pair)) > 0, fits);
            // A fitting pair may change places, and the table stays.
            assert!(!fits || plain::may_change_places(i, j));
            assert_eq!(plain::tabulate(3, &left), plain::tabulate(3, &pair));
        }
    }
}

/// Every gate on three lines between another and its inverse: they cancel across it
/// exactly if the first may change places with it.
#[test]
fn rows_pass_what_the_document_lets_them_pass() {
    let gates = plain::all_gates(3);
    for one in &gates {
        for other in &gates {
            compare_steps(3, &plain::bytes(&[one.clone(), other.clone(), plain::inverse(one)]));
        }
    }
}

/// The search with memory takes the same pairs in the same order.
#[test]
fn every_step_is_the_plain_procedures() {
    let mut numbers = Numbers::from_seed(24);
    let mut steps = 0;
    for round in 0..6_000 {
        let lines = 1 + round % 6;
        let (gates, kinds) = (numbers.below(50), 1 + numbers.below(10));
        steps += compare_steps(lines, &numbers.dense_cascade(lines, gates, kinds, 75));
    }
    assert!(steps > 30_000, "{steps} steps");
}
