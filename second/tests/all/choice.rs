//! The cheaper of two.

use samples::Numbers;
use second::cascade::price;
use second::cases::gates;
use second::choice::{cheaper, choose, FIRST, SECOND};

use crate::calls::{computed, synthesized, tidy};
use crate::helpers::{refused, ALL_FITTED};
use crate::plain;

/// Chooses, and sees that `cheaper` hands back that cascade itself.
fn chosen(lines: u8, value: u8, fitted: u8, first: &[u8], second: &[u8]) -> u8 {
    let answer = choose(lines, value, fitted, first, second).expect("equal tables");
    let part = cheaper(lines, value, fitted, first, second);
    let expected = if answer == FIRST { first } else { second };
    assert!(std::ptr::eq(part, expected), "the lent cascade itself");
    answer
}

#[test]
fn it_answers_1_or_2() {
    assert_eq!((FIRST, SECOND), (1, 2));
}

#[test]
fn what_costs_less_then_fewer_gates_then_the_first() {
    // Twice the same swap: one reads off the global value, the other at it.
    let (dear, cheap) = (gates("D x0 x1=0, D x0 x1=0"), gates("D x0 x1=2, D x0 x1=2"));
    assert_eq!(chosen(2, 2, ALL_FITTED, &dear, &cheap), 2);
    assert_eq!(chosen(2, 2, ALL_FITTED, &cheap, &dear), 1);
    assert_eq!(chosen(2, 0, ALL_FITTED, &dear, &cheap), 1);
    assert_eq!(chosen(2, 0, ALL_FITTED, &cheap, &dear), 2);
    // At value 1 both cost 6 with two gates: the first.
    assert_eq!(chosen(2, 1, ALL_FITTED, &dear, &cheap), 1);
    assert_eq!(chosen(2, 1, ALL_FITTED, &cheap, &dear), 1);

    // Equal cost, fewer gates: ten uncontrolled ones against two with two controls
    // at the value.
    let many = gates("D x0, D x0, D x0, D x0, D x0, D x0, D x0, D x0, D x0, D x0");
    let few = gates("D x0 x1=1 x2=1, D x0 x1=1 x2=1");
    assert_eq!((price(3, 1, ALL_FITTED, &many), price(3, 1, ALL_FITTED, &few)), (Ok(10), Ok(10)));
    assert_eq!(chosen(3, 1, ALL_FITTED, &many, &few), 2);
    assert_eq!(chosen(3, 1, ALL_FITTED, &few, &many), 1);
    // Cost comes before gates: at value 0 the two gates cost 18.
    assert_eq!(chosen(3, 0, ALL_FITTED, &many, &few), 1);
    assert_eq!(chosen(3, 0, ALL_FITTED, &few, &many), 2);
}

#[test]
fn the_empty_cascade() {
    let nothing = gates("N x0, N x0");
    assert_eq!(chosen(1, 0, ALL_FITTED, &[], &nothing), 1);
    assert_eq!(chosen(1, 0, ALL_FITTED, &nothing, &[]), 2);
    assert_eq!(chosen(1, 0, ALL_FITTED, &[], &[]), 1);
    // The empty part of a larger buffer is that part, not any empty one.
    let part = cheaper(1, 0, ALL_FITTED, &nothing, &nothing[16..]);
    assert!(part.is_empty() && std::ptr::eq(part.as_ptr(), nothing[16..].as_ptr()));
}

#[test]
fn a_difference_is_told_at_the_first_input() {
    let mut numbers = Numbers::from_seed(7);
    let mut equal = 0;
    for round in 0..3_000 {
        let lines = 1 + round % 6;
        let n = lines as u8;
        let first = numbers.cascade(lines, 4, 70);
        // The same but for one gate, which may or may not matter.
        let mut second = first.clone();
        let place = 8 * numbers.below(4);
        second[place..place + 8].copy_from_slice(&numbers.gate(lines, 90));
        if round % 3 == 0 {
            second = tidy(n, &first).unwrap().1;
        }
        let (one, other) = (computed(n, &first), computed(n, &second));
        match one.iter().zip(&other).position(|(a, b)| a != b) {
            Some(input) => {
                assert_eq!(choose(n, 0, ALL_FITTED, &first, &second), refused(11, input));
                assert_eq!(choose(n, 0, ALL_FITTED, &second, &first), refused(11, input));
            }
            None => {
                equal += 1;
                for value in 0..3 {
                    for fitted in 1..=7 {
                        let worth = |records: &[u8]| {
                            let gates = plain::gates(lines, records);
                            (plain::cost(value, fitted, &gates), gates.len())
                        };
                        let expected = if worth(&second) < worth(&first) { 2 } else { 1 };
                        assert_eq!(chosen(n, value, fitted, &first, &second), expected);
                    }
                }
            }
        }
    }
    assert!(equal > 900);
}

#[test]
fn a_difference_in_the_last_input_alone_is_not_to_be_had() {
    // Tables are permutations, so two that differ do so twice at least; the first
    // difference may be as late as the last input but one.
    for lines in 1..=6u8 {
        let size = 3u16.pow(lines as u32);
        let mut table: Vec<u16> = (0..size).collect();
        table.swap(size as usize - 1, size as usize - 2);
        let gates = synthesized(lines, &table);
        assert_eq!(choose(lines, 2, ALL_FITTED, &gates, &[]), refused(11, size as usize - 2));
        assert_eq!(choose(lines, 2, ALL_FITTED, &[], &gates), refused(11, size as usize - 2));
    }
}
