//! Boards that lack some of D, E and N, by order 2 of document 02.

use samples::Numbers;
use second::answer::Answer;
use second::calls::Call;
use second::cascade::price;
use second::cases::{cases, gates};
use second::choice::{cheaper, choose};

use crate::calls::{listing, synthesized};
use crate::plain;

/// An answer as the plain reading tells it.
fn plainly<T>(answer: Answer<T>) -> Result<T, (u8, usize)> {
    answer.map_err(|refusal| (refusal.number, refusal.place))
}

#[test]
fn what_a_gate_costs_with_each_set() {
    // The sets 1 to 7: D, E, D and E, N, D and N, E and N, all.
    for (operator, costs) in [
        ("C1", [1, 1, 1, 1, 1, 1, 1]),
        ("C2", [1, 1, 1, 1, 1, 1, 1]),
        ("N", [2, 2, 2, 1, 1, 1, 1]),
        ("D", [1, 2, 1, 2, 1, 2, 1]),
        ("E", [2, 1, 1, 2, 2, 1, 1]),
    ] {
        for (fitted, cost) in (1..).zip(costs) {
            assert_eq!(price(1, 0, fitted, &gates(&format!("{operator} x0"))), Ok(cost));
            let controlled = gates(&format!("{operator} x0 x1=1"));
            assert_eq!(price(2, 1, fitted, &controlled), Ok(cost));
            assert_eq!(price(2, 2, fitted, &controlled), Ok(cost + 2));
        }
    }
}

#[test]
fn one_more_whatever_the_controls() {
    let gate = ["D x5", " x0=1", " x1=1", " x2=1", " x3=1", " x4=1"];
    for (controls, base) in [1, 1, 5, 15, 35, 75].into_iter().enumerate() {
        let gate = gates(&gate[..=controls].concat());
        assert_eq!(price(6, 1, 1 + 2, &gate), Ok(base));
        assert_eq!(price(6, 1, 2 + 4, &gate), Ok(base + 1));
        assert_eq!(price(6, 0, 2 + 4, &gate), Ok(base + 1 + 2 * controls as u32));
        // Once for each gate.
        assert_eq!(price(6, 1, 2 + 4, &gate.repeat(3)), Ok(3 * (base + 1)));
    }
    let dearest = gates("E x0 x1=0 x2=0 x3=0 x4=0 x5=0").repeat(8_000);
    assert_eq!(price(6, 2, 2, &dearest), Ok(8_000 * 85));
    assert_eq!(price(6, 2, 1 + 4, &dearest), Ok(8_000 * 86));
}

/// Document 01's cascade of 11 gates costs 21; 5 of them are D, 2 are E and 4 are N.
#[test]
fn the_vector_of_003_with_each_set() {
    let cascade = synthesized(2, &[5, 6, 1, 7, 2, 3, 8, 0, 4]);
    let costs = [21 + 6, 21 + 9, 21 + 4, 21 + 7, 21 + 2, 21 + 5, 21];
    for (fitted, cost) in (1..).zip(costs) {
        assert_eq!(price(2, 2, fitted, &cascade), Ok(cost));
    }
    // The listing's cost is that with all fitted.
    assert!(listing(2, &cascade, 1_000).unwrap().starts_with(b"lines 2 gates 11 cost 21\n"));
}

/// The choice with the sets 1 to 7: D, E, D and E, N, D and N, E and N, all.
fn chosen(lines: u8, value: u8, first: &str, second: &str) -> [u8; 7] {
    let (first, second) = (gates(first), gates(second));
    [1, 2, 3, 4, 5, 6, 7].map(|fitted| {
        let which = choose(lines, value, fitted, &first, &second).expect("equal tables");
        let part = cheaper(lines, value, fitted, &first, &second);
        assert!(std::ptr::eq(part, if which == 1 { &first[..] } else { &second[..] }));
        which
    })
}

#[test]
fn choices_that_the_set_decides() {
    // 3 against 2, or 4 without E.
    let (cycles, swaps) = ("C1 x0, C1 x0, C1 x0", "E x0, E x0");
    assert_eq!(chosen(1, 2, cycles, swaps), [1, 2, 2, 1, 1, 2, 2]);
    assert_eq!(chosen(1, 2, swaps, cycles), [2, 1, 1, 2, 2, 1, 1]);
    // One gate against two: 2 against 2 if E is fitted and D isn't, and then the gates
    // decide; 2 against 3 with N alone; less than the two with D.
    assert_eq!(chosen(1, 0, "D x0", "C1 x0, E x0"), [1; 7]);
    assert_eq!(chosen(1, 0, "C1 x0, E x0", "D x0"), [2; 7]);
    // Both are N in two gates: where one of D and E is fitted and the other not, that one;
    // else the first.
    let (by_d, by_e) = ("C1 x0, D x0", "C2 x0, E x0");
    assert_eq!(chosen(1, 1, by_d, by_e), [1, 2, 1, 1, 1, 2, 1]);
    assert_eq!(chosen(1, 1, by_e, by_d), [2, 1, 1, 1, 2, 1, 1]);
    // Both are E: by D, by N.
    let (by_d, by_n) = ("C2 x0, D x0", "C1 x0, N x0");
    assert_eq!(chosen(1, 1, by_d, by_n), [1, 1, 1, 2, 1, 2, 1]);
    assert_eq!(chosen(1, 1, by_n, by_d), [2, 1, 2, 1, 1, 1, 1]);
    // 4 against 6 with N. Without, 6 against 6: the fewer gates.
    let (four, two) = ("N x0, C1 x0, C2 x0, N x0", "C1 x0 x1=0, C2 x0 x1=0");
    assert_eq!(chosen(2, 2, four, two), [2, 2, 2, 1, 1, 1, 1]);
    assert_eq!(chosen(2, 2, two, four), [1, 1, 1, 2, 2, 2, 2]);
    // Nothing costs nothing on any board.
    assert_eq!(chosen(1, 0, "", "N x0, N x0"), [1; 7]);
    assert_eq!(chosen(1, 0, "N x0, N x0", ""), [2; 7]);
    assert_eq!(chosen(1, 0, "", ""), [1; 7]);
}

/// Bytes that are mostly a cascade on so many lines.
fn some_bytes(numbers: &mut Numbers, lines: usize) -> Vec<u8> {
    let count = numbers.below(6);
    let mut bytes = numbers.dense_cascade(lines, count, 3, 40);
    match numbers.below(12) {
        0 => bytes.truncate(numbers.below(bytes.len() + 1)),
        1 => numbers.spoil_a_gate(lines, &mut bytes),
        _ => {}
    }
    bytes
}

/// Any numbers for the board, and cascades of which some are none.
#[test]
fn prices_and_choices_are_the_plain_readings() {
    let mut numbers = Numbers::from_seed(25);
    let (mut prices, mut choices) = ([0; 14], [0; 14]);
    for round in 0..40_000 {
        let lines = 1 + round % 3;
        let said = if numbers.one_in(12) { numbers.below(9) } else { lines } as u8;
        let value = if numbers.one_in(8) { numbers.byte() } else { numbers.below(3) as u8 };
        let fitted = match numbers.below(12) {
            0 => numbers.byte(),
            1 => numbers.pick(&[0, 8]),
            _ => 1 + numbers.below(7) as u8,
        };
        let first = some_bytes(&mut numbers, lines);
        let second = match numbers.below(3) {
            0 => some_bytes(&mut numbers, lines),
            _ => [first.clone(), numbers.there_and_back(lines, round % 2, 40)].concat(),
        };
        let cost = plainly(price(said, value, fitted, &first));
        assert_eq!(cost, plain::price(said, value, fitted, &first));
        let which = plainly(choose(said, value, fitted, &first, &second));
        assert_eq!(which, plain::choose(said, value, fitted, &first, &second));
        prices[cost.map_or_else(|(number, _)| number as usize, |_| 0)] += 1;
        choices[which.map_or_else(|(number, _)| number as usize, |_| 0)] += 1;
    }
    let met = |counts: [usize; 14]| (0..14).filter(|&k| counts[k] > 100).collect::<Vec<_>>();
    assert_eq!(met(prices), [0, 1, 6, 7, 10, 13]);
    assert_eq!(met(choices), [0, 1, 6, 7, 10, 11, 13]);
}

#[test]
fn the_listed_cases_answer_as_the_plain_reading() {
    let mut compared = [0; 2];
    for case in cases() {
        let (lines, value, fitted) = (case.lines, case.value, case.fitted);
        let (first, second) = (case.bytes(), case.more_bytes());
        let expected = match case.call {
            Call::Price => plain::price(lines, value, fitted, &first),
            Call::Choose => plain::choose(lines, value, fitted, &first, &second).map(u32::from),
            _ => {
                assert_eq!(fitted, 0, "a call that takes no set");
                continue;
            }
        };
        compared[(case.call == Call::Choose) as usize] += 1;
        let (number, place, answer) = match expected {
            Ok(answer) => (0, 0, answer),
            Err((number, place)) => (number, place, 0),
        };
        let start = format!("{} {number} {place} {answer} 0 0 ", case.call.number());
        assert!(case.line().starts_with(&start), "{start}");
    }
    assert!(compared.iter().all(|&cases| cases > 400), "{compared:?}");
}
