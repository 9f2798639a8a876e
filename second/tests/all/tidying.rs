//! Tidying against the plain procedure, and what the demands ask of it.
//! (That the two agree after every single step is tested in `steps`.)

use samples::Numbers;
use second::calls::Call;
use second::cascade::{check, price};
use second::cases::{cases, gates};
use second::tidying::Tidied;

use crate::calls::{computed, synthesized, tidy};
use crate::plain;

/// Tidies and compares with the plain procedure.
fn tidied(lines: usize, records: &[u8]) -> Tidied {
    let (answer, left) = tidy(lines as u8, records).expect("a cascade");
    let mut gates = plain::gates(lines, records);
    let steps = plain::tidy(&mut gates);
    assert_eq!(answer, Tidied { gates: gates.len(), steps });
    assert_eq!(left, plain::bytes(&gates));
    keeps_the_demands(lines, records, &left, steps);
    answer
}

/// The table stays, no count or cost rises, and the steps are few enough.
fn keeps_the_demands(lines: usize, records: &[u8], left: &[u8], steps: usize) {
    let n = lines as u8;
    assert_eq!(computed(n, records), computed(n, left));
    assert!(left.len() <= records.len());
    for value in 0..3 {
        for fitted in 1..=7 {
            let cost = |records| price(n, value, fitted, records).unwrap();
            assert!(cost(left) <= cost(records), "at {value} with {fitted}");
        }
    }
    let controls = plain::gates(lines, records)
        .iter()
        .map(|gate| gate.controls.iter().flatten().count())
        .sum::<usize>();
    assert!(steps <= records.len() / 8 + controls);
}

#[test]
fn random_cascades() {
    let mut numbers = Numbers::from_seed(12);
    let mut steps = 0;
    for round in 0..20_000 {
        let lines = 1 + round % 6;
        let count = numbers.below(40);
        let controls = [0, 10, 30, 60, 90, 100][numbers.below(6)];
        let records = numbers.cascade(lines, count, controls);
        steps += tidied(lines, &records).steps;
    }
    assert!(steps > 20_000, "{steps} steps");
}

#[test]
fn dense_cascades_on_few_lines() {
    let mut numbers = Numbers::from_seed(13);
    let mut steps = 0;
    for round in 0..12_000 {
        let lines = 1 + round % 3;
        let (count, kinds) = (numbers.below(60), 1 + numbers.below(12));
        let records = numbers.dense_cascade(lines, count, kinds, 60);
        steps += tidied(lines, &records).steps;
    }
    assert!(steps > 100_000, "{steps} steps");
}

#[test]
fn dense_cascades_on_more_lines() {
    let mut numbers = Numbers::from_seed(14);
    for round in 0..3_000 {
        let lines = 4 + round % 3;
        let (count, kinds) = (numbers.below(80), 1 + numbers.below(20));
        let records = numbers.dense_cascade(lines, count, kinds, 60);
        tidied(lines, &records);
    }
}

#[test]
fn long_dense_cascades() {
    let mut numbers = Numbers::from_seed(15);
    for round in 0..60 {
        let lines = 1 + round % 6;
        let kinds = [2, 3, 5, 9, 40][round / 6 % 5];
        let records = numbers.dense_cascade(lines, 300, kinds, 60);
        tidied(lines, &records);
    }
}

/// Every pair is open, and long chains of reductions follow.
#[test]
fn cascades_where_all_may_change_places() {
    let mut numbers = Numbers::from_seed(16);
    for round in 0..1_500 {
        let count = numbers.below(70);
        tidied(2 + round % 4, &numbers.passing_cascade(2 + round % 4, count, 80));
    }
}

#[test]
fn cascades_followed_by_their_inverse() {
    let mut numbers = Numbers::from_seed(17);
    for round in 0..600 {
        let lines = 1 + round % 6;
        let half = numbers.below(40);
        tidied(lines, &numbers.there_and_back(lines, half, 50));
    }
}

#[test]
fn synthesized_cascades() {
    let mut numbers = Numbers::from_seed(18);
    for lines in 1..=6 {
        for _ in 0..[0, 6, 100, 100, 20, 4, 1][lines] {
            let table = numbers.table(lines);
            let answer = tidied(lines, &synthesized(lines as u8, &table));
            assert!(answer.gates > 0 || lines == 1);
        }
    }
}

#[test]
fn nothing_open_fits_at_the_end() {
    let mut numbers = Numbers::from_seed(19);
    for round in 0..1_000 {
        let lines = 1 + round % 6;
        let records = numbers.dense_cascade(lines, 40, 6, 60);
        let (_, left) = tidy(lines as u8, &records).unwrap();
        assert!(!plain::has_fitting_open_pair(&plain::gates(lines, &left)));
        let again = Tidied { gates: left.len() / 8, steps: 0 };
        assert_eq!(tidy(lines as u8, &left), Ok((again, left)));
    }
}

#[test]
fn at_most_one_rule_fits_a_pair() {
    // All pairs of gates on three lines.
    let gates = plain::all_gates(3);
    for i in &gates {
        for j in &gates {
            let rules = [plain::cancels(i, j), plain::merges(i, j), plain::reduces(i, j).is_some()];
            assert!(rules.iter().filter(|&&fits| fits).count() <= 1);
            // A fitting pair may change places, and the rule is told by any order.
            if rules.contains(&true) {
                assert!(plain::may_change_places(i, j));
            }
            assert_eq!(rules[2], plain::reduces(j, i).is_some());
        }
    }
}

#[test]
fn gates_that_may_change_places_commute() {
    let gates = plain::all_gates(3);
    for one in &gates {
        for other in &gates {
            let may = plain::may_change_places(one, other);
            assert_eq!(may, plain::may_change_places(other, one));
            if may {
                for pattern in 0..27 {
                    let there = plain::apply(other, plain::apply(one, pattern));
                    let back = plain::apply(one, plain::apply(other, pattern));
                    assert_eq!(there, back);
                }
            }
        }
    }
}

/// What the sentences on openness leave room to misread.
#[test]
fn openness_is_about_gate_i_alone() {
    let left = |text: &str| {
        let (answer, left) = tidy(3, &gates(text)).unwrap();
        assert_eq!(plain::tidy(&mut plain::gates(3, &gates(text))), answer.steps);
        (answer.steps, left)
    };
    // Gate i passes the gate between, and so would gate j.
    assert_eq!(left("D x0, D x1 x0=0, D x0"), (1, gates("D x1 x0=0")));
    // D moves 1: neither passes.
    assert_eq!(left("D x0, D x1 x0=1, D x0").0, 0);
    // The target of the gate between is a control of gate i.
    assert_eq!(left("D x0 x1=1, N x1, D x0 x1=1"), (1, gates("N x1")));
    assert_eq!(left("D x0 x1=2, N x1, D x0 x1=2").0, 0);
    // Control reduction across a gate that i passes and j does not: E passes a
    // control of value 2 only, and gate i has it.
    assert_eq!(left("D x0 x1=2, E x1, D x0 x1=0"), (1, gates("D x0, E x1, D x0 x1=1")),);
    assert_eq!(left("D x0 x1=0, E x1, D x0 x1=2").0, 0);
    // Same target, one type, any controls: they pass each other.
    assert_eq!(left("C1 x0 x1=0, C2 x0 x2=2, C2 x0 x1=0"), (1, gates("C2 x0 x2=2")));
    // Gates that exclude each other by a control value still may not pass.
    assert_eq!(left("D x0 x2=0, N x0 x2=1, D x0 x2=0").0, 0);
}

#[test]
fn steps_start_again_from_row_0() {
    // Rows 1 and 2 cancel first; only then is row 0 free to merge.
    let given = gates("C1 x0, D x0, D x0, C1 x0");
    assert_eq!(tidy(1, &given), Ok((Tidied { gates: 1, steps: 2 }, gates("C2 x0"))));
    // The smallest i, then the smallest j: gate 0 meets gate 1, not gate 2.
    let given = gates("D x0 x1=0, D x0 x1=1, D x0 x1=0");
    let left = gates("D x0, D x0 x1=2, D x0 x1=0");
    let mut gates = plain::gates(2, &given);
    assert!(plain::step(&mut gates));
    assert_eq!(plain::bytes(&gates), left);
    tidied(2, &given);
}

#[test]
fn a_tidied_buffer_is_cut_by_the_caller() {
    let mut records = gates("E x0, D x0, D x0, N x0");
    let answer = second::tidying::tidy(1, &mut records).unwrap();
    assert_eq!(answer, Tidied { gates: 2, steps: 1 });
    assert_eq!(records, [gates("E x0, N x0"), vec![0; 16]].concat());
    // The zero records are no gates.
    let whole = second::cascade::check(1, &records).unwrap_err();
    assert_eq!((whole.number, whole.place), (7, 2));
    assert_eq!(second::cascade::check(1, &records[..16]), Ok(2));
}

/// Compares on the tidying cases that store so many bytes.
fn compare_cases(stored: std::ops::RangeInclusive<usize>) {
    let of_tidying = cases().into_iter().filter(|case| case.call == Call::Tidy);
    for case in of_tidying.filter(|case| stored.contains(&case.stored.len())) {
        if check(case.lines, &case.bytes()).is_ok() {
            tidied(case.lines as usize, &case.bytes());
        }
    }
}

#[test]
fn cases_of_few_gates() {
    compare_cases(0..=7_999);
}

#[test]
fn cases_of_a_thousand_gates_and_more() {
    compare_cases(8_000..=8_000);
}

/// The plain procedure takes some minutes for these.
#[test]
#[ignore]
fn cases_of_the_most_gates() {
    compare_cases(8_001..=64_000);
}

/// Cascades of the kinds that a search without memory takes minutes for when they
/// are long. The short ones are compared; of the long ones the demands are asked.
#[test]
fn worst_cascades() {
    for length in [150, 8_000] {
        for (lines, mut records) in worst(length) {
            records.truncate(8 * length);
            if length <= 1_000 {
                tidied(lines, &records);
            } else {
                let (answer, left) = tidy(lines as u8, &records).unwrap();
                keeps_the_demands(lines, &records, &left, answer.steps);
                assert!(answer.steps > 500);
            }
        }
    }
}

fn worst(length: usize) -> Vec<(usize, Vec<u8>)> {
    let mut numbers = Numbers::from_seed(20);
    let mut all = Vec::new();

    // Rows that pass everything and fit nothing, and fitting pairs behind them:
    // D on x0, with controls anywhere but on x1.
    let idle = idle_rows(length / 2);
    let behind = (0..length).flat_map(|_| {
        let mut gate = numbers.gate(6, 60);
        let target = gate[1] as usize;
        gate.swap(2, 2 + target);
        (gate[0], gate[1], gate[3]) = (4, 0, 3);
        gate
    });
    all.push((6, idle.iter().copied().chain(behind).collect()));

    // The same rows, and behind them pairs that fit only once all between them
    // have gone.
    let half = (length - idle.len() / 8) / 2;
    let behind: Vec<u8> = (0..half).flat_map(|_| pass_by_x1(numbers.gate(6, 50))).collect();
    all.push((6, [idle, behind.clone(), mirrored(6, &behind)].concat()));

    // Few gates over and over, most of them blocked by the next.
    for kinds in [2, 3, 6] {
        all.push((1, numbers.dense_cascade(1, length, kinds, 60)));
        all.push((3, numbers.dense_cascade(3, length, kinds, 60)));
    }
    let row = gates("E x0, D x0").repeat(length / 4);
    all.push((1, [row.clone(), mirrored(1, &row)].concat()));
    all
}

/// Gates on x1 that pass each other and fit none: E and any set of controls from
/// x2 to x5, with values that add up to a multiple of 3, so that two of one set
/// differ in two values at least.
fn idle_rows(most: usize) -> Vec<u8> {
    let rows = (0..256).map(|code| {
        let mut gate = [5, 1, 3, 3, 3, 3, 3, 3];
        for k in 0..4 {
            gate[4 + k] = (code >> (2 * k) & 3) as u8;
        }
        gate
    });
    let sum = |gate: &[u8; 8]| gate[4..].iter().filter(|&&value| value != 3).sum::<u8>();
    rows.filter(|gate| sum(gate) % 3 == 0).take(most).flatten().collect()
}

/// The gate without any part in x1.
fn pass_by_x1(mut gate: [u8; 8]) -> [u8; 8] {
    if gate[1] == 1 {
        (gate[1], gate[2]) = (0, 3);
    }
    gate[3] = 3;
    gate
}

/// The inverse cascade.
fn mirrored(lines: usize, records: &[u8]) -> Vec<u8> {
    let gates = plain::gates(lines, records);
    gates.iter().rev().flat_map(|gate| plain::encode(&plain::inverse(gate))).collect()
}
