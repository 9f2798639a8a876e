//! Figures over all 362,880 two-line tables, from an outside computation, and what the
//! plain reading says of costs.

use std::sync::OnceLock;

use second::cascade::run;
use second::digests::report;
use second::draws::Draws;
use second::synthesis::synthesize;
use second::tabulating::tabulate;
use second::tidying::tidy;

use crate::plain;

/// Goes to the next permutation in order; false after the last.
fn advance(table: &mut [u16]) -> bool {
    let Some(fall) = (0..table.len() - 1).rev().find(|&k| table[k] < table[k + 1]) else {
        return false;
    };
    let above = (fall + 1..table.len()).rev().find(|&k| table[k] > table[fall]).unwrap();
    table.swap(fall, above);
    table[fall + 1..].reverse();
    true
}

/// What is reported.
fn said() -> &'static str {
    static SAID: OnceLock<String> = OnceLock::new();
    SAID.get_or_init(|| report().unwrap())
}

/// The values that a name is given, one for each family.
fn values(name: &str) -> Vec<&'static str> {
    let of = |line: &'static str| line.strip_prefix(name)?.strip_prefix(' ');
    said().lines().filter_map(of).collect()
}

fn numbers(name: &str) -> Vec<u64> {
    values(name).iter().map(|number| number.parse().unwrap()).collect()
}

/// Plain costs at value 2 with D, with E and with N alone.
fn costs(lines: usize, records: &[u8]) -> [u64; 3] {
    let gates = plain::gates(lines, records);
    [1, 2, 4].map(|fitted| plain::cost(2, fitted, &gates) as u64)
}

fn add(sums: &mut [u64; 3], more: [u64; 3]) {
    sums.iter_mut().zip(more).for_each(|(sum, more)| *sum += more);
}

/// Synthesized, tidied and run; with the plain procedures too, which take their time,
/// if that is asked. Tells the costs before and after tidying.
fn check_both_ways(table: &[u16], plainly: bool) -> [[u64; 3]; 2] {
    let (mut room, mut computed) = ([0; 8 * 14], [0; 9]);
    let gates = synthesize(2, table, &mut room).unwrap();
    let cascade = &mut room[..8 * gates];
    tabulate(2, cascade, &mut computed).unwrap();
    assert_eq!(computed[..], *table);

    let before = cascade.to_vec();
    let answer = tidy(2, cascade).unwrap();
    let left = &cascade[..8 * answer.gates];
    assert_eq!(left != before, answer.steps > 0);
    tabulate(2, left, &mut computed).unwrap();
    assert_eq!(computed[..], *table);
    assert_eq!(run(2, left, 5), Ok(table[5]));

    if plainly {
        let mut gates = plain::synthesize(2, table);
        assert_eq!(before, plain::bytes(&gates));
        assert_eq!(plain::tidy(&mut gates), answer.steps);
        assert_eq!(left, plain::bytes(&gates));
    }
    [costs(2, &before), costs(2, left)]
}

#[test]
fn all_two_line_tables() {
    let mut table: Vec<u16> = (0..9).collect();
    let mut tables = 1;
    let mut sums = check_both_ways(&table, true);
    while advance(&mut table) {
        tables += 1;
        let more = check_both_ways(&table, tables % 11 == 0);
        sums.iter_mut().zip(more).for_each(|(sums, more)| add(sums, more));
    }
    assert_eq!(tables, 362_880);
    assert_eq!(costs_said("cost", 0), sums[0]);
    assert_eq!(costs_said("tidied cost", 0), sums[1]);
}

/// What is said of a family's costs with D, E and N alone.
fn costs_said(name: &str, family: usize) -> [u64; 3] {
    ["D", "E", "N"].map(|only| numbers(&format!("{name} with {only}"))[family])
}

/// The drawn families as they are before tidying: four of each kind, behind five of
/// tables.
#[test]
fn drawn_families_cost_what_the_plain_reading_says() {
    for lines in 3..=6 {
        let count = [1_000, 1_000, 500, 200][lines - 3];
        let (mut draws, mut sums) = (Draws::from_seed(100 + lines as u32), [0; 3]);
        (0..count).for_each(|_| add(&mut sums, costs(lines, &draws.cascade(lines, 60))));
        assert_eq!(costs_said("cost", 5 + lines - 3), sums);
        let (mut draws, mut sums) = (Draws::from_seed(200 + lines as u32), [0; 3]);
        (0..count).for_each(|_| add(&mut sums, costs(lines, &draws.dense_cascade(lines, 60, 8))));
        assert_eq!(costs_said("cost", 9 + lines - 3), sums);
    }
}

/// The report's first family is the same walk; the figures are from outside, where
/// nothing was told of operators that are not fitted.
#[test]
fn the_report_says_the_outside_figures() {
    let first = "\
tables 2
count 362880
gates 3236976
cost at 0 8612208
cost at 1 7794000
cost at 2 6252624
tidied gates 3209872
tidied cost at 0 8053072
tidied cost at 1 7603972
tidied cost at 2 5904668
steps 240400
changed 188142
most gates 14
with most gates 1024
";
    let told = said().lines().filter(|line| !line.contains("cost with")).take(14);
    assert_eq!(told.collect::<Vec<_>>(), first.lines().collect::<Vec<_>>());
    // The mean costs that were told, at 2, 1, 0, before and after tidying.
    for (sum, mean) in [
        (6_252_624, "17.230556"),
        (7_794_000, "21.478175"),
        (8_612_208, "23.732937"),
        (5_904_668, "16.271682"),
        (7_603_972, "20.954508"),
        (8_053_072, "22.192108"),
    ] {
        assert_eq!(format!("{:.6}", sum as f64 / 362_880.0), mean);
    }
}

/// All families are there, each with these lines behind its name.
#[test]
fn each_family_has_its_lines() {
    assert_eq!(values("tables"), ["2", "3", "4", "5", "6"]);
    for family in ["cascades", "dense", "long"] {
        assert_eq!(values(family), ["3", "4", "5", "6"]);
    }
    let names = "\
        count, gates, cost at 0, cost at 1, cost at 2, cost with D, cost with E, cost with N, \
        tidied gates, tidied cost at 0, tidied cost at 1, tidied cost at 2, \
        tidied cost with D, tidied cost with E, tidied cost with N, \
        steps, changed, most gates, with most gates, records, computed, inverse, left, kept";
    let lines: Vec<_> = said().lines().collect();
    assert_eq!(lines.len(), 17 * 25);
    for family in lines.chunks(25) {
        for (line, name) in family[1..].iter().zip(names.split(", ")) {
            assert_eq!(line.rsplit_once(' ').unwrap().0, name, "{}", family[0]);
        }
    }
}

/// Tidying keeps every table and makes none dearer; it finds something in each family,
/// and much in the long ones, which come last.
#[test]
fn tidying_keeps_tables_and_lowers_costs() {
    assert_eq!(values("computed"), values("kept"));
    for board in ["at 0", "at 1", "at 2", "with D", "with E", "with N"] {
        let [given, left] = ["cost", "tidied cost"].map(|name| numbers(&format!("{name} {board}")));
        assert!(given.iter().zip(&left).all(|(given, left)| left < given), "{board}");
    }
    let steps = numbers("steps");
    assert_eq!(steps.len(), 17);
    assert!(steps.iter().all(|&steps| steps > 0), "{steps:?}");
    assert!(steps[13..].iter().all(|&steps| steps > 20_000), "{steps:?}");
    assert_eq!(values("most gates")[13..], ["8000"; 4]);
}

/// Synthesis takes swaps alone, and what is left of swaps are swaps: of three boards
/// that have one each, two lack the operator of any gate.
#[test]
fn tables_cost_2_more_a_gate_on_the_three_boards_together() {
    for name in ["", "tidied "] {
        let [gates, all] = ["gates", "cost at 2"].map(|what| numbers(&format!("{name}{what}")));
        for family in 0..5 {
            let with_one = costs_said(&format!("{name}cost"), family);
            assert_eq!(with_one.iter().sum::<u64>(), 3 * all[family] + 2 * gates[family]);
        }
    }
}
