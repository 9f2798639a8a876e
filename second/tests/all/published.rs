//! What the papers 000, 001 and 003 print, typed cell by cell, over the lines that the
//! proved library prints: the stored stdout of the vector program.

use std::sync::OnceLock;

use second::calls::Call;
use second::cases::{cases, gates};
use second::vectors::{Case, Digest};

use crate::helpers::{identity, ALL_FITTED};

/// The listed cases, each with the line that is stored for it.
fn stored() -> &'static Vec<(Case, String)> {
    static STORED: OnceLock<Vec<(Case, String)>> = OnceLock::new();
    STORED.get_or_init(|| {
        let path = concat!(env!("CARGO_MANIFEST_DIR"), "/../crates/vectors/stdout");
        let lines = std::fs::read_to_string(path).expect("the stored stdout");
        assert_eq!(lines.lines().count(), cases().len());
        cases().into_iter().zip(lines.lines().map(String::from)).collect()
    })
}

/// The words of the line that was printed for a cascade under a call. They start with
/// the call's number, the refusal and its place.
fn printed(call: Call, lines: u8, cascade: &[u8], more: impl Fn(&Case) -> bool) -> Vec<String> {
    let is_it = |case: &Case| {
        (case.call, case.lines, case.times) == (call, lines, 0)
            && case.stored == cascade
            && more(case)
    };
    let (_, line) = stored().iter().find(|(case, _)| is_it(case)).expect("a case");
    line.split(' ').map(String::from).collect()
}

/// An accepted answer's value.
fn value(words: &[String], number: usize) -> usize {
    assert_eq!(words[1], "0", "accepted");
    words[3 + number].parse().unwrap()
}

/// What gates on one line make of a digit.
fn after(text: &str, x: usize) -> usize {
    let words = printed(Call::Run, 1, &gates(text), |case| case.pattern as usize == x);
    value(&words, 0)
}

/// One after the other, the right one first as the papers write it.
fn both(outer: &str, inner: &str) -> [usize; 3] {
    [0, 1, 2].map(|x| after(&[inner, outer].map(bare).join(", "), x))
}

fn column(operator: &str) -> [usize; 3] {
    [0, 1, 2].map(|x| after(&bare(operator), x))
}

fn bare(operator: &str) -> String {
    format!("{operator} x0")
}

/// A printed table's rows, of which the first names the columns.
fn rows(table: &str) -> (Vec<&str>, Vec<Vec<&str>>) {
    let mut rows = table.lines().map(|row| row.split_whitespace().collect::<Vec<_>>());
    (rows.next().unwrap(), rows.collect())
}

#[test]
fn table_1_of_000_and_the_operators_of_001() {
    // 001 prints the same table on its page "3-valued Unary Operators".
    let (names, rows) = rows(
        "x C1 C2 N D E
         0 1  2  2 0 1
         1 2  0  1 2 0
         2 0  1  0 1 2",
    );
    for row in rows {
        for (name, cell) in names.iter().zip(&row).skip(1) {
            assert_eq!(after(&bare(name), row[0].parse().unwrap()).to_string(), *cell);
        }
    }
}

#[test]
fn identities_1_to_5_of_000() {
    // The equation, its left side, and the pairs on its right side.
    for (equation, single, pairs) in [
        (1, "C1", &[("C2", "C2")][..]),
        (2, "C2", &[("C1", "C1")]),
        (3, "D", &[("E", "C1"), ("N", "C2")]),
        (4, "E", &[("D", "C2"), ("N", "C1")]),
        (5, "N", &[("D", "C1"), ("E", "C2")]),
    ] {
        for (outer, inner) in pairs {
            assert_eq!(both(outer, inner), column(single), "equation {equation}");
            // Both sides were given to choose from, and are equal in cost: the single
            // gate is the second.
            let pair = gates(&[*inner, *outer].map(bare).join(", "));
            let words = printed(Call::Choose, 1, &pair, |case| {
                (case.value, case.fitted) == (0, ALL_FITTED)
                    && case.more_stored == gates(&bare(single))
            });
            assert_eq!(value(&words, 0), 2);
        }
    }
}

#[test]
fn inverses_of_000() {
    for (one, other) in [("C1", "C2"), ("C2", "C1"), ("D", "D"), ("E", "E"), ("N", "N")] {
        assert_eq!(both(one, other), [0, 1, 2]);
        let words = printed(Call::Invert, 1, &gates(&bare(one)), |_| true);
        assert_eq!(value(&words, 0), 1);
        assert_eq!(words[8], Digest::of(&gates(&bare(other))).to_string());
    }
}

#[test]
fn transition_options_of_000_and_001() {
    let printed: [(usize, usize, &[&str]); 6] = [
        (0, 1, &["C1", "E"]),
        (1, 0, &["C2", "E"]),
        (2, 0, &["C1", "N"]),
        (0, 2, &["C2", "N"]),
        (1, 2, &["D"]),
        (2, 1, &["D"]),
    ];
    for (from, to, options) in printed {
        // Nothing else makes the transition but a C that would move 0 too, which
        // the papers leave out between 1 and 2.
        let left_out = match (from, to) {
            (1, 2) => "C1",
            (2, 1) => "C2",
            _ => "none",
        };
        for operator in ["C1", "C2", "N", "D", "E"] {
            let able = after(&bare(operator), from) == to;
            assert_eq!(able, options.contains(&operator) || operator == left_out);
        }
    }
}

#[test]
fn cost_steps_of_000_and_001() {
    // 1, 1, 5, 15 for 0 to 3 controls, then 5 + 2 × the cost with one fewer.
    let steps = [1, 1, 5, 15, 5 + 2 * 15, 5 + 2 * (5 + 2 * 15)];
    for (controls, base) in steps.into_iter().enumerate() {
        for (at, global) in [0, 1, 2].iter().flat_map(|at| [0, 1, 2].map(|global| (*at, global))) {
            let text: String = (0..controls).map(|line| format!(" x{line}={at}")).collect();
            let cascade = gates(&format!("N x5{text}"));
            let words = printed(Call::Price, 6, &cascade, |case| {
                (case.value, case.fitted) == (global, ALL_FITTED)
            });
            // 2 more for each control that has not the global value.
            let more = if at == global { 0 } else { 2 * controls };
            assert_eq!(value(&words, 0), base + more);
        }
    }
    // Where every operator is available it costs the same.
    for operator in ["C1", "C2", "N", "D", "E"] {
        let cascade = gates(&format!("{operator} x1 x5=0"));
        let words = printed(Call::Price, 6, &cascade, |case| case.fitted == ALL_FITTED);
        assert_eq!(value(&words, 0), 1);
    }
}

/// 001's cost model: a gate type that isn't there is made of a pair, for 1 more.
#[test]
fn unavailable_gates_of_001() {
    let available = ["D", "E", "DE", "N", "DN", "EN", "DEN"];
    for (number, operator) in ["C1", "C2", "N", "D", "E"].into_iter().enumerate() {
        for (fitted, swaps) in (1..).zip(available) {
            let more = !(operator.starts_with('C') || swaps.contains(operator)) as usize;
            for (controls, base) in [1, 1, 5, 15, 35, 75].into_iter().enumerate() {
                let at = |line| (line + number) % 3;
                let text: String =
                    (0..controls).map(|line| format!(" x{line}={}", at(line))).collect();
                let cascade = gates(&format!("{operator} x5{text}"));
                let others = (0..controls).filter(|&line| at(line) != fitted as usize % 3).count();
                let words = printed(Call::Price, 6, &cascade, |case| {
                    (case.value, case.fitted) == (fitted % 3, fitted)
                });
                assert_eq!(value(&words, 0), base + 2 * others + more);
            }
        }
    }
}

/// 003's inverters as operators; the wire is no gate at all.
fn named(name: &str) -> &'static str {
    match name {
        "+1" => "C1 x0",
        "+2" => "C2 x0",
        "01" => "E x0",
        "02" => "N x0",
        "12" => "D x0",
        "-" => "",
        _ => panic!("no inverter {name}"),
    }
}

#[test]
fn table_1_of_003() {
    let (names, rows) = rows(
        "In - +1 +2 01 02 12
         0  0 1  2  1  2  0
         1  1 2  0  0  1  2
         2  2 0  1  2  0  1",
    );
    for row in rows {
        for (name, cell) in names.iter().zip(&row).skip(1) {
            assert_eq!(after(named(name), row[0].parse().unwrap()).to_string(), *cell);
        }
    }
}

/// By its own table 1, two of the transforms that 003 prints for an expected 0 don't
/// give 0: they are named by what the input is above 0, and their inverses do.
#[test]
fn table_2_of_003() {
    let (expected, rows) = rows(
        "x  0  1  2
         0  NA 01 02
         1  +1 NA 12
         2  +2 12 NA",
    );
    for row in rows {
        let x = row[0].parse().unwrap();
        for (to, cell) in expected.iter().zip(&row).skip(1) {
            let to: usize = to.parse().unwrap();
            match (*cell, x, to) {
                ("NA", ..) => assert_eq!(x, to),
                ("+1", 1, 0) => assert_eq!((after(named("+1"), 1), after(named("+2"), 1)), (2, 0)),
                ("+2", 2, 0) => assert_eq!((after(named("+2"), 2), after(named("+1"), 2)), (1, 0)),
                _ => assert_eq!(after(named(cell), x), to),
            }
        }
    }
}

#[test]
fn compatibility_chart_of_003() {
    let (names, rows) = rows(
        "   -   +1  +2  01  02  12
         -  yes yes yes yes yes yes
         +1 yes yes yes NO  NO  NO
         +2 yes yes yes NO  NO  NO
         01 yes NO  NO  yes NO  NO
         02 yes NO  NO  NO  yes NO
         12 yes NO  NO  NO  NO  yes",
    );
    let mut cells = 0;
    for row in rows {
        for (name, cell) in names.iter().zip(&row[1..]) {
            assert!(["yes", "NO"].contains(cell));
            assert_eq!(compatible(row[0], name), *cell == "yes");
            // With one target they may change places exactly then: the first goes
            // with its inverse behind the second.
            if row[0] != "-" {
                assert_eq!(steps_across(named(row[0]), named(name)), (*cell == "yes") as usize);
            }
            cells += 1;
        }
    }
    assert_eq!(cells, 36);
}

/// As 003 defines it: "the same or that combine to form a transform that is one of the
/// already seen transforms".
fn compatible(one: &str, other: &str) -> bool {
    let mut together = vec![named(one), named(other)];
    together.retain(|text| !text.is_empty());
    let together = together.join(", ");
    let combined = [0, 1, 2].map(|x| after(&together, x));
    let seen = ["-", one, other].map(|name| [0, 1, 2].map(|x| after(named(name), x)));
    one == other || seen.contains(&combined)
}

/// The steps of tidying a gate, another with its target, and the first's inverse.
fn steps_across(one: &str, other: &str) -> usize {
    let undo = match one {
        "C1 x0" => "C2 x0",
        "C2 x0" => "C1 x0",
        swap => swap,
    };
    let between = if other.is_empty() { String::new() } else { format!("{other} x2=0, ") };
    let cascade = gates(&format!("{one} x1=0, {between}{undo} x1=0"));
    value(&printed(Call::Tidy, 3, &cascade, |_| true), 1)
}

/// Checks a function of the papers: its table was accepted, and its cascade computes
/// it, told by the digest of the whole table that was printed.
fn has_its_cascade(lines: u8, function: impl Fn(&[usize]) -> Vec<usize>) {
    let pattern = |digits: &[usize]| digits.iter().rev().fold(0, |number, x| 3 * number + x);
    let digits = |pattern: usize| -> Vec<usize> {
        (0..lines as u32).map(|k| pattern / 3usize.pow(k) % 3).collect()
    };
    let table: Vec<u16> = identity(lines as usize)
        .iter()
        .map(|&p| pattern(&function(&digits(p as usize))) as u16)
        .collect();
    let bytes: Vec<u8> = table.iter().flat_map(|entry| entry.to_le_bytes()).collect();
    assert_eq!(printed(Call::CheckTable, lines, &bytes, |_| true)[1], "0");
    let found = crate::calls::synthesized(lines, &table);
    let words = printed(Call::Synthesize, lines, &bytes, |_| true);
    assert_eq!(value(&words, 0), found.len() / 8);
    let words = printed(Call::Tabulate, lines, &found, |_| true);
    assert_eq!(value(&words, 0), table.len());
    assert_eq!(words[8], Digest::of_entries(&table).to_string());
}

#[test]
fn full_adder_counter_and_rotation_of_000() {
    // "x0+ = sum[x0, x1, x2], x1+ = x1 ⊕ x2, x2+ = x2, x3+ = carry[x0, x1, x2] ⊕ x3".
    has_its_cascade(4, |x| {
        let sum = x[0] + x[1] + x[2];
        vec![sum % 3, (x[1] + x[2]) % 3, x[2], (sum / 3 + x[3]) % 3]
    });
    // "x3, x2, x1, x0 is incremented by the value of x4 and that result is taken
    // modulo 3^4".
    has_its_cascade(5, |x| {
        let number = x[0] + 3 * x[1] + 9 * x[2] + 27 * x[3] + x[4];
        vec![number % 3, number / 3 % 3, number / 9 % 3, number / 27 % 3, x[4]]
    });
    // "x3, x2, x1, x0 if x3 = 0, x3, x1, x0, x2 if x3 = 1, and x3, x0, x2, x1 if
    // x3 = 2": the highest line first, here the lowest.
    has_its_cascade(4, |x| match x[3] {
        0 => vec![x[0], x[1], x[2], 0],
        1 => vec![x[2], x[0], x[1], 1],
        _ => vec![x[1], x[2], x[0], 2],
    });
}

/// 003's vector and the list that document 01 prints for it.
#[test]
fn the_vector_of_003() {
    let table = [5u16, 6, 1, 7, 2, 3, 8, 0, 4];
    let bytes: Vec<u8> = table.iter().flat_map(|entry| entry.to_le_bytes()).collect();
    let words = printed(Call::Synthesize, 2, &bytes, |case| case.room == 8 * 14);
    assert_eq!(value(&words, 0), 11);
    let words = printed(Call::Sheet, 0, &[&[2][..], &bytes].concat(), |_| true);
    let text = "lines 2 gates 11 cost 21\nD x0 x1=2\nN x0 x1=2\nD x1 x0=1\nD x0 x1=2\n\
        D x1 x0=0\nN x1 x0=2\nD x0 x1=2\nN x1 x0=1\nE x0 x1=2\nE x1 x0=0\nN x0 x1=1\n";
    assert_eq!(value(&words, 0), text.len());
}
