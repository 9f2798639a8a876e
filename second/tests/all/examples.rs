//! The worked examples of document 01. They read as with all operators fitted.

use second::cascade::{check, price, run};
use second::cases::gates;
use second::gate::Operator;
use second::tidying::Tidied;

use crate::calls::{computed, listing, synthesize, synthesized, tidy};
use crate::helpers::{identity, refused, ALL_FITTED, BOUND};

const VECTOR_OF_003: [u16; 9] = [5, 6, 1, 7, 2, 3, 8, 0, 4];

const LISTING_OF_003: &str = "\
lines 2 gates 11 cost 21
D x0 x1=2
N x0 x1=2
D x1 x0=1
D x0 x1=2
D x1 x0=0
N x1 x0=2
D x0 x1=2
N x1 x0=1
E x0 x1=2
E x1 x0=0
N x0 x1=1
";

#[test]
fn the_operators_are_the_printed_table() {
    let printed = "\
        0 1 2 2 0 1
        1 2 0 1 2 0
        2 0 1 0 1 2";
    for row in printed.lines() {
        let row: Vec<u8> = row.split_whitespace().map(|word| word.parse().unwrap()).collect();
        for (operator, &after) in Operator::ALL.into_iter().zip(&row[1..]) {
            assert_eq!(operator.act(row[0]), after);
            assert_eq!(operator.inverse().act(after), row[0]);
        }
    }
    assert_eq!(Operator::ALL.map(Operator::name), ["C1", "C2", "N", "D", "E"]);
    assert_eq!(Operator::ALL.map(Operator::number), [1, 2, 3, 4, 5]);
}

#[test]
fn the_vector_of_003_gives_the_eleven_gates() {
    let gates = synthesized(2, &VECTOR_OF_003);
    assert_eq!(listing(2, &gates, 10_000), Ok(LISTING_OF_003.as_bytes().to_vec()));
    assert_eq!(computed(2, &gates), VECTOR_OF_003);

    let mut table_file = vec![2];
    table_file.extend(VECTOR_OF_003.iter().flat_map(|entry| entry.to_le_bytes()));
    assert_eq!(second::sheet::text(&table_file), LISTING_OF_003.as_bytes());
    // Tidying finds nothing in it.
    assert_eq!(tidy(2, &gates), Ok((Tidied { gates: 11, steps: 0 }, gates)));
}

#[test]
fn the_room_asked_is_the_printed_bound() {
    for lines in 1..=6u8 {
        let bound = BOUND[lines as usize];
        let table = identity(lines as usize);
        assert_eq!(synthesize(lines, &table, 8 * bound), Ok(vec![]));
        assert_eq!(synthesize(lines, &table, 8 * bound - 1), refused(5, bound));
    }
}

#[test]
fn p1_the_identity_takes_no_gates() {
    assert_eq!(synthesized(1, &[0, 1, 2]), []);
    assert_eq!(price(1, 2, ALL_FITTED, &[]), Ok(0));
    assert_eq!(second::sheet::text(&[1, 0, 0, 1, 0, 2, 0]), b"lines 1 gates 0 cost 0\n");
}

#[test]
fn p2_the_bound_on_one_line() {
    let found = synthesized(1, &[1, 2, 0]);
    assert_eq!(found, gates("D x0, E x0"));
    assert_eq!(price(1, 2, ALL_FITTED, &found), Ok(2));
    assert_eq!(found.len(), 8 * BOUND[1]);
    assert_eq!(listing(1, &found, 100), Ok(b"lines 1 gates 2 cost 2\nD x0\nE x0\n".to_vec()));
}

#[test]
fn p3_to_p7_tables_that_are_refused() {
    let given = |lines, table: &[u16]| {
        let answer = synthesize(lines, table, 8 * 4_010);
        assert_eq!(second::table::check_table(lines, table), answer.clone().map(|_| ()));
        answer
    };
    assert_eq!(given(1, &[0, 1, 3]), refused(3, 2), "P3");
    assert_eq!(given(1, &[0, 0, 1]), refused(4, 1), "P4");
    assert_eq!(given(1, &[0, 0, 3]), refused(3, 2), "P5");
    assert_eq!(given(1, &[0, 1]), refused(2, 0), "P6");
    assert_eq!(given(0, &[]), refused(1, 0), "P7");
    assert_eq!(given(7, &identity(7)), refused(1, 0), "P7");
}

/// Tidies to these gates in so many steps.
fn tidies(lines: u8, given: &str, left: &str, steps: usize) {
    let (given, left) = (gates(given), gates(left));
    assert_eq!(tidy(lines, &given), Ok((Tidied { gates: left.len() / 8, steps }, left.clone())));
    assert_eq!(computed(lines, &given), computed(lines, &left));
}

#[test]
fn p8_merge_and_p9_cancel() {
    tidies(1, "C1 x0, C1 x0", "C2 x0", 1);
    tidies(1, "C1 x0, C2 x0", "", 1);
}

#[test]
fn p10_and_p11_control_reduction() {
    tidies(2, "C1 x0 x1=0, C1 x0 x1=1", "C1 x0, C2 x0 x1=2", 1);
    assert_eq!(price(2, 2, ALL_FITTED, &gates("C1 x0 x1=0, C1 x0 x1=1")), Ok(6));
    assert_eq!(price(2, 2, ALL_FITTED, &gates("C1 x0, C2 x0 x1=2")), Ok(2));

    tidies(2, "D x0 x1=0, D x0 x1=2", "D x0, D x0 x1=1", 1);
    assert_eq!(price(2, 2, ALL_FITTED, &gates("D x0 x1=0, D x0 x1=2")), Ok(4));
    assert_eq!(price(2, 2, ALL_FITTED, &gates("D x0, D x0 x1=1")), Ok(4));
}

#[test]
fn p12_e_passes_a_control_of_value_2_and_p13_n_does_not() {
    tidies(2, "E x1, D x0 x1=2, E x1", "D x0 x1=2", 1);
    tidies(2, "N x1, D x0 x1=2, N x1", "N x1, D x0 x1=2, N x1", 0);
}

#[test]
fn empty_and_one_gate_cascades_tidy_to_themselves() {
    tidies(1, "", "", 0);
    for gate in ["C1 x0", "C2 x5 x0=0 x1=1 x2=2 x3=0 x4=1", "N x3 x1=2", "D x1", "E x2 x5=0"] {
        tidies(6, gate, gate, 0);
    }
}

#[test]
fn room_13_at_n_2_and_8001_gates() {
    assert_eq!(synthesize(2, &VECTOR_OF_003, 8 * 13), refused(5, 14));
    assert_eq!(synthesize(2, &VECTOR_OF_003, 8 * 13 + 7), refused(5, 14));
    assert!(synthesize(2, &VECTOR_OF_003, 8 * 14).is_ok());

    let gates = |count| gates("N x0").repeat(count);
    assert_eq!(check(1, &gates(8_000)), Ok(8_000));
    assert_eq!(check(1, &gates(8_001)), refused(6, 0));
}

#[test]
fn base_prices() {
    // Every control at the global value.
    let gate = ["C1 x5", " x0=1", " x1=1", " x2=1", " x3=1", " x4=1"];
    for (controls, price_asked) in [1, 1, 5, 15, 35, 75].into_iter().enumerate() {
        let gate = gates(&gate[..=controls].concat());
        assert_eq!(price(6, 1, ALL_FITTED, &gate), Ok(price_asked));
        // And every control off it.
        assert_eq!(price(6, 0, ALL_FITTED, &gate), Ok(price_asked + 2 * controls as u32));
        assert_eq!(price(6, 2, ALL_FITTED, &gate), Ok(price_asked + 2 * controls as u32));
    }
    assert_eq!(price(6, 2, ALL_FITTED, &gates("C1 x5 x0=0 x1=1 x2=2")), Ok(15 + 4));
    // The dearest cascade.
    let dearest = gates("D x0 x1=0 x2=0 x3=0 x4=0 x5=0").repeat(8_000);
    assert_eq!(price(6, 2, ALL_FITTED, &dearest), Ok(680_000));
}

mod known_ways_to_get_it_wrong {
    use super::*;

    #[test]
    fn listing_the_gates_in_the_order_found() {
        assert_eq!(synthesized(1, &[1, 2, 0]), gates("D x0, E x0"));
        assert_eq!(computed(1, &gates("E x0, D x0")), [2, 0, 1]);
    }

    #[test]
    fn using_c2_for_2_to_1() {
        // Row 1 of 0 2 1: D moves 2 and 1 only, C2 would move 0.
        assert_eq!(synthesized(1, &[0, 2, 1]), gates("D x0"));
        assert_eq!(run(1, &gates("C2 x0"), 0), Ok(2));
        assert_eq!(run(1, &gates("C2 x0"), 2), Ok(1));
    }

    #[test]
    fn control_reduction_that_ends_the_wrong_way_round() {
        let given = gates("C1 x0 x1=0, C1 x0 x1=1");
        let wrong = gates("C2 x0, C1 x0 x1=2");
        assert_ne!(computed(2, &given), computed(2, &wrong));
        assert_ne!(tidy(2, &given).unwrap().1, wrong);
    }

    #[test]
    fn control_reduction_of_a_c1_with_a_c2() {
        tidies(2, "C1 x0 x1=0, C2 x0 x1=1", "C1 x0 x1=0, C2 x0 x1=1", 0);
    }

    #[test]
    fn letting_n_pass_a_control_of_value_2() {
        tidies(2, "N x1, D x0 x1=2, N x1", "N x1, D x0 x1=2, N x1", 0);
        tidies(2, "N x1, D x0 x1=1, N x1", "D x0 x1=1", 1);
    }

    #[test]
    fn changing_from_the_highest_line_downward() {
        // Row 1 of a table with entry 1 equal to 6, which is 0 on x0 and 2 on x1.
        // From x0 upward 6 goes to 7, then to 1. Downward it would go to 0 first,
        // and row 0 holds that already.
        let mut table = identity(2);
        table.swap(1, 6);
        let found = synthesized(2, &table);
        assert_eq!(found[found.len() - 16..], gates("N x1 x0=1, E x0 x1=2"));
        assert_eq!(computed(2, &found), table);
    }
}
