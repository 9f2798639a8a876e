//! The printed text, and the program's.

use samples::Numbers;

use crate::calls::{listing, sheet, synthesized};
use crate::helpers::refused;
use crate::plain;
use second::cases::gates;

#[test]
fn any_cascade_is_listed_as_the_document_says() {
    let mut numbers = Numbers::from_seed(1);
    for round in 0..3_000 {
        let lines = 1 + round % 6;
        let gates = numbers.below(if round % 50 == 0 { 2_000 } else { 12 });
        let records = numbers.cascade(lines, gates, 50);
        let text = plain::listing(lines, &plain::gates(lines, &records)).into_bytes();
        assert_eq!(listing(lines as u8, &records, text.len()), Ok(text.clone()));
        assert_eq!(listing(lines as u8, &records, text.len() - 1), refused(5, text.len()));
    }
}

#[test]
fn the_longest_listing_has_248_031_bytes() {
    let dearest = gates("C1 x0 x1=0 x2=0 x3=0 x4=0 x5=0").repeat(8_000);
    assert_eq!(listing(6, &dearest, 248_030), refused(5, 248_031));
    let text = listing(6, &dearest, 248_031).unwrap();
    assert!(text.starts_with(b"lines 6 gates 8000 cost 680000\nC1 x0 x1=0 x2=0 x3=0 x4=0 x5=0\n"));
    assert!(text.ends_with(b"\nC1 x0 x1=0 x2=0 x3=0 x4=0 x5=0\n"));
}

#[test]
fn the_empty_listing_is_the_head_line() {
    assert_eq!(listing(4, &[], 100), Ok(b"lines 4 gates 0 cost 0\n".to_vec()));
}

fn table_file(lines: u8, table: &[u16]) -> Vec<u8> {
    let mut file = vec![lines];
    file.extend(table.iter().flat_map(|entry| entry.to_le_bytes()));
    file
}

fn text(file: &[u8]) -> String {
    String::from_utf8(second::sheet::text(file)).unwrap()
}

#[test]
fn the_program_lists_the_tables_cascade() {
    let mut numbers = Numbers::from_seed(2);
    for lines in 1..=6 {
        for _ in 0..10 {
            let table = numbers.table(lines);
            let gates = plain::gates(lines, &synthesized(lines as u8, &table));
            assert_eq!(text(&table_file(lines as u8, &table)), plain::listing(lines, &gates));
        }
    }
}

#[test]
fn the_program_prints_refusals() {
    let good = table_file(1, &[1, 2, 0]);
    assert_eq!(text(&good), "lines 1 gates 2 cost 2\nD x0\nE x0\n");

    assert_eq!(text(&[]), "refused 1 at 0\n");
    for lines in [0, 7, 255] {
        assert_eq!(text(&[lines]), "refused 1 at 0\n");
        assert_eq!(text(&table_file(lines, &[1, 2, 0])), "refused 1 at 0\n");
        assert_eq!(text(&[lines, 0]), "refused 1 at 0\n");
    }
    // Too short, too long, an odd number of bytes.
    for lines in 1..=6 {
        assert_eq!(text(&[lines]), "refused 2 at 0\n");
    }
    for length in 1..good.len() {
        assert_eq!(text(&good[..length]), "refused 2 at 0\n");
    }
    assert_eq!(text(&[&good[..], &[0]].concat()), "refused 2 at 0\n");
    assert_eq!(text(&[&good[..], &[0, 0]].concat()), "refused 2 at 0\n");
    let six: Vec<u16> = (0..729).collect();
    assert_eq!(text(&table_file(6, &six)), "lines 6 gates 0 cost 0\n");
    let longest = table_file(6, &six);
    for more in [1, 2, 3, 1_458, 1_000_000] {
        assert_eq!(text(&[&longest[..], &vec![0; more]].concat()), "refused 2 at 0\n");
    }
    // An odd length comes before bad entries.
    assert_eq!(text(&[1, 9, 9, 9, 9, 9, 9, 9]), "refused 2 at 0\n");

    assert_eq!(text(&table_file(1, &[0, 1, 3])), "refused 3 at 2\n");
    assert_eq!(text(&table_file(1, &[0, 1, 256])), "refused 3 at 2\n", "low byte first");
    assert_eq!(text(&table_file(1, &[0, 2, 2])), "refused 4 at 2\n");
    assert_eq!(text(&table_file(1, &[0, 0, 3])), "refused 3 at 2\n");
    let mut twin = six.clone();
    twin[728] = 727;
    assert_eq!(text(&table_file(6, &twin)), "refused 4 at 728\n");
}

#[test]
fn a_sheet_takes_the_room_of_its_text() {
    for file in [table_file(1, &[1, 2, 0]), table_file(2, &[0; 9]), vec![]] {
        let text = second::sheet::text(&file);
        assert_eq!(sheet(&file, text.len() - 1), refused(5, text.len()));
        assert_eq!(sheet(&file, text.len()), Ok(text.clone()));
        assert_eq!(sheet(&file, text.len() + 9), Ok(text));
    }
}
