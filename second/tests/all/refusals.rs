//! Every refusal of every call, from both sides of its edge, and the order of
//! refusals where several apply. The calls of `calls` see to it that no lent
//! memory changes. For reading files see `refusals_of_files`, for reading lists `names`.

use second::answer::Refusal;
use second::cascade::{check, price, run};
use second::cases::{gates, RIGHT_RECORD, WRONG_RECORDS};
use second::choice::{cheaper, choose};
use second::table::check_table;

use crate::calls::{invert, listing, synthesize, tabulate, tidy, write_file, write_names};
use crate::helpers::{identity, refused, ALL_FITTED, BOUND, NO_LINES};
use crate::plain;

/// All calls on one cascade with ample room: what each answers, without its
/// values. Their refusals 1, 6 and 7 must agree.
fn all_on_one_cascade(lines: u8, bytes: &[u8]) -> Vec<Result<(), Refusal>> {
    let empty_or_same = if check(lines, bytes).is_ok() { bytes } else { &[] };
    vec![
        check(lines, bytes).map(drop),
        run(lines, bytes, 0).map(drop),
        tabulate(lines, bytes, 729).map(drop),
        invert(lines, bytes, 70_000).map(drop),
        price(lines, 2, ALL_FITTED, bytes).map(drop),
        tidy(lines, bytes).map(drop),
        choose(lines, 2, ALL_FITTED, bytes, empty_or_same).map(drop),
        choose(lines, 2, ALL_FITTED, empty_or_same, bytes).map(drop),
        write_file(lines, bytes, b"note", 70_000).map(drop),
        listing(lines, bytes, 300_000).map(drop),
        write_names(lines, bytes, 300_000).map(drop),
    ]
}

fn all_answer(lines: u8, bytes: &[u8], answer: Result<(), Refusal>) {
    for (call, given) in all_on_one_cascade(lines, bytes).into_iter().enumerate() {
        assert_eq!(given, answer, "call {call} on {lines} lines");
    }
}

#[test]
fn one_lines_from_1_to_6() {
    for lines in 1..=6 {
        all_answer(lines, &gates("D x0"), Ok(()));
        assert_eq!(check_table(lines, &identity(lines as usize)), Ok(()));
        assert_eq!(synthesize(lines, &identity(lines as usize), 8 * 4_010), Ok(vec![]));
    }
    for lines in NO_LINES {
        all_answer(lines, &gates("D x0"), refused(1, 0));
        all_answer(lines, &[], refused(1, 0));
        // Whatever else is wrong.
        all_answer(lines, &[0; 13], refused(1, 0));
        assert_eq!(price(lines, 3, 0, &[0; 13]), refused(1, 0));
        assert_eq!(choose(lines, 3, 0, &[0; 13], &[1]), refused(1, 0));
        assert_eq!(run(lines, &[], 729), refused(1, 0));
        assert_eq!(tabulate(lines, &[], 0), refused(1, 0));
        assert_eq!(write_file(lines, &[], &[0; 1_025], 0), refused(1, 0));
        assert_eq!(listing(lines, &[], 0), refused(1, 0));
        assert_eq!(write_names(lines, &[], 0), refused(1, 0));
        for table in [&[][..], &[0], &[9, 9, 9]] {
            assert_eq!(check_table(lines, table), refused(1, 0));
            assert_eq!(synthesize(lines, table, 0), refused(1, 0));
        }
    }
}

#[test]
fn two_the_table_has_one_entry_for_each_pattern() {
    for lines in 1..=6u8 {
        let size = 3usize.pow(lines as u32);
        for length in [0, 1, size - 1, size + 1, 3 * size, 2_000] {
            // The entries are bad as well, and the room is too small.
            let table = vec![u16::MAX; length];
            assert_eq!(check_table(lines, &table), refused(2, 0));
            assert_eq!(synthesize(lines, &table, 0), refused(2, 0));
        }
    }
}

#[test]
fn three_and_four_entries() {
    for lines in 1..=6u8 {
        let good = identity(lines as usize);
        let size = good.len();
        let bound = BOUND[lines as usize];
        let given = |table: &[u16]| {
            let answer = check_table(lines, table);
            assert_eq!(synthesize(lines, table, 8 * bound).map(|_| ()), answer);
            // 5 stands behind 3 and 4.
            let no_room = if answer.is_ok() { refused(5, bound) } else { answer };
            assert_eq!(synthesize(lines, table, 8 * bound - 8).map(|_| ()), no_room);
            answer
        };
        assert_eq!(given(&good), Ok(()));

        for place in [0, 1, size / 2, size - 1] {
            for entry in [size as u16, size as u16 + 1, 729, u16::MAX] {
                let mut table = good.clone();
                table[place] = entry;
                assert_eq!(given(&table), refused(3, place));
                table[size - 1] = entry;
                assert_eq!(given(&table), refused(3, place), "the first such entry");
                // A twin before it changes nothing.
                if place > 1 {
                    table[1] = table[0];
                    assert_eq!(given(&table), refused(3, place), "3 comes before 4");
                }
            }
        }
        for (place, entry) in [(1, 0), (2, 0), (2, 1), (size - 1, 0), (size - 1, size as u16 - 2)] {
            let mut table = good.clone();
            table[place] = entry;
            assert_eq!(given(&table), refused(4, place), "the later of the two");
        }
        // Every entry the same: the first twin is entry 1.
        assert_eq!(given(&vec![size as u16 - 1; size]), refused(4, 1));
    }
}

#[test]
fn five_synthesis_asks_the_bound_even_for_the_identity() {
    for lines in 1..=6u8 {
        let bound = BOUND[lines as usize];
        let table = identity(lines as usize);
        for room in [0, 7, 8 * bound - 8, 8 * bound - 1] {
            assert_eq!(synthesize(lines, &table, room), refused(5, bound));
        }
        for room in [8 * bound, 8 * bound + 5, 40_000] {
            assert_eq!(synthesize(lines, &table, room), Ok(vec![]));
        }
    }
}

#[test]
fn five_the_other_rooms() {
    let three = gates("D x0, C1 x1 x0=2, C2 x0");
    for lines in 2..=6u8 {
        let entries = 3usize.pow(lines as u32);
        assert_eq!(tabulate(lines, &three, entries - 1), refused(5, entries));
        assert_eq!(tabulate(lines, &three, 0), refused(5, entries));
        for room in [entries, entries + 1, 1_000] {
            assert_eq!(tabulate(lines, &three, room).map(|table| table.len()), Ok(entries));
        }
    }
    let inverse = gates("C1 x0, C2 x1 x0=2, D x0");
    for room in [0, 8, 16, 23] {
        assert_eq!(invert(2, &three, room), refused(5, 3));
    }
    for room in [24, 25, 31, 32, 1_000] {
        assert_eq!(invert(2, &three, room), Ok(inverse.clone()));
    }
    let text = b"lines 2 gates 3 cost 3\nD x0\nC1 x1 x0=2\nC2 x0\n";
    for room in [0, 1, text.len() - 1] {
        assert_eq!(listing(2, &three, room), refused(5, text.len()));
    }
    for room in [text.len(), text.len() + 1, 10_000] {
        assert_eq!(listing(2, &three, room), Ok(text.to_vec()));
    }
    let size = 4 + 24 + 8;
    for room in [0, 8, size - 1] {
        assert_eq!(write_file(2, &three, b"note", room), refused(5, size));
    }
    for room in [size, size + 1, 1_000] {
        assert_eq!(write_file(2, &three, b"note", room).map(|file| file.len()), Ok(size));
    }
    // Nothing to write needs no room.
    assert_eq!(invert(1, &[], 0), Ok(vec![]));
}

#[test]
fn six_whole_records_and_at_most_8000() {
    for (length, answer) in [
        (0, Ok(())),
        (1, refused(6, 0)),
        (7, refused(6, 0)),
        (8, Ok(())),
        (9, refused(6, 0)),
        (15, refused(6, 0)),
        (16, Ok(())),
        (63_992, Ok(())),
        (63_999, refused(6, 0)),
        (64_000, Ok(())),
        (64_001, refused(6, 0)),
        (64_007, refused(6, 0)),
        (64_008, refused(6, 0)),
        (640_000, refused(6, 0)),
    ] {
        let mut bytes = gates("D x0, N x0").repeat(40_000);
        bytes.truncate(length);
        all_answer(3, &bytes, answer);
        if answer.is_err() {
            // 6 comes before 7, 8 and 5.
            all_answer(3, &vec![0; length], refused(6, 0));
            assert_eq!(run(3, &bytes, 27), refused(6, 0));
            assert_eq!(tabulate(3, &bytes, 0), refused(6, 0));
            assert_eq!(invert(3, &bytes, 0), refused(6, 0));
            assert_eq!(listing(3, &bytes, 0), refused(6, 0));
            assert_eq!(write_names(3, &bytes, 0), refused(6, 0));
            assert_eq!(write_file(3, &bytes, &[0; 1_025], 0), refused(6, 0));
        }
    }
}

#[test]
fn seven_the_first_record_that_is_no_gate() {
    for lines in 2..=6 {
        // On two lines the control on x2 is too much.
        let answer = if lines == 2 { refused(7, 0) } else { Ok(()) };
        all_answer(lines, &RIGHT_RECORD, answer);
    }
    let lines = 4;
    for record in WRONG_RECORDS {
        for place in [0, 1, 5, 7_999] {
            let mut bytes = RIGHT_RECORD.repeat(8_000);
            bytes[8 * place..8 * place + 8].copy_from_slice(&record);
            all_answer(lines, &bytes, refused(7, place));
            // A later one doesn't count; 8 and 5 and the note's 9 come after.
            bytes[8 * 7_999..].copy_from_slice(&record);
            all_answer(lines, &bytes, refused(7, place));
            assert_eq!(run(lines, &bytes, 81), refused(7, place));
            assert_eq!(tabulate(lines, &bytes, 0), refused(7, place));
            assert_eq!(invert(lines, &bytes, 0), refused(7, place));
            assert_eq!(listing(lines, &bytes, 0), refused(7, place));
            assert_eq!(write_names(lines, &bytes, 0), refused(7, place));
            assert_eq!(write_file(lines, &bytes, &[0; 1_025], 0), refused(7, place));
        }
    }
}

#[test]
fn seven_over_all_records_of_small_bytes() {
    let mut gates = [0; 7];
    for code in 0..7 * 7 * 5usize.pow(6) {
        let mut record = [0; 8];
        record[0] = (code % 7) as u8;
        record[1] = (code / 7 % 7) as u8;
        for line in 0..6 {
            record[2 + line] = (code / 49 / 5usize.pow(line as u32) % 5) as u8;
        }
        for lines in 1..=6 {
            let accepted = check(lines as u8, &record).is_ok();
            assert_eq!(accepted, plain::decode(lines, &record).is_some());
            gates[lines] += accepted as usize;
        }
    }
    // Five operators, n targets, and a value or none for each other line.
    assert_eq!(gates, [0, 5, 5 * 2 * 4, 5 * 3 * 16, 5 * 4 * 64, 5 * 5 * 256, 5 * 6 * 1_024]);
}

#[test]
fn eight_the_pattern_is_below_3_to_the_n() {
    for lines in 1..=6u8 {
        let end = 3u16.pow(lines as u32);
        for pattern in [0, 1, 2, end / 2, end - 1] {
            assert_eq!(run(lines, &[], pattern), Ok(pattern));
        }
        for pattern in [end, end + 1, 729, 730, u16::MAX] {
            assert_eq!(run(lines, &[], pattern), refused(8, 0));
            assert_eq!(run(lines, &gates("C1 x0, N x0"), pattern), refused(8, 0));
        }
    }
}

#[test]
fn nine_the_note_has_at_most_1024_bytes() {
    let two = gates("D x0, E x0");
    for (length, answer) in
        [(0, Ok(24)), (1, Ok(25)), (1_023, Ok(1_047)), (1_024, Ok(1_048)), (1_025, refused(9, 0))]
    {
        let note = vec![7; length];
        assert_eq!(write_file(1, &two, &note, 70_000).map(|file| file.len()), answer);
        // 9 before 5.
        let without_room = answer.and_then(|size| refused::<usize>(5, size));
        assert_eq!(write_file(1, &two, &note, 0).map(|file| file.len()), without_room);
    }
    assert_eq!(write_file(1, &two, &[0; 100_000], 0), refused(9, 0));
    // The longest file.
    let longest = gates("D x0").repeat(8_000);
    assert_eq!(write_file(1, &longest, &[0; 1_024], 65_031), refused(5, 65_032));
    assert_eq!(write_file(1, &longest, &[0; 1_024], 65_032).map(|file| file.len()), Ok(65_032));
}

#[test]
fn ten_the_global_value_is_at_most_2() {
    let gates = gates("D x0 x1=2");
    for value in 0..=2 {
        assert!(price(2, value, ALL_FITTED, &gates).is_ok());
        assert!(choose(2, value, ALL_FITTED, &gates, &gates).is_ok());
    }
    for value in [3, 4, 255] {
        // 10 comes before 13, 6, 7 and 11.
        for bytes in [&gates[..], &[], &gates[..7], &[0; 8]] {
            for fitted in [ALL_FITTED, 0, 8] {
                assert_eq!(price(2, value, fitted, bytes), refused(10, 0));
                assert_eq!(choose(2, value, fitted, bytes, bytes), refused(10, 0));
                assert_eq!(choose(2, value, fitted, &[], bytes), refused(10, 0));
            }
        }
    }
}

#[test]
fn thirteen_the_set_has_one_of_d_e_n_and_nothing_else() {
    let gates = gates("D x0 x1=2");
    for fitted in 0..=255 {
        let asked = if (1..=7).contains(&fitted) { Ok(()) } else { refused(13, 0) };
        for value in 0..=2 {
            assert_eq!(price(2, value, fitted, &gates).map(drop), asked, "{fitted}");
            assert_eq!(choose(2, value, fitted, &gates, &gates).map(drop), asked, "{fitted}");
        }
    }
    for fitted in [0, 8, 255] {
        // 13 comes before 6, 7 and 11, whichever cascade they are of.
        for bytes in [&gates[..], &[], &gates[..7], &[0; 8]] {
            assert_eq!(price(2, 0, fitted, bytes), refused(13, 0));
            assert_eq!(choose(2, 0, fitted, bytes, &gates), refused(13, 0));
            assert_eq!(choose(2, 0, fitted, &gates, bytes), refused(13, 0));
        }
        // 1 and 10 come before 13.
        assert_eq!(price(7, 0, fitted, &gates), refused(1, 0));
        assert_eq!(choose(7, 0, fitted, &gates, &gates), refused(1, 0));
        assert_eq!(price(2, 3, fitted, &gates), refused(10, 0));
        assert_eq!(choose(2, 3, fitted, &gates, &gates), refused(10, 0));
    }
}

#[test]
fn eleven_and_the_order_of_the_two_cascades() {
    let (good, other) = (gates("D x0, N x1 x0=2"), gates("D x0"));
    let odd = &good[..9];
    let bad = [&other[..], &[0; 8], &other[..]].concat();
    assert_eq!(choose(2, 0, ALL_FITTED, &good, &good), Ok(1));
    // The first input on which they differ: x0 is 2 after D where it was 1.
    assert_eq!(choose(2, 0, ALL_FITTED, &good, &other), refused(11, 1));
    assert_eq!(choose(2, 0, ALL_FITTED, &other, &good), refused(11, 1));

    assert_eq!(choose(2, 0, ALL_FITTED, odd, &good), refused(6, 0));
    assert_eq!(choose(2, 0, ALL_FITTED, &bad, &good), refused(7, 1));
    assert_eq!(choose(2, 0, ALL_FITTED, &good, odd), refused(6, 0));
    assert_eq!(choose(2, 0, ALL_FITTED, &good, &bad), refused(7, 1));
    assert_eq!(
        choose(2, 0, ALL_FITTED, &bad, odd),
        refused(7, 1),
        "both for the first, then the second"
    );
    assert_eq!(choose(2, 0, ALL_FITTED, odd, &bad), refused(6, 0));
    assert_eq!(choose(2, 0, ALL_FITTED, &other, &bad), refused(7, 1), "7 before 11");
}

#[test]
fn a_refusal_hands_back_the_first_cascades_empty_part() {
    let (first, second) = (gates("D x0, N x1 x0=2"), gates("D x0"));
    let refusals = [
        (0, 0, 7, &first[..], &first[..]),
        (2, 3, 7, &first, &first),
        (2, 0, 8, &first, &first),
        (2, 0, 7, &first[..9], &second),
        (2, 0, 7, &first, &second[..7]),
        (2, 0, 7, &first, &[0; 8]),
        (2, 0, 7, &first, &second),
    ];
    for (lines, value, fitted, one, other) in refusals {
        assert!(choose(lines, value, fitted, one, other).is_err());
        let part = cheaper(lines, value, fitted, one, other);
        assert!(part.is_empty() && std::ptr::eq(part.as_ptr(), one.as_ptr()));
    }
}
