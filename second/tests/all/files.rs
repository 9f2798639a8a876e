//! Cascade files there and back, damaged files, and readers good and made up.

use samples::Numbers;
use second::answer::Answer;
use second::cases::gates;
use second::file::{next, opening, Contents, Opening, Reader};
use second::gate::Gate;
use second::pattern::Lines;

use crate::calls::{read_file, write_file};
use crate::helpers::refused;
use crate::plain;

/// A record that is known to be good.
fn gate(lines: u8, record: &[u8]) -> Gate {
    Gate::read(Lines::check(lines).unwrap(), record.try_into().unwrap()).unwrap()
}

#[test]
fn a_file_byte_for_byte() {
    let file = write_file(3, &gates("D x0 x2=1, C2 x1"), b"AB", 100).unwrap();
    #[rustfmt::skip]
    assert_eq!(file, [
        b'A', b'B',
        4, 0, 3, 3, 1, 3, 3, 3,
        2, 1, 3, 3, 3, 3, 3, 3,
        16, 0, 0, 0, 2, 0, 3, 1,
    ]);
    assert_eq!(write_file(6, &[], b"", 8), Ok(vec![0, 0, 0, 0, 0, 0, 6, 1]));
    // 8,000 gates: 64,000 is 0xfa00 and 8,000 is 0x1f40.
    let file = write_file(1, &gates("E x0").repeat(8_000), b"", 70_000).unwrap();
    assert_eq!(file[64_000..], [0x00, 0xfa, 0, 0, 0x40, 0x1f, 1, 1]);
}

#[test]
fn what_was_written_reads_back() {
    let mut numbers = Numbers::from_seed(1);
    for _ in 0..2_000 {
        let lines = 1 + numbers.below(6);
        let gates = numbers.below(20);
        let records = numbers.cascade(lines, gates, 60);
        let longest = [20, 20, 20, 1_024][numbers.below(4)];
        let length = numbers.below(longest + 1);
        let note = numbers.bytes(length);
        let file = write_file(lines as u8, &records, &note, 2_000).unwrap();
        assert_eq!(file, plain::write_file(lines as u8, &records, &note));
        let contents = Contents { lines: lines as u8, gates, note: length };
        assert_eq!(read_file(&file, 8 * gates, length), Ok((contents, records, note)));
    }
}

/// A file with a byte or two changed, or cut, or as it was written.
fn some_file(numbers: &mut Numbers) -> Vec<u8> {
    let (lines, gates, note) = (1 + numbers.below(6), numbers.below(6), numbers.below(12));
    let note = numbers.bytes(note);
    let mut file = plain::write_file(lines as u8, &numbers.cascade(lines, gates, 50), &note);
    for _ in 0..numbers.below(3) {
        numbers.change_a_byte(&mut file);
    }
    match numbers.below(6) {
        0 => file.truncate(numbers.below(file.len())),
        1 => drop(file.drain(..numbers.below(file.len()))),
        _ => {}
    }
    file
}

#[test]
fn an_accepted_file_writes_back_to_the_same_bytes() {
    let mut numbers = Numbers::from_seed(2);
    let (mut accepted, mut refused) = (0, 0);
    for _ in 0..40_000 {
        let file = some_file(&mut numbers);
        let plainly = plain::read_file(&file);
        let answer = read_file(&file, 70_000, 2_000);
        match (plainly, answer) {
            (Ok(plainly), Ok((found, records, note))) => {
                accepted += 1;
                assert_eq!(
                    (found.lines, &records[..], &note[..]),
                    (plainly.lines, plainly.records, plainly.note)
                );
                assert_eq!(write_file(found.lines, &records, &note, 70_000), Ok(file.clone()));
                let start = note.len();
                let end = start + records.len();
                assert_eq!(opening(&file), Ok(Opening { lines: found.lines, place: start, end }));
            }
            (Err((number, place)), Err(refusal)) => {
                refused += 1;
                assert_eq!((refusal.number, refusal.place), (number, place));
                assert_eq!(opening(&file), Err(refusal));
            }
            (plainly, answer) => panic!("{:?} against {answer:?}", plainly.map(|read| read.lines)),
        }
    }
    assert!(accepted > 10_000 && refused > 10_000, "{accepted} accepted, {refused} refused");
}

#[test]
fn a_reader_hands_out_the_gates_and_stays_at_the_end() {
    let mut numbers = Numbers::from_seed(3);
    for _ in 0..500 {
        let lines = 1 + numbers.below(6) as u8;
        let count = numbers.below(12);
        let records = numbers.cascade(lines as usize, count, 60);
        let length = numbers.below(30);
        let note = numbers.bytes(length);
        let file = write_file(lines, &records, &note, 2_000).unwrap();

        let mut reader = Reader::open(&file);
        assert!(std::ptr::eq(reader.file, &file[..]), "it keeps hold of the file's own bytes");
        assert_eq!((reader.lines, reader.place), (lines, note.len()));
        assert_eq!(reader.end, note.len() + records.len());
        for record in records.chunks(8) {
            let place = reader.place;
            assert_eq!(reader.next(), Ok(Some(gate(lines, record))));
            assert_eq!(reader.place, place + 8);
        }
        let at_end = reader;
        assert_eq!(at_end.place, at_end.end);
        for _ in 0..3 {
            assert_eq!(reader.next(), Ok(None));
            assert_eq!(reader, at_end);
        }
    }
}

#[test]
fn a_refused_opening_is_a_reader_of_nothing() {
    let good = write_file(2, &gates("D x0"), b"n", 100).unwrap();
    for change in 0..good.len() - 8 {
        let mut file = good.clone();
        file[change + 1] = 9;
        assert!(opening(&file).is_err());
        let mut reader = Reader::open(&file);
        let nothing = Reader { file: &file[..0], lines: 0, place: 0, end: 0 };
        assert_eq!(reader, nothing);
        assert!(std::ptr::eq(reader.file.as_ptr(), file.as_ptr()), "the part at the file's start");
        assert_eq!(reader.next(), refused(1, 0));
        assert_eq!(reader, nothing);
    }
}

/// The next gate by place. The reader that holds the file says the same and moves
/// past gates only.
fn read_both(file: &[u8], lines: u8, place: usize, end: usize) -> Answer<Option<Gate>> {
    let answer = next(file, lines, place, end);
    let before = Reader { file, lines, place, end };
    let mut reader = before;
    assert_eq!(reader.next(), answer);
    let moved = Reader { place: place.wrapping_add(8), ..before };
    assert_eq!(reader, if let Ok(Some(_)) = answer { moved } else { before });
    answer
}

#[test]
fn made_up_readers() {
    // 0 to 2 a note, 3 to 18 two records, 19 to 26 the trailer.
    let file = write_file(2, &gates("D x0, C1 x1 x0=2"), b"abc", 100).unwrap();
    let first = gate(2, &file[3..11]);
    let second = gate(2, &file[11..19]);
    let given = |lines, place, end| read_both(&file, lines, place, end);
    assert_eq!(given(2, 3, 19), Ok(Some(first)));
    assert_eq!(given(2, 11, 19), Ok(Some(second)));
    // The smaller of the two ends counts.
    assert_eq!(given(2, 11, 20), Ok(Some(second)));
    assert_eq!(given(2, 11, 27), Ok(Some(second)));
    assert_eq!(given(2, 11, 1_000), Ok(Some(second)));
    assert_eq!(given(2, 11, usize::MAX), Ok(Some(second)));
    assert_eq!(given(2, 11, 18), Ok(None), "no whole record before that offset");
    assert_eq!(given(2, 12, 19), Ok(None));
    assert_eq!(given(2, 3, 3), Ok(None));
    assert_eq!(given(2, 3, 0), Ok(None), "an end before the place");
    assert_eq!(given(2, 19, 19), Ok(None));
    assert_eq!(given(2, 20, 1_000), Ok(None), "no whole record before the file's end");
    assert_eq!(given(2, 27, 1_000), Ok(None));
    assert_eq!(given(2, 28, 1_000), Ok(None));

    // In the note, inside a record, in the trailer: 7 with the byte offset.
    assert_eq!(given(2, 0, 1_000), refused(7, 0));
    assert_eq!(given(2, 4, 1_000), refused(7, 4));
    assert_eq!(given(2, 19, 1_000), refused(7, 19));
    // With other lines the bytes read otherwise.
    assert_eq!(given(1, 3, 19), Ok(Some(first)));
    assert_eq!(given(1, 11, 19), refused(7, 11));
    assert_eq!(given(6, 11, 19), Ok(Some(second)));
}

#[test]
fn readers_far_out_and_on_no_lines() {
    let file = write_file(2, &gates("D x0, C1 x1 x0=2"), b"abc", 100).unwrap();
    let given = |lines, place, end| read_both(&file, lines, place, end);
    // No place is large enough to wrap round.
    for place in [usize::MAX, usize::MAX - 1, usize::MAX - 7, usize::MAX - 8, usize::MAX / 2] {
        for end in [0, 19, 27, usize::MAX - 8, usize::MAX] {
            assert_eq!(given(2, place, end), Ok(None));
        }
    }
    // 1 comes before the end and before 7.
    for lines in [0, 7, 255] {
        for (place, end) in [(3, 19), (0, 19), (19, 19), (usize::MAX, usize::MAX)] {
            assert_eq!(given(lines, place, end), refused(1, 0));
        }
    }
    // Nothing at all.
    assert_eq!(next(&[], 1, 0, 0), Ok(None));
    assert_eq!(next(&[], 1, 0, usize::MAX), Ok(None));
}

#[test]
fn made_up_readers_over_any_bytes() {
    let mut numbers = Numbers::from_seed(4);
    let mut gates = 0;
    for _ in 0..50_000 {
        let length = numbers.below(30);
        let file: Vec<u8> = (0..length).map(|_| numbers.below(5) as u8).collect();
        let (lines, place, end) = (numbers.below(8) as u8, numbers.below(34), numbers.below(34));
        let plainly = if !(1..=6).contains(&lines) {
            refused(1, 0)
        } else if place + 8 > end || place + 8 > length {
            Ok(None)
        } else {
            match plain::decode(lines as usize, &file[place..place + 8]) {
                Some(_) => Ok(Some(gate(lines, &file[place..place + 8]))),
                None => refused(7, place),
            }
        };
        gates += matches!(plainly, Ok(Some(_))) as usize;
        assert_eq!(next(&file, lines, place, end), plainly);
    }
    assert!(gates > 10);
}
