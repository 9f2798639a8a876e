//! The refusals of reading and opening a file, from both sides of each edge, and
//! their order.

use second::cases::gates;
use second::file::opening;

use crate::calls::{read_file, write_file};
use crate::helpers::{refused, NO_LINES};
use crate::plain;

/// A file on two lines, a note of 5 bytes and 3 gates.
fn file() -> Vec<u8> {
    write_file(2, &gates("D x0, C1 x1 x0=2, C2 x0"), b"hello", 1_000).unwrap()
}

/// Reading and opening refuse alike.
fn both_refuse(file: &[u8], number: u8, place: usize) {
    assert_eq!(read_file(file, 70_000, 2_000), refused(number, place));
    assert_eq!(read_file(file, 0, 0), refused(number, place), "5 comes last");
    assert_eq!(opening(file), refused(number, place));
}

fn changed(change: impl FnOnce(&mut Vec<u8>)) -> Vec<u8> {
    let mut file = file();
    change(&mut file);
    file
}

#[test]
fn nine_the_frame() {
    assert!(opening(&file()).is_ok());
    for length in 0..8 {
        both_refuse(&[1; 8][..length], 9, 0);
        // The start and the end of a good file alike.
        both_refuse(&file()[..length], 9, 0);
        both_refuse(&file()[file().len() - length..], 9, 0);
    }
    let trailer = file().len() - 8;
    for edition in (0..=255).filter(|&edition| edition != 1) {
        both_refuse(&changed(|file| file[trailer + 7] = edition), 9, 0);
    }
    // The distance, each byte of it, then the count.
    for (byte, value) in
        [(0, 16), (0, 25), (0, 23), (1, 1), (2, 1), (3, 1), (4, 2), (4, 4), (5, 1), (5, 128)]
    {
        both_refuse(&changed(|file| file[trailer + byte] = value), 9, 0);
    }
    // Distance and count agree, but the file has no room for four records.
    both_refuse(&changed(|file| (file[trailer], file[trailer + 4]) = (32, 4)), 9, 0);
    // With three more bytes of note it would: then the note is in the way.
    let mut longer = vec![3; 3];
    longer.extend(changed(|file| (file[trailer], file[trailer + 4]) = (32, 4)));
    both_refuse(&longer, 7, 0);
    // A distance that only 64-bit words can hold against the count.
    both_refuse(&[0, 0, 0, 128, 0, 0, 2, 1], 9, 0);
    both_refuse(&[255, 255, 255, 255, 255, 255, 2, 1], 9, 0);
}

#[test]
fn nine_the_note() {
    let gates = gates("D x0");
    for (length, fits) in [(0, true), (1_023, true), (1_024, true), (1_025, false), (9_999, false)]
    {
        let file = plain::write_file(1, &gates, &vec![5; length]);
        assert_eq!(opening(&file).is_ok(), fits);
        assert_eq!(read_file(&file, 8, length).is_ok(), fits);
        if !fits {
            both_refuse(&file, 9, 0);
        }
    }
}

#[test]
fn nine_before_one_before_six_before_seven() {
    let trailer = file().len() - 8;
    for lines in NO_LINES {
        both_refuse(&changed(|file| file[trailer + 6] = lines), 1, 0);
        both_refuse(&changed(|file| (file[trailer], file[trailer + 6]) = (1, lines)), 9, 0);
        // Bad records and too many of them come after 1.
        both_refuse(&plain::write_file(lines, &[0; 64_008], b""), 1, 0);
    }
    // The gates have two lines: on one line gate 1 is none.
    both_refuse(&changed(|file| file[trailer + 6] = 1), 7, 1);
    both_refuse(&changed(|file| file[5] = 6), 7, 0);
    both_refuse(&changed(|file| file[trailer - 1] = 2), 7, 2);

    let many = |count| plain::write_file(1, &gates("D x0").repeat(count), b"note");
    assert_eq!(read_file(&many(8_000), 64_000, 4).map(|(found, ..)| found.gates), Ok(8_000));
    both_refuse(&many(8_001), 6, 0);
    both_refuse(&many(65_535), 6, 0);
    both_refuse(&plain::write_file(1, &[0; 64_008], b"note"), 6, 0);
}

#[test]
fn five_the_records_room_first() {
    let file = file();
    for records_room in [0, 8, 16, 23] {
        for note_room in [0, 4, 5, 100] {
            assert_eq!(read_file(&file, records_room, note_room), refused(5, 3));
        }
    }
    for records_room in [24, 25, 31, 32, 100] {
        for note_room in [0, 1, 4] {
            assert_eq!(read_file(&file, records_room, note_room), refused(5, 5));
        }
        for note_room in [5, 6, 100] {
            assert!(read_file(&file, records_room, note_room).is_ok());
        }
    }
    // Nothing to copy needs no room.
    assert!(read_file(&plain::write_file(4, &[], b""), 0, 0).is_ok());
    assert_eq!(read_file(&plain::write_file(4, &[], b"n"), 0, 0), refused(5, 1));
    assert_eq!(read_file(&plain::write_file(4, &gates("D x3"), b""), 7, 0), refused(5, 1));
}
