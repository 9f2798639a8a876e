//! Any bytes and any numbers: every call ends, and only its answer and its own
//! room tell that it was called.

use samples::Numbers;
use second::cascade::{check, price, run};
use second::choice::{cheaper, choose};
use second::file::{next, opening, Reader};
use second::table::check_table;

use crate::calls::{
    invert, listing, read_file, read_names, serial, sheet, synthesize, tabulate, tidy, write_file,
    write_names,
};

/// Bytes that are now and then a cascade, a file or nothing of the kind.
fn some_bytes(numbers: &mut Numbers) -> Vec<u8> {
    let lines = 1 + numbers.below(6);
    let count = numbers.below(10);
    let mut bytes = match numbers.below(4) {
        0 => numbers.bytes(8 * count),
        1 => (0..8 * count).map(|_| numbers.below(5) as u8).collect(),
        _ => numbers.cascade(lines, count, 50),
    };
    match numbers.below(6) {
        0 => bytes.truncate(numbers.below(bytes.len() + 1)),
        1 if !bytes.is_empty() => {
            let place = numbers.below(bytes.len());
            bytes[place] = numbers.byte();
        }
        2 => {
            let records = bytes.len() as u32;
            bytes.extend(records.to_le_bytes());
            bytes.extend((records as u16 / 8).to_le_bytes());
            bytes.extend([lines as u8, 1]);
        }
        _ => {}
    }
    bytes
}

/// Bytes that are now and then a list in document 003's names.
fn some_list(numbers: &mut Numbers) -> Vec<u8> {
    let lines = ["+1 x0\n", "12 x1 x0=2\n", "02 x4 x0=0 x1=1 x5=2\n", "01 x3 x2=1\n", "+2 x5\n"];
    let mut text = vec![];
    for _ in 0..numbers.below(5) {
        text.extend(numbers.pick(&lines).as_bytes());
    }
    for _ in 0..numbers.below(3) {
        numbers.edit(&mut text);
    }
    text
}

/// Bytes that are now and then the text of a table.
fn some_text(numbers: &mut Numbers) -> Vec<u8> {
    let texts = ["0 1 2\n", "2\n0 1\n", "8 7 6\n5 4 3\n0 1 2\n", "0 1 65535\n", "1", "007\n"];
    let mut text = numbers.pick(&texts).as_bytes().to_vec();
    for _ in 0..numbers.below(3) {
        numbers.edit(&mut text);
    }
    text
}

fn some_lines(numbers: &mut Numbers) -> u8 {
    if numbers.below(10) == 0 {
        numbers.byte()
    } else {
        numbers.below(9) as u8
    }
}

fn some_place(numbers: &mut Numbers) -> usize {
    match numbers.below(3) {
        0 => numbers.next() as usize,
        1 => usize::MAX - numbers.below(20),
        _ => numbers.below(100),
    }
}

#[test]
fn nothing_panics_and_nothing_else_changes() {
    let mut numbers = Numbers::from_seed(21);
    let mut accepted = [0; 17];
    for _ in 0..60_000 {
        let (one, other) = (some_bytes(&mut numbers), some_bytes(&mut numbers));
        let lines = some_lines(&mut numbers);
        let value = numbers.below(5) as u8;
        let fitted = numbers.below(10) as u8;
        let room = numbers.below(300);
        let pattern = numbers.next() as u16 >> numbers.below(16);
        let (place, end) = (some_place(&mut numbers), some_place(&mut numbers));
        let list = some_list(&mut numbers);
        let text = some_text(&mut numbers);
        let (start, end_of_text) = text.split_at(numbers.below(text.len() + 1));
        let (kept_one, kept_other) = (one.clone(), other.clone());

        let results = [
            check(lines, &one).is_ok(),
            run(lines, &one, pattern).is_ok(),
            tabulate(lines, &one, room).is_ok(),
            invert(lines, &one, room).is_ok(),
            price(lines, value, fitted, &one).is_ok(),
            tidy(lines, &one).is_ok(),
            choose(lines, value, fitted, &one, &other).is_ok(),
            write_file(lines, &one, &other, room).is_ok(),
            read_file(&one, room, numbers.below(20)).is_ok(),
            opening(&one).is_ok(),
            next(&one, lines, place, end).is_ok(),
            listing(lines, &one, room).is_ok(),
            sheet(&one, room).is_ok(),
            Reader::open(&one).next().is_ok(),
            read_names(lines, &list, room).is_ok(),
            write_names(lines, &one, room).is_ok(),
            serial(lines, &[start, end_of_text], room).is_ok(),
        ];
        accepted.iter_mut().zip(results).for_each(|(count, result)| *count += result as u32);
        let part = cheaper(lines, value, fitted, &one, &other);
        assert!(part.is_empty() || part == one || part == other);
        assert!(Reader { file: &one, lines, place, end }.next().is_ok() == results[10]);
        assert_eq!((one, other), (kept_one, kept_other));
    }
    assert!(accepted.iter().all(|&count| count > 100), "{accepted:?}");
}

#[test]
fn any_table() {
    let mut numbers = Numbers::from_seed(22);
    for _ in 0..20_000 {
        let lines = some_lines(&mut numbers);
        let length = match numbers.below(3) {
            0 => numbers.below(40),
            _ => 3usize.pow(numbers.below(5) as u32),
        };
        let most = 1 + numbers.below(2 * length + 1);
        let table: Vec<u16> = (0..length).map(|_| numbers.below(most) as u16).collect();
        let room = numbers.below(3_000);
        let checked = check_table(lines, &table);
        let answer = synthesize(lines, &table, room);
        match (checked, answer) {
            (Err(one), Err(other)) => assert_eq!(one, other),
            (Ok(()), Err(refusal)) => assert_eq!(refusal.number, 5),
            (Ok(()), Ok(_)) => {}
            (Err(_), Ok(_)) => panic!("accepted a bad table"),
        }
    }
}
