//! Lists in document 003's names. What a line says is looked up among all lines that
//! there are, each made from its gate.

use std::collections::HashMap;

use samples::Numbers;
use second::answer::Answer;
use second::calls::Call;
use second::cases::{cases, gates};
use second::vectors::{Case, Digest};

use crate::calls::{read_names, write_names};
use crate::helpers::{refused, NO_LINES};
use crate::plain::{self, Gate, Op};

/// Document 02: "our operators C1, C2, E, N, D are called +1, +2, 01, 02, 12".
fn line(gate: &Gate) -> String {
    let name = match gate.op {
        Op::C1 => "+1",
        Op::C2 => "+2",
        Op::E => "01",
        Op::N => "02",
        Op::D => "12",
    };
    let mut line = format!("{name} x{}", gate.target);
    for k in 0..6 {
        if let Some(v) = gate.controls[k] {
            line += &format!(" x{k}={v}");
        }
    }
    line + "\n"
}

/// The list of a good cascade.
fn list(lines: usize, cascade: &[u8]) -> Vec<u8> {
    plain::gates(lines, cascade).iter().map(line).collect::<String>().into_bytes()
}

/// Every line on so many lines, and its record.
struct Known {
    lines: u8,
    records: HashMap<Vec<u8>, [u8; 8]>,
}

impl Known {
    fn on(lines: usize) -> Known {
        let gates = plain::all_gates(lines);
        let records = gates.iter().map(|gate| (line(gate).into_bytes(), plain::encode(gate)));
        Known { lines: lines as u8, records: records.collect() }
    }

    /// 12, 6, 5 in this order. A text without a newline at its end has a last line that
    /// isn't known.
    fn read(&self, text: &[u8], room: usize) -> Answer<Vec<u8>> {
        let mut found = vec![];
        for (place, line) in text.split_inclusive(|&byte| byte == b'\n').enumerate() {
            match self.records.get(line) {
                Some(record) => found.push(*record),
                None => return refused(12, place),
            }
        }
        match found.len() {
            8_001.. => refused(6, 0),
            count if room / 8 < count => refused(5, count),
            _ => Ok(found.concat()),
        }
    }

    /// Reads as it must, and what is accepted is what writing gives.
    fn compare(&self, text: &[u8], room: usize) -> bool {
        let answer = read_names(self.lines, text, room);
        assert_eq!(answer, self.read(text, room), "{:?}", text.escape_ascii().to_string());
        if let Ok(records) = &answer {
            assert_eq!(write_names(self.lines, records, text.len()), Ok(text.to_vec()));
        }
        answer.is_ok()
    }
}

#[test]
fn the_names_of_003() {
    let list = b"+1 x0\n+2 x1 x0=0\n02 x2\n12 x3 x0=2 x1=1 x5=0\n01 x4\n";
    let cascade = gates("C1 x0, C2 x1 x0=0, N x2, D x3 x0=2 x1=1 x5=0, E x4");
    assert_eq!(read_names(6, list, 40), Ok(cascade.clone()));
    assert_eq!(write_names(6, &cascade, list.len()), Ok(list.to_vec()));
}

#[test]
fn every_gate_is_written_and_read_back() {
    for lines in 1..=6 {
        let known = Known::on(lines);
        let all = plain::all_gates(lines);
        assert_eq!(known.records.len(), all.len());
        for some in all.chunks(8_000) {
            assert!(known.compare(&list(lines, &plain::bytes(some)), 64_000));
        }
        for gate in all.iter().filter(|_| lines <= 3) {
            assert!(known.compare(line(gate).as_bytes(), 8));
            assert_eq!(write_names(lines as u8, &plain::encode(gate), 31), Ok(line(gate).into()));
        }
    }
}

#[test]
fn every_short_text() {
    let known = [1, 2, 3].map(Known::on);
    let letters = b"+012x =\n";
    let mut accepted = [0; 3];
    for length in 0..=6 {
        for code in 0..8usize.pow(length) {
            let text: Vec<_> = (0..length).map(|k| letters[code >> (3 * k) & 7]).collect();
            for (known, accepted) in known.iter().zip(&mut accepted) {
                *accepted += known.compare(&text, 8) as usize;
            }
        }
    }
    // The empty text, and each operator on each line.
    assert_eq!(accepted, [1 + 5, 1 + 5 * 2, 1 + 5 * 3]);
}

#[test]
fn edited_lists() {
    let mut numbers = Numbers::from_seed(31);
    for lines in 1..=6 {
        let known = Known::on(lines);
        let mut accepted = 0;
        for round in 0..40_000 {
            let count = numbers.below(5);
            let mut text = list(lines, &numbers.cascade(lines, count, 60));
            for _ in 0..numbers.below(4) {
                numbers.edit(&mut text);
            }
            let room = if round % 2 == 0 { 64 } else { numbers.below(60) };
            accepted += known.compare(&text, room) as usize;
        }
        assert!((10_000..30_000).contains(&accepted), "{accepted}");
    }
}

#[test]
fn damaged_in_every_way() {
    // Every byte in the place of each, before each, and none.
    for (lines, good) in [(1, "+2 x0\n"), (5, "12 x1 x0=2 x2=0 x4=1\n"), (6, "01 x5 x0=1 x4=2\n")] {
        let known = Known::on(lines);
        let good = good.as_bytes();
        for place in 0..=good.len() {
            let (start, end) = good.split_at(place);
            let rest = end.get(1..).unwrap_or_default();
            known.compare(&[start, rest].concat(), 24);
            for byte in 0..=255 {
                for end in [end, rest] {
                    known.compare(&[b"+1 x0\n", start, &[byte], end].concat(), 24);
                }
            }
        }
    }
}

#[test]
fn one_before_all_others() {
    for lines in NO_LINES {
        for text in [&b"+1 x0\n"[..], b"", b"no list", &b"+1 x0\n".repeat(8_001)] {
            assert_eq!(read_names(lines, text, 0), refused(1, 0));
            assert_eq!(read_names(lines, text, 70_000), refused(1, 0));
        }
    }
}

#[test]
fn twelve_before_six_before_five() {
    let known = Known::on(2);
    let lines = |count: usize| b"12 x1 x0=2\n+1 x0\n"[..].repeat(count.div_ceil(2));
    for (count, answer) in [(7_998, None), (8_000, None), (8_002, Some(6)), (65_536, Some(6))] {
        let good = lines(count);
        assert!(known.compare(&good, 64_000) == answer.is_none());
        let answer = answer.map_or(refused(5, count), |number| refused(number, 0));
        assert_eq!(read_names(2, &good, 8 * count - 1).map(drop), answer);
        for room in [0, 8 * count] {
            for bad in [&b"\n"[..], b"+1 x2\n", b"+1 x0"] {
                let text = [&good[..], bad].concat();
                assert_eq!(read_names(2, &text, room), refused(12, count));
                let text = [&good[..], bad, &good].concat();
                assert_eq!(read_names(2, &text, room), refused(12, count));
            }
        }
    }
    // An odd number, one more than there may be.
    assert_eq!(read_names(1, &b"+1 x0\n".repeat(8_001), 0), refused(6, 0));
    assert_eq!(read_names(1, &b"+1 x0\n".repeat(8_001), 64_008), refused(6, 0));
}

#[test]
fn five_in_records_and_in_bytes() {
    let (cascade, text) = (gates("D x0, C1 x1 x0=2, C2 x0"), b"12 x0\n+1 x1 x0=2\n+2 x0\n");
    for room in 0..100 {
        let read = if room < 24 { refused(5, 3) } else { Ok(cascade.clone()) };
        assert_eq!(read_names(2, text, room), read);
        let enough = room >= text.len();
        let written = if enough { Ok(text.to_vec()) } else { refused(5, text.len()) };
        assert_eq!(write_names(2, &cascade, room), written);
    }
    assert_eq!(read_names(1, b"", 0), Ok(vec![]));
    assert_eq!(write_names(1, &[], 0), Ok(vec![]));
    let longest = gates("C1 x0 x1=0 x2=0 x3=0 x4=0 x5=0").repeat(8_000);
    assert_eq!(write_names(6, &longest, 247_999), refused(5, 248_000));
    assert_eq!(write_names(6, &longest, 248_000), Ok(list(6, &longest)));
}

#[test]
fn cascades_written_and_read_back() {
    let mut numbers = Numbers::from_seed(32);
    for round in 0..2_000 {
        let lines = 1 + round % 6;
        let count = numbers.below(if round % 50 == 0 { 2_000 } else { 12 });
        let records = numbers.cascade(lines, count, 50);
        let text = write_names(lines as u8, &records, 64_000).unwrap();
        assert_eq!(text, list(lines, &records));
        assert_eq!(read_names(lines as u8, &text, records.len()), Ok(records));
        let short = text.len().saturating_sub(1);
        assert_eq!(read_names(lines as u8, &text[..short], 0).is_err(), count > 0);
    }
}

#[test]
fn texts_of_20_megabytes() {
    let times = |line: &[u8]| line.repeat(20_000_000 / line.len());
    // Without a newline, of newlines only, and of good lines, the last then without
    // its newline.
    assert_eq!(read_names(1, &times(b"+1 x0 "), 8), refused(12, 0));
    assert_eq!(read_names(6, &times(b" x1=0"), 8), refused(12, 0));
    assert_eq!(read_names(1, &times(b"\n"), 8), refused(12, 0));
    let mut good = times(b"12 x5 x0=0 x1=0 x2=0 x3=0 x4=0\n+1 x0\n");
    let lines = 2 * (20_000_000 / 37);
    assert_eq!(read_names(6, &good, 64_000), refused(6, 0));
    good.pop();
    assert_eq!(read_names(6, &good, 64_000), refused(12, lines - 1));
    assert_eq!(read_names(5, &good, 64_000), refused(12, 0));
}

/// What a list of any lines is read as; `known` has the lines of boards from 1 up.
fn read(known: &[Known; 6], case: &Case) -> Answer<Vec<u8>> {
    match case.lines {
        lines @ 1..=6 => known[lines as usize - 1].read(&case.bytes(), case.room),
        _ => refused(1, 0),
    }
}

/// What a cascade of any lines is written as.
fn written(case: &Case) -> Answer<Vec<u8>> {
    let checked = match case.lines {
        lines @ 1..=6 => plain::check_cascade(lines as usize, &case.bytes()),
        _ => Err((1, 0)),
    };
    match checked {
        Ok(gates) => {
            let text: String = gates.iter().map(line).collect();
            if text.len() <= case.room {
                Ok(text.into_bytes())
            } else {
                refused(5, text.len())
            }
        }
        Err((number, place)) => refused(number, place),
    }
}

#[test]
fn the_cases_answer_so() {
    let known = [1, 2, 3, 4, 5, 6].map(Known::on);
    let mut count = 0;
    for case in cases() {
        let (answer, unit) = match case.call {
            Call::ReadNames => (read(&known, &case), 8),
            Call::WriteNames => (written(&case), 1),
            _ => continue,
        };
        assert_eq!(case.line(), told(&case, answer, unit));
        count += 1;
    }
    assert!(count > 900);
}

/// The line that tells this answer, which is counted in such units; behind it the room
/// is as it was filled.
fn told(case: &Case, answer: Answer<Vec<u8>>, unit: usize) -> String {
    let (given, nothing) = (Digest::of(&case.bytes()), Digest::START);
    let (numbers, mut room) = match answer {
        Ok(written) => (format!("0 0 {}", written.len() / unit), written),
        Err(refusal) => (format!("{} {} 0", refusal.number, refusal.place), vec![]),
    };
    room.resize(case.room, case.fill);
    let (call, room) = (case.call.number(), Digest::of(&room));
    format!("{call} {numbers} 0 0 {given} {nothing} {room} {nothing}\n")
}
