//! Tables as text over the serial lead. What a text says is found by looking at the whole
//! of it: at the shortest start that no good text has, or at its words.

use samples::Numbers;
use second::answer::Answer;
use second::calls::{Call, Told};
use second::cases::cases;
use second::serial::{SerialReader, LONGEST_TEXT};
use second::vectors::{Case, Digest};

use crate::calls::serial;
use crate::helpers::{identity, refused, NO_LINES};
use crate::plain;

fn is_separator(byte: &u8) -> bool {
    matches!(byte, b' ' | b'\n')
}

/// The number that is written so.
fn number(word: &[u8]) -> Option<u16> {
    let word = std::str::from_utf8(word).ok()?;
    let other_form = word.starts_with(['0', '+']) && word != "0";
    word.parse().ok().filter(|_| !other_form)
}

/// Has some good text this start? All its words are numbers, but that the last may still
/// be to come: each start of a number is one.
fn starts_a_text(start: &[u8]) -> bool {
    let mut words = start.split(is_separator).rev();
    let last = words.next().unwrap_or_default();
    (last.is_empty() || number(last).is_some()) && words.all(|word| number(word).is_some())
}

/// How many bytes the shortest start has that no good text has. All longer ones are none
/// either, so it is looked for by halves.
fn shortest_wrong_start(text: &[u8]) -> Option<usize> {
    let (mut right, mut wrong) = (0, text.len() + 1);
    while wrong - right > 1 {
        let middle = (right + wrong) / 2;
        if starts_a_text(&text[..middle]) {
            right = middle;
        } else {
            wrong = middle;
        }
    }
    (wrong <= text.len()).then_some(wrong)
}

/// The place of a 14, if the text gives one.
fn place_of_14(text: &[u8]) -> Option<usize> {
    // Of a longer text the byte at this offset is wrong, if none before it is.
    let before = &text[..text.len().min(65_535)];
    let Some(length) = shortest_wrong_start(before) else {
        let ended = text.len() == before.len() && text.ends_with(b"\n");
        return (!ended).then_some(before.len());
    };
    let last = before[..length].split(is_separator).next_back().unwrap_or_default();
    let too_large = last.iter().all(u8::is_ascii_digit) && !last.starts_with(b"0");
    // No digit stands in an empty word.
    Some(if too_large && !last.is_empty() { length - last.len() } else { length - 1 })
}

/// What the whole text says. Refusals 1, 14, 2, 3, 4, 5 in this order.
fn whole(lines: u8, text: &[u8], room: usize) -> Answer<Vec<u16>> {
    if !(1..=6).contains(&lines) {
        return refused(1, 0);
    }
    if let Some(place) = place_of_14(text) {
        return refused(14, place);
    }
    let words = text.split(is_separator).filter(|word| !word.is_empty());
    let table: Vec<u16> = words.flat_map(number).collect();
    match plain::check_table(lines, &table) {
        Err((number, place)) => refused(number, place),
        Ok(()) if room < table.len() => refused(5, table.len()),
        Ok(()) => Ok(table),
    }
}

/// In one part, in single bytes, and in two parts of all lengths.
fn compare(lines: u8, text: &[u8], room: usize) -> bool {
    let expected = whole(lines, text, room);
    let described = text.escape_ascii().to_string();
    assert_eq!(serial(lines, &[text], room), expected, "{described:?}");
    let bytes: Vec<_> = text.chunks(1).collect();
    assert_eq!(serial(lines, &bytes, room), expected, "{described:?} byte by byte");
    for place in 0..=text.len() {
        let (start, end) = text.split_at(place);
        assert_eq!(serial(lines, &[start, end], room), expected, "{described:?} at {place}");
    }
    expected.is_ok()
}

/// A newline behind every so many numbers and behind the last.
fn text_of(table: &[u16], row: usize) -> Vec<u8> {
    let mut text = vec![];
    for (place, entry) in table.iter().enumerate() {
        text.extend(entry.to_string().into_bytes());
        let at_end = place + 1 == table.len() || (place + 1) % row == 0;
        text.push(if at_end { b'\n' } else { b' ' });
    }
    text
}

#[test]
fn a_number_is_what_is_printed() {
    for value in 0..=65_535u16 {
        assert_eq!(number(value.to_string().as_bytes()), Some(value));
    }
    for word in ["", "00", "01", "+1", "-1", "-0", "65536", "1x", " 1", "1\r", "0x1", "1_0"] {
        assert_eq!(number(word.as_bytes()), None);
    }
}

#[test]
fn the_whole_text_word_by_word() {
    // The reading by which the reader is judged, on what the order says.
    for (text, place) in [
        ("", 0),
        ("0", 1),
        ("0 ", 2),
        (" 0\n", 0),
        ("\n", 0),
        ("0  1\n", 2),
        ("0\n\n", 2),
        ("0 \n", 2),
        ("00\n", 1),
        ("007\n", 1),
        ("5 07\n", 3),
        ("-1\n", 0),
        ("1-\n", 1),
        ("1\r\n", 1),
        ("1\t2\n", 1),
        ("1 x\n", 2),
        ("65536\n", 0),
        ("1 65536\n", 2),
        ("655350\n", 0),
        ("99999x", 0),
        ("9999x", 4),
        ("65535x", 5),
        ("65535", 5),
    ] {
        assert_eq!(place_of_14(text.as_bytes()), Some(place), "{text:?}");
        assert_eq!(serial(1, &[text.as_bytes()], 3), refused(14, place), "{text:?}");
    }
    for text in ["0\n", "65535\n", "0 1 2\n", "0\n1\n2\n", "10 100\n1000 10000\n"] {
        assert_eq!(place_of_14(text.as_bytes()), None, "{text:?}");
    }
}

#[test]
fn a_table_in_parts() {
    let table: Answer<Vec<u16>> = Ok(vec![5, 6, 1, 7, 2, 3, 8, 0, 4]);
    for parts in [
        &[&b"5 6 1 7 2 3 8 0 4\n"[..]][..],
        &[b"5 6 1\n7 2 3\n8 0 4\n"],
        &[b"5\n6\n1\n7\n2\n3\n8\n0\n4\n"],
        &[b"5 6 1", b"", b"\n7 2", b" ", b"3\n8 0 4", b"\n", b""],
    ] {
        assert_eq!(serial(2, parts, 9), table);
        assert_eq!(serial(2, parts, 20), table);
        assert_eq!(serial(2, parts, 8), refused(5, 9));
    }
    // A number goes on in the next part.
    let parts: [&[u8]; 4] = [b"1", b"0 1", b"1 1", b"2\n"];
    assert_eq!(serial(1, &parts, 3), refused(3, 0));
    let text = text_of(&identity(3), 5);
    assert_eq!(serial(3, &text.chunks(2).collect::<Vec<_>>(), 27), Ok(identity(3)));
}

#[test]
fn the_table_changes_only_at_an_end_that_accepts() {
    let mut reader = SerialReader::start(1);
    assert_eq!(reader.answer(), Ok(0));
    assert_eq!(reader.part(b"2 0 "), Ok(0));
    assert_eq!(reader.part(b"1\n"), Ok(0));
    let mut table = [7; 4];
    assert_eq!(reader.end(&mut table), Ok(3));
    assert_eq!(table, [2, 0, 1, 7]);
    // Then nothing changes: neither a part, nor a table too small now, nor another one.
    assert_eq!(reader.part(b"x"), Ok(3));
    assert_eq!(reader.end(&mut []), Ok(3));
    let mut other = [7; 3];
    assert_eq!(reader.end(&mut other), Ok(3));
    assert_eq!(other, [7; 3]);
    assert_eq!(reader.answer(), Ok(3));
}

#[test]
fn what_is_refused_stays_refused() {
    // A 5 too, though a later table is large enough.
    let mut reader = SerialReader::start(1);
    assert_eq!(reader.part(b"2 0 1\n"), Ok(0));
    assert_eq!(reader.end(&mut [0; 2]), refused(5, 3));
    let mut table = [7; 3];
    assert_eq!(reader.end(&mut table), refused(5, 3));
    assert_eq!(reader.part(b"2 0 1\n"), refused(5, 3));
    assert_eq!(table, [7; 3]);
    // A byte that can't stand there is told at once, and a good rest changes nothing.
    let mut reader = SerialReader::start(1);
    assert_eq!(reader.part(b"2 0 "), Ok(0));
    assert_eq!(reader.part(b"\n"), refused(14, 4));
    assert_eq!(reader.part(b"1\n"), refused(14, 4));
    assert_eq!(reader.end(&mut table), refused(14, 4));
    assert_eq!(table, [7; 3]);
    // An end too early is an end.
    let mut reader = SerialReader::start(1);
    assert_eq!(reader.part(b"2 0 1"), Ok(0));
    assert_eq!(reader.end(&mut table), refused(14, 5));
    assert_eq!(reader.part(b"\n"), refused(14, 5));
    assert_eq!(reader.end(&mut table), refused(14, 5));
}

#[test]
fn one_at_the_start_and_ever_after() {
    for lines in NO_LINES {
        assert_eq!(SerialReader::start(lines).answer(), refused(1, 0));
        for text in [&b"0 1 2\n"[..], b"", b"x", &[b'1'; 70_000]] {
            assert_eq!(serial(lines, &[text], 3), refused(1, 0));
            assert_eq!(serial(lines, &[], 0), refused(1, 0));
        }
    }
    for lines in 1..=6 {
        assert_eq!(SerialReader::start(lines).answer(), Ok(0));
    }
}

#[test]
fn fourteen_at_the_byte_that_shows_it() {
    for (text, shown, place) in [
        ("65536", 4, 0),
        ("0 65536", 6, 2),
        ("99999", 4, 0),
        ("100000", 5, 0),
        ("655350", 5, 0),
        ("9999x", 4, 4),
        ("00", 1, 1),
        ("0 01", 3, 3),
        ("0  ", 2, 2),
    ] {
        let mut reader = SerialReader::start(2);
        let (before, behind) = text.as_bytes().split_at(shown);
        assert_eq!(reader.part(before), Ok(0), "{text}");
        assert_eq!(reader.part(behind), refused(14, place), "{text}");
    }
}

#[test]
fn two_three_four_and_five_at_the_end() {
    for (text, room, answer) in [
        ("0 1\n", 0, refused(2, 0)),
        ("9 9\n", 0, refused(2, 0)),
        ("0 1 2 0\n", 0, refused(2, 0)),
        ("0 1 3\n", 0, refused(3, 2)),
        ("0 0 3\n", 0, refused(3, 2)),
        ("0 65535 3\n", 0, refused(3, 1)),
        ("1 0 1\n", 0, refused(4, 2)),
        ("1 0 2\n", 0, refused(5, 3)),
        ("1 0 2\n", 2, refused(5, 3)),
        ("1 0 2\n", 3, Ok(vec![1, 0, 2])),
        ("1 0 2\n", 4, Ok(vec![1, 0, 2])),
    ] {
        let mut reader = SerialReader::start(1);
        assert_eq!(reader.part(text.as_bytes()), Ok(0), "{text:?}: not before the end");
        assert_eq!(serial(1, &[text.as_bytes()], room), answer, "{text:?}");
        compare(1, text.as_bytes(), room);
    }
}

#[test]
fn tables_on_all_boards_however_they_are_cut() {
    let mut numbers = Numbers::from_seed(51);
    for lines in 1..=6 {
        let table = numbers.table(lines as usize);
        for row in [1, 7, 729] {
            let text = text_of(&table, row);
            assert_eq!(whole(lines, &text, 729), Ok(table.clone()));
            for length in [1, 2, 3, 16, 1_000] {
                let parts: Vec<_> = text.chunks(length).collect();
                assert_eq!(serial(lines, &parts, table.len()), Ok(table.clone()));
                assert_eq!(serial(lines, &parts, table.len() - 1), refused(5, table.len()));
            }
            if lines <= 4 {
                assert!(compare(lines, &text, 729));
            }
            assert_eq!(serial(lines % 6 + 1, &[&text], 729), refused(2, 0));
        }
    }
}

#[test]
fn every_short_text_under_every_cutting() {
    let letters = b"0129 \nx";
    let mut accepted = 0;
    for length in 0..=6 {
        for code in 0..7usize.pow(length) {
            let text: Vec<_> = (0..length).map(|k| letters[code / 7usize.pow(k) % 7]).collect();
            let expected = whole(1, &text, 3);
            for cuts in 0..1 << length.saturating_sub(1) {
                assert_eq!(serial(1, &parts(&text, cuts), 3), expected, "{text:?} {cuts:b}");
            }
            accepted += expected.is_ok() as usize;
        }
    }
    // Six permutations, two bytes between their numbers.
    assert_eq!(accepted, 6 * 4);
}

/// Cut behind byte k if bit k is set.
fn parts(text: &[u8], cuts: usize) -> Vec<&[u8]> {
    let mut parts = vec![];
    let mut start = 0;
    for end in 1..=text.len() {
        if end == text.len() || cuts >> (end - 1) & 1 == 1 {
            parts.push(&text[start..end]);
            start = end;
        }
    }
    parts
}

#[test]
fn numbers_around_the_largest() {
    for number in (0..1_100).chain(65_000..66_000).chain([99_999, 100_000, 655_350, u64::MAX]) {
        for text in [format!("{number}\n"), format!("1 {number} 2\n"), format!("1\n0{number}\n")] {
            compare(1, text.as_bytes(), 3);
        }
        let answer = serial(1, &[format!("7 {number}\n").as_bytes()], 3);
        let expected = if number > 65_535 { refused(14, 2) } else { refused(2, 0) };
        assert_eq!(answer, expected, "{number}");
    }
}

#[test]
fn damaged_in_every_way() {
    // Every byte in the place of each, before each, and none.
    let good = b"5 6 1\n7 2 3\n8 0 4\n";
    for place in 0..=good.len() {
        let (start, end) = good.split_at(place);
        let rest = end.get(1..).unwrap_or_default();
        compare(2, &[start, rest].concat(), 9);
        for byte in 0..=255 {
            for end in [end, rest] {
                compare(2, &[start, &[byte], end].concat(), 9);
            }
        }
    }
}

#[test]
fn drawn_texts_under_drawn_cuttings() {
    let mut numbers = Numbers::from_seed(52);
    let mut accepted = 0;
    for _ in 0..60_000 {
        let lines = 1 + numbers.below(3);
        let table = numbers.table(lines);
        let mut text = text_of(&table, 1 + numbers.below(30));
        for _ in 0..numbers.below(3) {
            numbers.edit(&mut text);
        }
        let room = table.len() - numbers.one_in(8) as usize;
        let mut parts = vec![];
        let mut rest = &text[..];
        while !rest.is_empty() {
            let (part, behind) = rest.split_at(numbers.below(rest.len().min(9) + 1));
            parts.push(part);
            rest = behind;
        }
        let expected = whole(lines as u8, &text, room);
        assert_eq!(serial(lines as u8, &parts, room), expected);
        accepted += expected.is_ok() as usize;
    }
    assert!((10_000..40_000).contains(&accepted), "{accepted}");
}

/// A text of so many bytes that ends so.
fn long(length: usize, end: &str) -> Vec<u8> {
    let before = length - end.len();
    let mut text = b"1 ".repeat(before / 2);
    if !before.is_multiple_of(2) {
        text.insert(0, b'2');
    }
    text.extend(end.as_bytes());
    text
}

#[test]
fn texts_of_65535_bytes_and_more() {
    assert_eq!(LONGEST_TEXT, 65_535);
    for (length, end, answer) in [
        (65_534, "1\n", refused(2, 0)),
        (65_535, "1\n", refused(2, 0)),
        (65_536, "1\n", refused(14, 65_535)),
        (65_537, "1\n", refused(14, 65_535)),
        (200_000, "1\n", refused(14, 65_535)),
        (65_534, "1", refused(14, 65_534)),
        (65_535, "1", refused(14, 65_535)),
        (65_535, " ", refused(14, 65_534)),
        (65_535, "x", refused(14, 65_534)),
        (65_536, "x", refused(14, 65_535)),
        (65_536, "\n", refused(14, 65_535)),
        // The byte at 65,534 shows it, or that at 65,535.
        (65_535, "65536", refused(14, 65_530)),
        (65_535, "655350", refused(14, 65_529)),
        (65_536, "999999", refused(14, 65_530)),
        (65_536, "65536", refused(14, 65_535)),
        (65_536, "655350", refused(14, 65_535)),
        (65_537, "65536", refused(14, 65_535)),
        (65_537, "655350", refused(14, 65_535)),
        (65_536, "65535", refused(14, 65_535)),
    ] {
        let text = long(length, end);
        assert_eq!(text.len(), length);
        assert_eq!(whole(6, &text, 729), answer, "{length} {end:?}");
        for length in [1, 16, 4_096, 65_534, 65_535, 65_536, 300_000] {
            let parts: Vec<_> = text.chunks(length).collect();
            assert_eq!(serial(6, &parts, 729), answer, "{end:?} in parts of {length}");
        }
        for place in text.len().min(65_540) - 12..=text.len().min(65_540) {
            let (start, end) = text.split_at(place);
            assert_eq!(serial(6, &[start, end], 729), answer, "cut at {place}");
        }
    }
    // One digit after the other: the largest number of all is too large long before.
    assert_eq!(serial(6, &[&[b'1'; 300_000]], 729), refused(14, 0));
    assert_eq!(serial(6, &[&[b'\n'; 300_000]], 729), refused(14, 0));
    assert_eq!(serial(6, &[&b"1 ".repeat(40_000)], 729), refused(14, 65_535));
}

#[test]
fn empty_parts_change_nothing() {
    let mut reader = SerialReader::start(6);
    for _ in 0..70_000 {
        assert_eq!(reader.part(b""), Ok(0));
    }
    assert_eq!(reader.part(b"x"), refused(14, 0));
    let longest = long(65_535, "1\n");
    assert_eq!(serial(6, &[b"", &longest, b"", b""], 729), refused(2, 0));
    assert_eq!(serial(6, &[], 729), refused(14, 0));
    assert_eq!(serial(6, &[b""], 729), refused(14, 0));
}

#[test]
fn only_the_count_of_numbers_matters_where_they_are_too_many() {
    for lines in 1..=6 {
        let size = 3usize.pow(lines as u32);
        let good = identity(lines);
        for count in [size - 1, size, size + 1, 2 * size, size + 256, size + 729, size + 1_024] {
            let table: Vec<u16> = good.iter().copied().cycle().take(count).collect();
            let answer = if count == size { Ok(good.clone()) } else { refused(2, 0) };
            assert_eq!(serial(lines as u8, &[&text_of(&table, 10)], 729), answer);
            assert_eq!(whole(lines as u8, &text_of(&table, 10), 729), answer);
        }
    }
}

/// The line that a case must print, from what the whole text says and from when it is said.
fn line(case: &Case) -> String {
    let (text, lengths) = (case.bytes(), case.more_bytes());
    let answer = whole(case.lines, &text, case.room);
    let last = match &answer {
        Ok(table) => Told { first: table.len() as u64, ..Told::default() },
        Err(refusal) => {
            Told { number: refusal.number as u64, place: refusal.place as u64, ..Told::default() }
        }
    };
    // A part tells what the text up to its end has shown.
    let mut answers = vec![if last.number == 1 { last } else { Told::default() }];
    let shown = shown_at(&text, &answer);
    let mut fed = 0;
    for length in lengths.iter().map(|&length| length as usize).chain([text.len()]) {
        fed = text.len().min(fed + length);
        answers.push(if fed >= shown { last } else { Told::default() });
    }
    answers.extend([last; 3]);
    let mut bytes = vec![];
    for Told { number, place, first, .. } in answers {
        bytes.extend([number, place, first].map(u64::to_le_bytes).concat());
    }
    bytes.extend([case.fill; 2 * 1_024]);
    let mut room: Vec<u8> =
        answer.unwrap_or_default().iter().flat_map(|entry| entry.to_le_bytes()).collect();
    room.resize(2 * case.room, case.fill);
    let Told { number, place, first, .. } = last;
    let [given, more] = [Digest::of(&text), Digest::of(&lengths)];
    let [room, note] = [Digest::of(&room), Digest::of(&bytes)];
    format!("18 {number} {place} {first} 0 0 {given} {more} {room} {note}\n")
}

/// How many bytes of a text show its answer; more than there are if only its end does.
fn shown_at(text: &[u8], answer: &Answer<Vec<u16>>) -> usize {
    match answer {
        Err(refusal) if refusal.number == 1 => 0,
        Err(refusal) if refusal.number == 14 => {
            let start = &text[..text.len().min(65_535)];
            let beyond = if text.len() > 65_535 { 65_536 } else { usize::MAX };
            shortest_wrong_start(start).unwrap_or(beyond)
        }
        _ => usize::MAX,
    }
}

#[test]
fn the_cases_answer_so() {
    let mut count = 0;
    for case in cases().into_iter().filter(|case| case.call == Call::Serial) {
        assert_eq!(case.line(), line(&case), "{:?}", case.stored.escape_ascii().to_string());
        count += 1;
    }
    assert!(count > 2_500);
}
