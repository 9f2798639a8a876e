//! The cases for other programs: that they are all there, that they read and
//! write, and that the lines say what the library does.

use std::collections::HashSet;

use second::calls::{Call, Given, Told};
use second::cases::{cases, gates};
use second::draws::Draws;
use second::vectors::{lines, read_cases, write_cases, Case, Digest};

use crate::calls::synthesized;
use crate::helpers::BOUND;
use crate::plain;

/// The numbers of a line: the call's, then the answer's five.
fn numbers(case: &Case) -> [u64; 6] {
    let line = case.line();
    let words: Vec<_> = line.split(' ').collect();
    assert_eq!(words.len(), 10);
    assert!(words[6..].iter().all(|digest| digest.trim_end().len() == 8));
    assert!(line.ends_with('\n') && line.lines().count() == 1);
    [0, 1, 2, 3, 4, 5].map(|word| words[word].parse().unwrap())
}

#[test]
fn digests_are_fnv_1a() {
    // The published values for these texts.
    for (text, digest) in
        [("", 0x811c_9dc5), ("a", 0xe40c_292c), ("b", 0xe70c_2de5), ("foobar", 0xbf9c_f968)]
    {
        assert_eq!(Digest::of(text.as_bytes()), Digest(digest));
    }
    assert_eq!(Digest::of_entries(&[0x6f66, 0x626f, 0x7261]), Digest::of(b"foobar"));
    assert_eq!(Digest::of(b"foo").and(b"bar"), Digest::of(b"foobar"));
    assert_eq!(Digest(0xabc).to_string(), "00000abc");
}

#[test]
fn a_case_byte_for_byte() {
    let case = Case {
        lines: 2,
        value: 1,
        fitted: 5,
        pattern: 0x0102,
        times: 3,
        more_times: 4,
        stored: vec![7, 8],
        more_stored: vec![9],
        room: 0x10,
        note_room: 0x20,
        fill: 0xee,
        place: 0x0102_0304_0506_0708,
        end: u64::MAX,
        record: [1, 2, 3, 4, 5, 6, 7, 8],
        ..Case::new(Call::WriteFile)
    };
    #[rustfmt::skip]
    let bytes = [
        1, 0, 0, 0,
        10, 0, 0, 0,  2, 0, 0, 0,  1, 0, 0, 0,  5, 0, 0, 0,  2, 1, 0, 0,
        3, 0, 0, 0,  4, 0, 0, 0,  2, 0, 0, 0,  1, 0, 0, 0,
        0x10, 0, 0, 0,  0x20, 0, 0, 0,  0xee, 0, 0, 0,
        8, 7, 6, 5,  4, 3, 2, 1,  255, 255, 255, 255,  255, 255, 255, 255,
        1, 2, 3, 4, 5, 6, 7, 8,
        7, 8, 9,
    ];
    assert_eq!(write_cases(std::slice::from_ref(&case)), bytes);
    assert_eq!(read_cases(&bytes), Some(vec![case.clone()]));
    assert_eq!(case.bytes(), [&case.record.repeat(3)[..], &[7, 8]].concat());
    assert_eq!(case.more_bytes(), [&case.record.repeat(4)[..], &[9]].concat());
    assert_no_other_file_reads(bytes);
}

/// Cut, too long, or with a number too large for its place.
fn assert_no_other_file_reads(bytes: [u8; 79]) {
    for length in 0..bytes.len() {
        assert_eq!(read_cases(&bytes[..length]), None);
    }
    assert_eq!(read_cases(&[&bytes[..], &[0]].concat()), None);
    // No such call, a number too large for its place, more than there is room for.
    for (place, value) in
        [(4, 0), (4, 19), (9, 1), (13, 1), (17, 1), (22, 1), (26, 1), (43, 1), (47, 1), (49, 1)]
    {
        let mut wrong = bytes;
        wrong[place] = value;
        assert_eq!(read_cases(&wrong), None, "byte {place}");
    }
}

#[test]
fn the_cases_read_as_written_and_are_the_same_each_time() {
    let file = write_cases(&cases());
    assert_eq!(read_cases(&file), Some(cases()));
    assert!(cases().iter().all(Case::fits));
    assert!(file.len() < 2_050_000);
    assert_eq!(lines(&cases()).lines().count(), cases().len());
}

#[test]
fn every_answer_of_every_call_is_there() {
    let met: HashSet<_> = cases().iter().map(|case| (numbers(case)[0], numbers(case)[1])).collect();
    for call in Call::ALL {
        assert_eq!(Call::from_number(call.number()), Some(call));
        let all = call.refusals().iter().map(|&number| number as u64);
        for number in all.chain([0]) {
            assert!(met.contains(&(call.number() as u64, number)), "{call:?} {number}");
        }
        let of_call = met.iter().filter(|&&(of, _)| of == call.number() as u64).count();
        assert_eq!(of_call, call.refusals().len() + 1);
    }
    assert_eq!(Call::from_number(0), None);
    assert_eq!(Call::from_number(19), None);
}

#[test]
fn a_line_tells_the_answer_and_what_lent_memory_holds() {
    // P2 with a byte more of room than is asked.
    let case = Case {
        lines: 1,
        stored: vec![1, 0, 2, 0, 0, 0],
        room: 17,
        fill: 0xaa,
        ..Case::new(Call::Synthesize)
    };
    let room = [gates("D x0, E x0"), vec![0xaa]].concat();
    let nothing = Digest::START;
    let given = Digest::of(&case.stored);
    assert_eq!(
        case.line(),
        format!("2 0 0 2 0 0 {given} {nothing} {} {nothing}\n", Digest::of(&room))
    );

    // A refusal leaves the fill.
    let refused = Case { room: 15, ..case.clone() };
    let room = Digest::of(&[0xaa; 15]);
    assert_eq!(refused.line(), format!("2 5 2 0 0 0 {given} {nothing} {room} {nothing}\n"));

    // Tidying changes the bytes given.
    let tidied = Case { lines: 1, stored: gates("C1 x0, C1 x0"), ..Case::new(Call::Tidy) };
    let left = Digest::of(&[gates("C2 x0"), vec![0; 8]].concat());
    assert_eq!(tidied.line(), format!("8 0 0 1 1 0 {left} {nothing} {nothing} {nothing}\n"));
}

#[test]
fn a_line_tells_entries_the_chosen_one_and_gates() {
    let nothing = Digest::START;
    // The room of entries.
    let table = Case { lines: 1, room: 4, fill: 1, ..Case::new(Call::Tabulate) };
    let room = Digest::of(&[0, 0, 1, 0, 2, 0, 1, 1]);
    assert_eq!(table.line(), format!("5 0 0 3 0 0 {nothing} {nothing} {room} {nothing}\n"));

    // What is handed back of two.
    let (first, second) = (gates("N x0, N x0, D x0"), gates("D x0"));
    let choice = Case {
        lines: 1,
        fitted: 7,
        stored: first.clone(),
        more_stored: second.clone(),
        ..Case::new(Call::Choose)
    };
    let [one, other] = [Digest::of(&first), Digest::of(&second)];
    assert_eq!(choice.line(), format!("9 0 0 2 0 0 {one} {other} {other} {nothing}\n"));
    let refused = Case { value: 3, ..choice.clone() };
    assert_eq!(refused.line(), format!("9 10 0 0 0 0 {one} {other} {nothing} {nothing}\n"));
    let refused = Case { fitted: 8, ..choice };
    assert_eq!(refused.line(), format!("9 13 0 0 0 0 {one} {other} {nothing} {nothing}\n"));
    // Without E, two of them cost 4 and three C1 cost 3.
    let (first, second) = (gates("E x0, E x0"), gates("C1 x0, C1 x0, C1 x0"));
    let [one, other] = [Digest::of(&first), Digest::of(&second)];
    for (fitted, which, chosen) in [(7, 1, one), (4, 2, other)] {
        let (stored, more_stored) = (first.clone(), second.clone());
        let choice = Case { lines: 1, fitted, stored, more_stored, ..Case::new(Call::Choose) };
        let line = format!("9 0 0 {which} 0 0 {one} {other} {chosen} {nothing}\n");
        assert_eq!(choice.line(), line);
    }

    // A gate: D x0 x1=2 is operator 4, target 0, controls 3 2 3 3 3 3.
    let reader = Case { lines: 2, stored: gates("D x0 x1=2"), end: 8, ..Case::new(Call::Next) };
    let controls = 3 + 4 * (2 + 4 * (3 + 4 * (3 + 4 * (3 + 4 * 3))));
    assert_eq!(numbers(&reader), [13, 0, 0, 1, 8, 4 + 65_536 * controls]);
    assert_eq!(numbers(&Case { place: 1, ..reader }), [13, 0, 0, 0, 1, 0]);
}

#[test]
fn a_line_tells_what_a_text_gets_from_its_start_to_behind_its_end() {
    // In parts of three bytes, of none, and the rest.
    let text = b"1 0\n2\n";
    let case = Case {
        lines: 1,
        stored: text.to_vec(),
        more_stored: vec![3, 0],
        room: 4,
        fill: 9,
        ..Case::new(Call::Serial)
    };
    let [given, more] = [Digest::of(text), Digest::of(&[3, 0])];
    let note = |told: &[[u64; 3]]| {
        let numbers = told.as_flattened().iter().flat_map(|number| number.to_le_bytes());
        Digest::of(&numbers.chain([9; 2_048]).collect::<Vec<_>>())
    };
    // The start and three parts; the end, a part and an end.
    let all = note(&[[0; 3], [0; 3], [0; 3], [0; 3], [0, 0, 3], [0, 0, 3], [0, 0, 3]]);
    let room = Digest::of(&[1, 0, 0, 0, 2, 0, 9, 9]);
    assert_eq!(case.line(), format!("18 0 0 3 0 0 {given} {more} {room} {all}\n"));

    // A table too small; the last one is not.
    let short = Case { room: 2, ..case.clone() };
    let all = note(&[[0; 3], [0; 3], [0; 3], [0; 3], [5, 3, 0], [5, 3, 0], [5, 3, 0]]);
    let room = Digest::of(&[9; 4]);
    assert_eq!(short.line(), format!("18 5 3 0 0 0 {given} {more} {room} {all}\n"));

    // Lengths that are more than the text has; a byte that can't stand there, in the second.
    let wrong = Case { stored: b"1 0x".to_vec(), more_stored: vec![2, 200, 1], ..case.clone() };
    let [given, more] = [Digest::of(b"1 0x"), Digest::of(&[2, 200, 1])];
    let wrong_at = [14, 3, 0];
    let all = note(&[&[[0; 3], [0; 3]][..], &[wrong_at; 6]].concat());
    let room = Digest::of(&[9; 8]);
    assert_eq!(wrong.line(), format!("18 14 3 0 0 0 {given} {more} {room} {all}\n"));

    // No such board.
    let none = Case { lines: 7, more_stored: vec![], ..case };
    let [given, more] = [Digest::of(text), Digest::START];
    let all = note(&[[1, 0, 0]; 5]);
    assert_eq!(none.line(), format!("18 1 0 0 0 0 {given} {more} {room} {all}\n"));
}

#[test]
fn a_call_looks_only_at_what_it_takes() {
    assert_eq!(Call::CheckTable.answer(Given::default()).number, 1);
    let given = Given { lines: 1, table: &[0, 2, 1], ..Given::default() };
    assert_eq!(Call::CheckTable.answer(given), Told::default());
    assert_eq!(
        Call::Sheet.answer(Given::default()),
        Told { number: 5, place: 15, ..Told::default() }
    );
}

/// The cases of one call that answer so.
fn answering(call: Call, number: u64) -> Vec<[u64; 6]> {
    let of_call = cases().into_iter().filter(|case| case.call == call);
    of_call.map(|case| numbers(&case)).filter(|numbers| numbers[1] == number).collect()
}

#[test]
fn the_edges_are_there() {
    // Every bound is reached, and asked by a 5.
    for lines in 1..=6 {
        let bound = BOUND[lines] as u64;
        assert!(answering(Call::Synthesize, 0).contains(&[2, 0, 0, bound, 0, 0]));
        assert!(answering(Call::Synthesize, 5).contains(&[2, 5, bound, 0, 0, 0]));
        let entries = 3u64.pow(lines as u32);
        assert!(answering(Call::Tabulate, 0).contains(&[5, 0, 0, entries, 0, 0]));
        assert!(answering(Call::Tabulate, 5).contains(&[5, 5, entries, 0, 0, 0]));
    }
    assert!(answering(Call::CheckCascade, 0).contains(&[3, 0, 0, 8_000, 0, 0]));
    assert!(answering(Call::CheckCascade, 7).contains(&[3, 7, 7_999, 0, 0, 0]));
    assert!(answering(Call::Price, 0).contains(&[7, 0, 0, 680_000, 0, 0]));
    assert!(answering(Call::Listing, 0).contains(&[14, 0, 0, 248_031, 0, 0]));
    assert!(answering(Call::Listing, 5).contains(&[14, 5, 248_031, 0, 0, 0]));
    assert!(answering(Call::WriteFile, 0).contains(&[10, 0, 0, 65_032, 0, 0]));
    assert!(answering(Call::WriteFile, 5).contains(&[10, 5, 65_032, 0, 0, 0]));
    assert!(answering(Call::ReadFile, 0).contains(&[11, 0, 0, 1, 8_000, 1_024]));
    assert!(answering(Call::ReadFile, 5).contains(&[11, 5, 8_000, 0, 0, 0]));
    assert!(answering(Call::ReadFile, 5).contains(&[11, 5, 1_024, 0, 0, 0]));
    assert!(answering(Call::Next, 0).contains(&[13, 0, 0, 0, u64::MAX, 0]));
    // The chart of 003: of 25 pairs 7 may change places, and then tidy in a step.
    let across = |case: &Case| {
        let gates = plain::gates(3, &case.stored);
        gates.len() == 3 && gates[0].controls[1] == Some(0) && gates[1].controls[2] == Some(0)
    };
    let chart: Vec<_> = cases()
        .into_iter()
        .filter(|case| case.call == Call::Tidy && case.lines == 3 && case.times == 0)
        .filter(|case| case.stored.len() == 24 && across(case))
        .map(|case| numbers(&case)[4])
        .collect();
    assert_eq!((chart.len(), chart.iter().sum::<u64>()), (25, 7));
}

#[test]
fn the_edges_of_lists_are_there() {
    assert!(answering(Call::ReadNames, 0).contains(&[16, 0, 0, 8_000, 0, 0]));
    assert!(answering(Call::ReadNames, 6).contains(&[16, 6, 0, 0, 0, 0]));
    for place in [0, 8_000, 9_000] {
        assert!(answering(Call::ReadNames, 12).contains(&[16, 12, place, 0, 0, 0]));
    }
    assert!(answering(Call::WriteNames, 0).contains(&[17, 0, 0, 248_000, 0, 0]));
    assert!(answering(Call::WriteNames, 5).contains(&[17, 5, 248_000, 0, 0, 0]));
    assert!(answering(Call::WriteNames, 7).contains(&[17, 7, 7_999, 0, 0, 0]));
}

#[test]
fn the_edges_of_boards_are_there() {
    // 8,000 of the dearest gates, fitted and not.
    for cost in [8_000 * 85, 8_000 * 86] {
        assert!(answering(Call::Price, 0).contains(&[7, 0, 0, cost, 0, 0]));
    }
    // One N, two D, four E, eight C1 that cost 3 and sixteen C2: 47, and 1 more for each
    // that isn't fitted. By the sets from 0 up, then 13 to the end.
    let prices = cases().into_iter().filter(|case| case.call == Call::Price && case.times == 16);
    let told: Vec<_> = prices.map(|case| (case.fitted, numbers(&case))).collect();
    let costs = [0, 47 + 5, 47 + 3, 47 + 1, 47 + 6, 47 + 4, 47 + 2, 47];
    assert_eq!(told.len(), 256);
    for (set, (fitted, numbers)) in told.into_iter().enumerate() {
        assert_eq!(fitted as usize, set);
        let expected = match costs.get(set) {
            Some(&cost) if set > 0 => [7, 0, 0, cost, 0, 0],
            _ => [7, 13, 0, 0, 0, 0],
        };
        assert_eq!(numbers, expected, "{set}");
    }
    // Some choices are other ones with another set.
    let [first, second] = ["C1 x0, C1 x0, C1 x0", "E x0, E x0"].map(gates);
    let choices = cases().into_iter().filter(|case| {
        case.call == Call::Choose && case.stored == first && case.more_stored == second
    });
    let chosen: Vec<_> = choices.map(|case| (case.fitted, numbers(&case)[3])).collect();
    assert_eq!(chosen, [(1, 1), (2, 2), (3, 2), (4, 1), (5, 1), (6, 2), (7, 2)]);
}

#[test]
fn the_edges_of_texts_are_there() {
    for lines in 1..=6 {
        let entries = 3u64.pow(lines);
        assert!(answering(Call::Serial, 0).contains(&[18, 0, 0, entries, 0, 0]));
        assert!(answering(Call::Serial, 5).contains(&[18, 5, entries, 0, 0, 0]));
        for number in [3, 4] {
            let last = [18, number, entries - 1, 0, 0, 0];
            assert!(answering(Call::Serial, number).contains(&last), "{number} on {lines} lines");
        }
    }
    for place in [0, 1, 65_529, 65_530, 65_534, 65_535] {
        assert!(answering(Call::Serial, 14).contains(&[18, 14, place, 0, 0, 0]), "{place}");
    }
    // The longest text, and those around it, whole and byte by byte.
    let lengths = |by_bytes: bool| {
        let of_call = cases().into_iter().filter(|case| case.call == Call::Serial);
        let cut_so = of_call.filter(move |case| case.more_bytes().ends_with(&[1; 256]) == by_bytes);
        cut_so.map(|case| case.bytes().len()).collect::<HashSet<_>>()
    };
    for length in [65_534, 65_535, 65_536] {
        assert!(lengths(true).contains(&length) && lengths(false).contains(&length));
    }
}

#[test]
fn long_tidying_takes_many_steps() {
    let tidied = gates_and_steps();
    for gates in [16, 17, 63, 64, 65, 80, 255, 256, 257, 272, 1_000, 8_000] {
        let steps = tidied.iter().filter(|(given, _)| *given == gates).map(|(_, steps)| *steps);
        let many = steps.filter(|&steps| steps >= gates as u64 / 4).count();
        assert!(many >= 3, "{many} cases of {gates} gates");
    }
}

/// The gates of each case of tidying, and the steps that it takes.
fn gates_and_steps() -> Vec<(usize, u64)> {
    let of_tidying = cases().into_iter().filter(|case| case.call == Call::Tidy);
    of_tidying.map(|case| (case.bytes().len() / 8, numbers(&case)[4])).collect()
}

#[test]
fn draws_are_the_generator_that_is_written_down() {
    // The states after seed 1, high halves.
    let mut state = 1u64;
    let mut next = |end: u64| {
        state = (state * 1_664_525 + 1_013_904_223) % (1 << 32);
        (state / 65_536 % end) as usize
    };
    let mut draws = Draws::from_seed(1);
    for end in [2, 3, 10, 729, 65_536] {
        assert_eq!(draws.below(end as usize), next(end));
    }
    for lines in 1..=6 {
        let table = Draws::from_seed(lines as u32).table(lines);
        assert_eq!(table.len(), 3usize.pow(lines as u32));
        assert!(!synthesized(lines as u8, &table).is_empty());
        let mut draws = Draws::from_seed(lines as u32);
        let records = [draws.cascade(lines, 50), draws.dense_cascade(lines, 50, 3)].concat();
        assert_eq!(plain::gates(lines, &records).len(), 100);
        let kinds: HashSet<_> = records[400..].chunks(8).collect();
        assert!(kinds.len() <= 3);
    }
}
