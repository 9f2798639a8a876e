//! The program itself, over standard input and output.

use std::io::Write;
use std::process::{Command, Output, Stdio};

use samples::Numbers;
use second::cases::cases;
use second::vectors::{lines, write_cases};

fn program(arguments: &[&str], input: &[u8]) -> Output {
    let mut child = Command::new(env!("CARGO_BIN_EXE_second"))
        .args(arguments)
        .stdin(Stdio::piped())
        .stdout(Stdio::piped())
        .stderr(Stdio::piped())
        .spawn()
        .unwrap();
    // A program that has seen enough need not read the rest.
    let _ = child.stdin.take().unwrap().write_all(input);
    child.wait_with_output().unwrap()
}

#[test]
fn it_prints_what_the_library_says() {
    let mut numbers = Numbers::from_seed(23);
    let mut inputs = vec![vec![], vec![0], vec![1], vec![7; 100], vec![6; 1_459], vec![6; 1_460]];
    inputs.push(vec![3; 1_000_000]);
    for lines in 1..=6 {
        let mut file = vec![lines as u8];
        file.extend(numbers.table(lines).iter().flat_map(|entry| entry.to_le_bytes()));
        inputs.push(file.clone());
        file.push(0);
        inputs.push(file);
    }
    for input in inputs {
        let output = program(&["sheet"], &input);
        assert!(output.status.success());
        assert_eq!(output.stdout, second::sheet::text(&input));
        assert!(output.stderr.is_empty());
    }
}

#[test]
fn it_writes_cases_and_prints_their_lines() {
    let file = program(&["cases"], &[]);
    assert!(file.status.success());
    assert_eq!(file.stdout, write_cases(&cases()));
    let printed = program(&["vectors"], &file.stdout);
    assert!(printed.status.success());
    assert_eq!(printed.stdout, lines(&cases()).into_bytes());

    let refused = program(&["vectors"], &file.stdout[1..]);
    assert_eq!(refused.status.code(), Some(1));
    assert!(refused.stdout.is_empty());
    assert_eq!(refused.stderr, b"second: these are no cases\n");
}

/// N x0 where x1 holds 2, and E x1 where x0 holds 0: a control's value has weight 1 on
/// x0 and 4 on x1, and 3 is none.
#[test]
fn it_prints_what_a_reader_hands_out() {
    let records = [3, 0, 3, 2, 3, 3, 3, 3, 5, 1, 0, 3, 3, 3, 3, 3];
    let mut file = b"a note".to_vec();
    file.extend(records);
    file.extend([16, 0, 0, 0, 2, 0, 2, 1]);
    let printed = |file: &[u8]| {
        let output = program(&["turns"], file);
        assert!(output.status.success());
        String::from_utf8(output.stdout).unwrap()
    };
    assert_eq!(printed(&file), "gate 3 0 4091\ngate 5 1 4092\nend\nend\n");
    // A refused file gives a reader of no lines.
    file[7 + 8] = 9;
    assert_eq!(printed(&file), "refused 1 at 0\n".repeat(4));
    assert_eq!(printed(&[]), "refused 1 at 0\n");
}

#[test]
fn it_says_how_it_is_used() {
    for arguments in [&[][..], &["table"], &["sheet", "more"], &["cases", "vectors"]] {
        let output = program(arguments, &[]);
        assert_eq!(output.status.code(), Some(2));
        assert!(output.stdout.is_empty());
        assert!(output.stderr.starts_with(b"use: second sheet"));
    }
}
