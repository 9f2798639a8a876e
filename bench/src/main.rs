//! Times the proved library beside the second program.
//!
//!     bench [WORD]
//!
//! prints a line for each call and input, both sides on the same input in one run:
//! the median and the least time of a call and the ratio of the least times, with a
//! star where the ratio is above the aim; then how times grow with gates and with
//! lines; then how long the program `tiles` takes. With a WORD, only the lines of
//! the first table that have it in their name.
//!
//!     bench runs COUNT
//!
//! prints the first table so many times, then for each line the medians over all runs of
//! each side's least time and of the ratio, and the least and the largest ratio. If an
//! aim is missed, by the median where there are several runs, the program ends with
//! status 1.
//!
//!     bench worst SECONDS [SEED] [GATES]
//!
//! searches for cascades that take the proved library long to tidy.

#![deny(unsafe_code)]

mod calls;
mod clock;
mod growth;
mod inputs;
mod program;
mod report;
mod rows;
mod worst;

use std::process::ExitCode;
use std::time::Duration;

use calls::Timer;
use inputs::MOST_GATES;
use report::Report;

fn main() -> ExitCode {
    let arguments: Vec<String> = std::env::args().skip(1).collect();
    let words: Vec<&str> = arguments.iter().map(String::as_str).collect();
    let met = match words.as_slice() {
        [] => print_all(),
        ["worst", numbers @ ..] => return search(numbers),
        ["runs", count] => match count.parse() {
            Ok(count) => print_rows("", count),
            Err(_) => return usage(),
        },
        [word] => print_rows(word, 1),
        _ => return usage(),
    };
    if met {
        ExitCode::SUCCESS
    } else {
        ExitCode::FAILURE
    }
}

fn usage() -> ExitCode {
    eprintln!("use: bench [WORD]");
    eprintln!("     bench runs COUNT");
    eprintln!("     bench worst SECONDS [SEED] [GATES]");
    ExitCode::from(2)
}

/// Tells whether all aims are met.
fn print_all() -> bool {
    println!(
        "Times of a call. Rooms are filled once and not cleared between calls; tidying, which"
    );
    println!(
        "changes what it reads, gets a new copy for each call, outside the clock. The size is"
    );
    println!("entries of a table, gates of a cascade, tables, or bytes of a text.\n");
    let met = print_rows("", 1);
    growth::print(&Timer { patience: Duration::from_millis(120) });
    program::print() && met
}

/// Tells whether all aims are met.
fn print_rows(word: &str, runs: usize) -> bool {
    let mut report = Report::new(word, Timer { patience: Duration::from_millis(800) });
    for _ in 0..runs {
        report.start_run();
        rows::print(&mut report);
    }
    report.end()
}

fn search(arguments: &[&str]) -> ExitCode {
    let numbers: Result<Vec<u64>, _> = arguments.iter().map(|word| word.parse()).collect();
    let (seconds, seed, gates) = match numbers.as_deref() {
        Ok([seconds]) => (*seconds, 1, MOST_GATES),
        Ok([seconds, seed]) => (*seconds, *seed, MOST_GATES),
        Ok([seconds, seed, gates]) => (*seconds, *seed, *gates as usize),
        _ => return usage(),
    };
    worst::search(Duration::from_secs(seconds), seed, gates.min(MOST_GATES));
    ExitCode::SUCCESS
}
