//! Compares the proved library with the second program.
//!
//!     compare [COUNT] [SEED] [FIRST]
//!
//! takes the second program's listed cases and makes COUNT inputs more (a million
//! if not said) from a seed (1). It calls both with each, and compares the
//! answer's number, place and values and every lent byte, with the bytes around
//! what is lent. It prints how many inputs each call had and what became of them,
//! prices every gate on six lines, calls readers that are made up, starts the program
//! `tiles` on table files, and prints `no difference`; or the first difference, and ends
//! with status 1. Input k of a seed is always the same, and FIRST says with which to begin:
//! `compare 1 SEED K` makes input K alone, after the cases.

#![deny(unsafe_code)]

mod both;
mod inputs;
mod prices;
mod readers;
mod sheets;

use std::process::ExitCode;
use std::time::Instant;

use samples::Numbers;
use second::calls::Call;
use second::cases::cases;

use inputs::{newlines, Input};

fn main() -> ExitCode {
    let mut arguments = [1_000_000u64, 1, 0];
    let mut given = std::env::args().skip(1);
    for argument in &mut arguments {
        let Some(word) = given.next() else { break };
        match word.parse() {
            Ok(number) => *argument = number,
            Err(_) => return usage(),
        }
    }
    if given.next().is_some() {
        return usage();
    }
    let [count, seed, first] = arguments;

    let start = Instant::now();
    match compare_all(count, seed, first) {
        Ok(cases) => {
            let seconds = start.elapsed().as_secs_f64();
            println!("no difference: {cases} cases, {count} inputs of seed {seed}, {seconds:.1} s");
            ExitCode::SUCCESS
        }
        Err(difference) => {
            println!("{difference}");
            ExitCode::FAILURE
        }
    }
}

/// Compares on the listed cases, then on inputs of a seed, then the rest. Tells
/// how many cases were listed, or the first difference in words.
fn compare_all(count: u64, seed: u64, first: u64) -> Result<usize, String> {
    let mut tally = Tally::default();
    let listed = cases();
    for (number, case) in listed.iter().enumerate() {
        let input = Input::of_case(case, &mut Numbers::of(seed, number as u64));
        tally.compare(&input).map_err(|difference| {
            format!("difference at listed case {number}, in {}\n{difference}", described(&input))
        })?;
    }
    for done in 0..count {
        // If a call never comes back, this says where to look.
        if done > 0 && done.is_multiple_of(100_000) {
            eprintln!("{done} inputs");
        }
        let number = first.wrapping_add(done);
        let input = Input::make(&mut Numbers::of(seed, number));
        tally.compare(&input).map_err(|difference| {
            let described = described(&input);
            format!(
                "difference at input {number} of seed {seed}, in {described}\n{difference}\n\
                 again: compare 1 {seed} {number}"
            )
        })?;
    }
    tally.print();
    println!("{}", prices::compare()?);
    println!("{}", readers::check(seed)?);
    println!("{}", sheets::compare(seed)?);
    Ok(listed.len())
}

fn usage() -> ExitCode {
    eprintln!("use: compare [COUNT] [SEED] [FIRST]");
    ExitCode::from(2)
}

/// The last number on the refusal card.
const LAST_REFUSAL: usize = 14;

/// How many inputs each call had: accepted, then by refusal.
#[derive(Default)]
struct Tally {
    counts: [[u64; 1 + LAST_REFUSAL]; Call::ALL.len()],
    /// Inputs with 121 to 7,999 gates, and with 8,000 or more.
    long: [u64; 2],
}

impl Tally {
    /// Compares, and counts what was answered.
    fn compare(&mut self, input: &Input) -> Result<(), String> {
        let answer = both::compare(input)?;
        let number = (answer.number as usize).min(LAST_REFUSAL);
        self.counts[input.call.number() as usize - 1][number] += 1;
        let gates = match input.call {
            Call::ReadNames => newlines(&input.bytes),
            Call::Serial => 0,
            _ => input.bytes.len().max(input.more_bytes.len()) / 8,
        };
        self.long[0] += (121..8_000).contains(&gates) as u64;
        self.long[1] += (gates >= 8_000) as u64;
        Ok(())
    }

    fn print(&self) {
        print!("{:<14}{:>9}{:>9}", "call", "inputs", "accepted");
        (1..=LAST_REFUSAL).for_each(|number| print!("{number:>8}"));
        println!();
        let mut missing = vec![];
        for (call, counts) in Call::ALL.into_iter().zip(&self.counts) {
            print!("{:<14}{:>9}{:>9}", call.name(), counts.iter().sum::<u64>(), counts[0]);
            for (number, &count) in counts.iter().enumerate().skip(1) {
                let can_be = call.refusals().contains(&(number as u8));
                if count == 0 && !can_be {
                    print!("{:>8}", ".");
                } else {
                    print!("{count:>8}");
                }
                if count == 0 && can_be {
                    missing.push(format!("{} {number}", call.name()));
                }
            }
            println!();
        }
        let [long, longest] = self.long;
        println!("inputs with 121 to 7,999 gates: {long}; with 8,000 or more: {longest}");
        match missing.as_slice() {
            [] => println!("every refusal of every call was met"),
            missing => println!("not met: {}", missing.join(", ")),
        }
    }
}

/// An input in words. Long bytes are cut: the input can be made again.
fn described(input: &Input) -> String {
    let Input { lines, value, fitted, pattern, place, end, .. } = *input;
    let Input { entries, more_entries, room, note_room, null_if_empty, .. } = *input;
    let table = &input.table;
    let most = table.len().min(81);
    format!(
        "{}\n  lines {lines}, value {value}, fitted {fitted}, pattern {pattern}, \
         place {place}, end {end}\n  \
         table of {}: {:?}\n  bytes {}\n  more bytes {}\n  \
         rooms: {entries} entries and {more_entries}, {room} bytes, {note_room} bytes for a \
         note; empty as {}",
        input.call.name(),
        table.len(),
        &table[..most],
        hexadecimal(&input.bytes),
        hexadecimal(&input.more_bytes),
        if null_if_empty { "null" } else { "an address" },
    )
}

fn hexadecimal(bytes: &[u8]) -> String {
    let mut text = format!("({})", bytes.len());
    for record in bytes[..bytes.len().min(320)].chunks(8) {
        text.push(' ');
        record.iter().for_each(|byte| text.push_str(&format!("{byte:02x}")));
    }
    if bytes.len() > 320 {
        text.push_str(" ...");
    }
    text
}
