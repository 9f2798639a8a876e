//! The program. `second sheet < tablefile` prints the listing of the table's
//! cascade, or the refusal. The others are for comparing programs: `cases`
//! writes test cases, `vectors` reads them and prints what each must answer,
//! `digests` prints sums over many tables and cascades, and `turns < cascadefile`
//! prints what a reader hands out.

use std::io::{self, Read, Write};
use std::process::ExitCode;

use second::answer::Answer;
use second::{cases, digests, sheet, turns, vectors};

fn main() -> ExitCode {
    let arguments: Vec<_> = std::env::args_os().skip(1).collect();
    let printed = match arguments.as_slice() {
        [what] if what == "sheet" => print_sheet(),
        [what] if what == "cases" => print(&vectors::write_cases(&cases::cases())),
        [what] if what == "vectors" => print_vectors(),
        [what] if what == "digests" => print_digests(digests::report()),
        [what] if what == "turns" => print_turns(),
        _ => {
            eprintln!("use: second sheet < tablefile");
            eprintln!("     second cases > casefile");
            eprintln!("     second vectors < casefile");
            eprintln!("     second digests");
            eprintln!("     second turns < cascadefile");
            return ExitCode::from(2);
        }
    };
    match printed {
        Ok(()) => ExitCode::SUCCESS,
        Err(error) => {
            eprintln!("second: {error}");
            ExitCode::FAILURE
        }
    }
}

fn print(bytes: &[u8]) -> io::Result<()> {
    io::stdout().lock().write_all(bytes)
}

fn print_sheet() -> io::Result<()> {
    let mut file = Vec::new();
    // A byte more than any good file has shows a file that is too long, however
    // much would follow.
    io::stdin().lock().take(sheet::LONGEST_TABLE_FILE as u64 + 1).read_to_end(&mut file)?;
    print(&sheet::text(&file))
}

fn print_vectors() -> io::Result<()> {
    let mut file = Vec::new();
    io::stdin().lock().read_to_end(&mut file)?;
    let Some(cases) = vectors::read_cases(&file) else {
        return Err(io::Error::other("these are no cases"));
    };
    print(vectors::lines(&cases).as_bytes())
}

fn print_turns() -> io::Result<()> {
    let mut file = Vec::new();
    io::stdin().lock().read_to_end(&mut file)?;
    print(turns::text(&file).as_bytes())
}

fn print_digests(report: Answer<String>) -> io::Result<()> {
    match report {
        Ok(text) => print(text.as_bytes()),
        Err(refusal) => Err(io::Error::other(format!("{refusal:?}"))),
    }
}
