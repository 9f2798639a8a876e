//! The program `tiles`, from start to end of the process.

use std::fs::{self, File};
use std::io;
use std::path::Path;
use std::process::{Command, Stdio};
use std::time::Instant;

use second::sheet;

use crate::clock::{times, Times};
use crate::report::duration;

/// How often each process is started.
const STARTS: usize = 300;

/// What the program may take beyond a process that does nothing, in seconds.
const AIM: f64 = 0.003;

/// Times the program on the six-line door counter, from standard input to standard
/// output, beside a process that does nothing. Tells whether the aim is met; where
/// there is no program to be timed, nothing is missed.
pub fn print() -> bool {
    println!();
    let Some(program) = compare::program::find() else {
        println!("tiles isn't timed: it is built for x86-64, which this machine isn't");
        return true;
    };
    let table = Path::new(env!("CARGO_MANIFEST_DIR")).join("../examples/door6.table");
    match start_in_turn(&program, &table) {
        Ok([tiles, nothing]) => {
            let more = tiles.median - nothing.median;
            println!("{:<46}{:>10}{:>10}", "process", "median", "least");
            for (name, times) in [("tiles < examples/door6.table", tiles), ("true", nothing)] {
                println!("{name:<46}{:>10}{:>10}", duration(times.median), duration(times.least));
            }
            let missed = if more > AIM { ", missed *" } else { "" };
            println!("beyond process start: {}, aim {}{missed}", signed(more), duration(AIM));
            more <= AIM
        }
        Err(error) => {
            println!("the program isn't timed: {}: {error}", program.display());
            false
        }
    }
}

fn signed(seconds: f64) -> String {
    let sign = if seconds < 0.0 { "-" } else { "" };
    format!("{sign}{}", duration(seconds.abs()))
}

/// The program's times, and those of `true`. The program must print what the second
/// program does.
fn start_in_turn(program: &Path, input: &Path) -> io::Result<[Times; 2]> {
    let text = sheet::text(&fs::read(input)?);
    let mut taken = [vec![], vec![]];
    for _ in 0..STARTS {
        taken[0].push(start(program, input, &text)?);
        taken[1].push(start(Path::new("true"), input, b"")?);
    }
    Ok(taken.map(times))
}

/// Seconds until a process has ended and its output has been read.
fn start(program: &Path, input: &Path, text: &[u8]) -> io::Result<f64> {
    let input = File::open(input)?;
    let start = Instant::now();
    let output = Command::new(program).stdin(input).stderr(Stdio::null()).output()?;
    let taken = start.elapsed().as_secs_f64();
    if output.stdout == text {
        Ok(taken)
    } else {
        Err(io::Error::other("it prints something else"))
    }
}
