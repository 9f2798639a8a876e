//! The program `tiles`, as users start it.

use std::io::{self, Write};
use std::path::{Path, PathBuf};
use std::process::{Command, Stdio};
use std::{env, thread};

/// The built program: crates/tiles/out/tiles, which is for x86-64, or the one that
/// TILES_PROGRAM names. None on another machine if none is named.
pub fn find() -> Option<PathBuf> {
    match env::var_os("TILES_PROGRAM") {
        Some(named) => Some(PathBuf::from(named)),
        None if cfg!(target_arch = "x86_64") => {
            Some(Path::new(env!("CARGO_MANIFEST_DIR")).join("../crates/tiles/out/tiles"))
        }
        None => None,
    }
}

/// What the program prints for these bytes of standard input. It must end well and
/// say nothing on standard error.
pub fn print(program: &Path, input: &[u8]) -> io::Result<Vec<u8>> {
    let pipe = Stdio::piped;
    let mut child = Command::new(program).stdin(pipe()).stdout(pipe()).stderr(pipe()).spawn()?;
    let mut stdin = child.stdin.take().ok_or(io::ErrorKind::BrokenPipe)?;
    let output = thread::scope(|scope| {
        // A program that has seen enough need not read the rest.
        scope.spawn(move || drop(stdin.write_all(input)));
        child.wait_with_output()
    })?;
    if output.status.success() && output.stderr.is_empty() {
        Ok(output.stdout)
    } else {
        Err(io::Error::other(format!("{}, {:?}", output.status, output.stderr)))
    }
}
