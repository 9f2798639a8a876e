//! A refusal in two numbers, and a few figures.

use second::answer::Refusal;

pub fn refused<T>(number: u8, place: usize) -> Result<T, Refusal> {
    Err(Refusal { number, place })
}

pub fn identity(lines: usize) -> Vec<u16> {
    (0..3u16.pow(lines as u32)).collect()
}

/// n·3^n − (3^n − 1)/2, as document 01 prints it.
pub const BOUND: [usize; 7] = [0, 2, 14, 68, 284, 1_094, 4_010];

/// D, E and N.
pub const ALL_FITTED: u8 = 1 + 2 + 4;

/// Numbers that no board has lines.
pub const NO_LINES: [u8; 6] = [0, 7, 8, 100, 254, 255];
