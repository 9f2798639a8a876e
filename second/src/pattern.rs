//! Line counts, patterns and their digits.

use crate::answer::{Answer, Refusal};

/// The most lines a board has.
pub const MOST_LINES: usize = 6;

/// The patterns of six lines. Those of fewer lines are the first of them.
pub const MOST_PATTERNS: usize = 729;

/// The weight of each line's digit in a pattern.
pub const WEIGHT: [u16; MOST_LINES] = [1, 3, 9, 27, 81, 243];

/// A number of lines from 1 to 6.
#[derive(Clone, Copy, Debug, PartialEq, Eq)]
pub struct Lines(u8);

impl Lines {
    /// Refusal 1.
    pub fn check(lines: u8) -> Answer<Lines> {
        if (1..=MOST_LINES as u8).contains(&lines) {
            Ok(Lines(lines))
        } else {
            Err(Refusal::lines_not_1_to_6())
        }
    }

    pub fn count(self) -> usize {
        self.0 as usize
    }

    /// 3^n.
    pub fn patterns(self) -> usize {
        3usize.pow(self.0 as u32)
    }

    /// The most gates that synthesis finds, and the room it asks: n·3^n − (3^n − 1)/2.
    pub fn gate_bound(self) -> usize {
        self.count() * self.patterns() - (self.patterns() - 1) / 2
    }
}

/// The digits of a pattern, one byte a line with x0 lowest.
///
/// These are the places that the lines' control bytes have in a gate record, so
/// that one comparison of a masked word tells whether a gate fires.
#[derive(Clone, Copy, Debug, PartialEq, Eq)]
pub struct Digits(pub(crate) u64);

impl Digits {
    /// The digits of a pattern of six lines; no pattern is 729 or more.
    pub fn of(pattern: usize) -> Option<Digits> {
        DIGITS.get(pattern).copied()
    }

    pub fn pattern(self) -> u16 {
        (0..MOST_LINES).map(|line| self.digit(line) as u16 * WEIGHT[line]).sum()
    }

    /// The digit of a line below six.
    pub(crate) fn digit(self, line: usize) -> u8 {
        (self.0 >> (8 * line)) as u8 & 3
    }
}

/// The digits of every pattern, since dividing afresh costs more than looking.
pub(crate) static DIGITS: [Digits; MOST_PATTERNS] = {
    let mut all = [Digits(0); MOST_PATTERNS];
    let mut pattern = 0;
    while pattern < MOST_PATTERNS {
        let mut line = 0;
        while line < MOST_LINES {
            let digit = pattern / WEIGHT[line] as usize % 3;
            all[pattern].0 |= (digit as u64) << (8 * line);
            line += 1;
        }
        pattern += 1;
    }
    all
};
