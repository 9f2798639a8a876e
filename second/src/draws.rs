//! Made-up tables and cascades from a generator that any program can repeat.

use crate::gate::{NO_CONTROL, RECORD};

/// A linear congruential generator of 32 bits. Its low bits are poor, so the
/// high half is used.
#[derive(Clone, Copy, Debug)]
pub struct Draws {
    state: u32,
}

impl Draws {
    pub fn from_seed(seed: u32) -> Draws {
        Draws { state: seed }
    }

    /// A number from 0 to end − 1. The state changes first.
    pub fn below(&mut self, end: usize) -> usize {
        self.state = self.state.wrapping_mul(1_664_525).wrapping_add(1_013_904_223);
        (self.state >> 16) as usize % end
    }

    /// A permutation.
    pub fn table(&mut self, lines: usize) -> Vec<u16> {
        let mut table: Vec<u16> = (0..3u16.pow(lines as u32)).collect();
        self.shuffle(&mut table);
        table
    }

    /// From the last down to number 1, each changes places with one drawn from those
    /// up to itself.
    pub fn shuffle<T>(&mut self, things: &mut [T]) {
        for last in (1..things.len()).rev() {
            things.swap(last, self.below(last + 1));
        }
    }

    /// A gate: the target, the operator, then from x0 up a control for each line
    /// but the target: 0, 1, 2, and from 3 on none.
    pub fn gate(&mut self, lines: usize) -> [u8; RECORD] {
        let mut record = [NO_CONTROL; RECORD];
        let target = self.below(lines);
        record[1] = target as u8;
        record[0] = 1 + self.below(5) as u8;
        for line in (0..lines).filter(|&line| line != target) {
            record[2 + line] = (self.below(6) as u8).min(NO_CONTROL);
        }
        record
    }

    /// So many gates, each drawn.
    pub fn cascade(&mut self, lines: usize, gates: usize) -> Vec<u8> {
        (0..gates).flat_map(|_| self.gate(lines)).collect()
    }

    /// So many gates out of a few, so that many pairs fit: the few are drawn
    /// first.
    pub fn dense_cascade(&mut self, lines: usize, gates: usize, kinds: usize) -> Vec<u8> {
        let kinds: Vec<_> = (0..kinds).map(|_| self.gate(lines)).collect();
        self.mixed(gates, &kinds)
    }

    /// The same out of gates that all pass each other: each of the few becomes a C1 or
    /// a C2 (C1 if its number was odd) on the last line, whose control goes to the line
    /// that was its target.
    pub fn passing_cascade(&mut self, lines: usize, gates: usize, kinds: usize) -> Vec<u8> {
        let kinds: Vec<_> = (0..kinds)
            .map(|_| {
                let mut gate = self.gate(lines);
                let target = gate[1] as usize;
                gate.swap(2 + target, 1 + lines);
                gate[0] = 2 - gate[0] % 2;
                gate[1] = lines as u8 - 1;
                gate
            })
            .collect();
        self.mixed(gates, &kinds)
    }

    /// So many gates, each drawn from some.
    fn mixed(&mut self, gates: usize, kinds: &[[u8; RECORD]]) -> Vec<u8> {
        (0..gates).flat_map(|_| kinds[self.below(kinds.len())]).collect()
    }
}
