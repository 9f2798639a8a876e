//! Good tables, gates and cascades.

use crate::numbers::Numbers;

impl Numbers {
    /// A permutation of 0 to 3^n − 1.
    pub fn table(&mut self, lines: usize) -> Vec<u16> {
        let mut table: Vec<u16> = (0..3u16.pow(lines as u32)).collect();
        self.shuffle(&mut table);
        table
    }

    /// A gate; each other line is a control in so many of a hundred cases.
    pub fn gate(&mut self, lines: usize, controls: usize) -> [u8; 8] {
        let mut record = [3; 8];
        let target = self.below(lines);
        record[0] = 1 + self.below(5) as u8;
        record[1] = target as u8;
        for line in (0..lines).filter(|&line| line != target) {
            if self.below(100) < controls {
                record[2 + line] = self.below(3) as u8;
            }
        }
        record
    }

    pub fn cascade(&mut self, lines: usize, gates: usize, controls: usize) -> Vec<u8> {
        (0..gates).flat_map(|_| self.gate(lines, controls)).collect()
    }

    /// A cascade of so many distinct gates at most: if they are few, many pairs fit.
    pub fn dense_cascade(
        &mut self,
        lines: usize,
        gates: usize,
        kinds: usize,
        controls: usize,
    ) -> Vec<u8> {
        let kinds: Vec<_> = (0..kinds).map(|_| self.gate(lines, controls)).collect();
        (0..gates).flat_map(|_| self.pick(&kinds)).collect()
    }

    /// Gates with one target, all N, all D, all E, or each C1 or C2: all may change
    /// places.
    pub fn passing_cascade(&mut self, lines: usize, gates: usize, controls: usize) -> Vec<u8> {
        let (target, operator) = (self.below(lines), 1 + self.below(5) as u8);
        let gates = (0..gates).flat_map(|_| {
            let mut gate = self.gate(lines, controls);
            let before = gate[1] as usize;
            gate.swap(2 + before, 2 + target);
            gate[1] = target as u8;
            gate[0] = if operator <= 2 { 1 + self.below(2) as u8 } else { operator };
            gate
        });
        gates.collect()
    }

    /// A cascade and then its inverse: they meet in the middle and cancel outward
    /// from there.
    pub fn there_and_back(&mut self, lines: usize, half: usize, controls: usize) -> Vec<u8> {
        let there: Vec<_> = (0..half).map(|_| self.gate(lines, controls)).collect();
        let back = there.iter().rev().map(|&gate| inverse(gate));
        there.iter().copied().chain(back).flatten().collect()
    }
}

/// C1 and C2 are each other's, the swaps their own.
pub fn inverse(mut gate: [u8; 8]) -> [u8; 8] {
    gate[0] = match gate[0] {
        1 => 2,
        2 => 1,
        swap => swap,
    };
    gate
}
