//! Records and texts that are wrong.

use crate::numbers::Numbers;

impl Numbers {
    /// Changes a byte, if there is one: to any, by a bit, or to a small number.
    pub fn change_a_byte(&mut self, bytes: &mut [u8]) {
        if bytes.is_empty() {
            return;
        }
        let place = self.below(bytes.len());
        bytes[place] = match self.below(4) {
            0 => self.byte(),
            1 => bytes[place] ^ 1 << self.below(8),
            2 => self.pick(&[0, 3, 4, 5, 6, 255]),
            _ => self.below(8) as u8,
        };
    }

    /// Breaks one of the rules of a record, if there is one: often the first or the
    /// last.
    pub fn spoil_a_gate(&mut self, lines: usize, bytes: &mut [u8]) {
        let count = bytes.len() / 8;
        if count == 0 {
            return;
        }
        let place = match self.below(4) {
            0 => 0,
            1 => count - 1,
            _ => self.below(count),
        };
        let record = &mut bytes[8 * place..8 * place + 8];
        let target = (record[1] as usize).min(5);
        match self.below(6) {
            0 => record[0] = self.pick(&[0, 6, 7, 255]),
            1 => record[1] = self.pick(&[lines as u8, 6, 7, 255]),
            2 => record[2 + target] = self.pick(&[0, 1, 2, 4, 255]),
            3 => record[2 + self.below(6)] = self.pick(&[4, 5, 7, 131, 255]),
            4 if lines < 6 => record[2 + lines + self.below(6 - lines)] = self.below(3) as u8,
            _ => record.fill(0),
        }
    }

    /// Changes a byte of a text, takes one out or puts one in: mostly such as stand in
    /// lines of gates, or the next to the one that was there.
    pub fn edit(&mut self, text: &mut Vec<u8>) {
        let byte = match self.below(8) {
            0 => self.byte(),
            _ => self.pick(b"+0123456789 x=\nX\rCDEN"),
        };
        let place = self.below(text.len() + 1);
        match self.below(4) {
            0 => text.insert(place, byte),
            1 if place < text.len() => drop(text.remove(place)),
            2 if place < text.len() => text[place] ^= 1 + (byte & 2),
            3 if place < text.len() => text[place] = byte,
            _ => drop(text.pop()),
        }
    }
}
