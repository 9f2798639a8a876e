//! Running a cascade on all patterns at once, by bits.
//!
//! For each line and each digit there is a plane: one bit for each input, set
//! where the line now holds that digit. A gate then takes a few operations on
//! whole planes, sixty-four inputs to a word, whatever its controls are. A
//! fourth plane of each line is all ones, so that the control byte 3 (none) asks
//! for it like any other value and needs no test.

use std::mem::swap;

use crate::cascade::Cascade;
use crate::gate::{Gate, Operator, NO_CONTROL};
use crate::pattern::{Lines, MOST_LINES, MOST_PATTERNS, WEIGHT};

/// The words that 729 inputs take.
const MOST_WORDS: usize = MOST_PATTERNS.div_ceil(64);

type Plane<const WORDS: usize> = [u64; WORDS];

/// The planes of a line, for the digits 0, 1, 2 and for "none".
type Line<const WORDS: usize> = [Plane<WORDS>; 4];

/// The words of a plane: what a gate costs grows with them.
pub(crate) fn words(lines: Lines) -> usize {
    lines.patterns().div_ceil(64)
}

/// Writes what the cascade computes into a room of exactly 3^n entries.
pub(crate) fn tabulate(cascade: Cascade, entries: &mut [u16]) {
    match words(cascade.lines()) {
        1 => Planes::<1>::after(cascade).write(entries),
        2 => Planes::<2>::after(cascade).write(entries),
        3..=4 => Planes::<4>::after(cascade).write(entries),
        _ => Planes::<MOST_WORDS>::after(cascade).write(entries),
    }
}

struct Planes<const WORDS: usize> {
    lines: [Line<WORDS>; MOST_LINES],
}

impl<const WORDS: usize> Planes<WORDS> {
    /// Every input as the cascade leaves it.
    fn after(cascade: Cascade) -> Self {
        let mut planes = Self::untouched();
        for gate in cascade.gates() {
            if gate.controlled() == 0 {
                planes.apply_to_all(gate);
            } else {
                planes.apply(gate);
            }
        }
        planes
    }

    /// Each input as it comes in. On fewer lines the last word also has bits for
    /// patterns from 3^n up; they go along and do no harm.
    fn untouched() -> Self {
        let mut lines = [[[0; WORDS]; 4]; MOST_LINES];
        for (line, all) in lines.iter_mut().zip(&UNTOUCHED) {
            for (plane, all) in line.iter_mut().zip(all) {
                plane.copy_from_slice(&all[..WORDS]);
            }
        }
        Planes { lines }
    }

    fn apply(&mut self, gate: Gate) {
        let fires = self.fires(gate);
        let [zero, one, two, _] = &mut self.lines[gate.target()];
        match gate.operator() {
            Operator::C1 => rotate_where(&fires, [zero, one, two]),
            Operator::C2 => rotate_where(&fires, [two, one, zero]),
            Operator::N => exchange_where(&fires, zero, two),
            Operator::D => exchange_where(&fires, one, two),
            Operator::E => exchange_where(&fires, zero, one),
        }
    }

    /// Without controls whole planes change places.
    fn apply_to_all(&mut self, gate: Gate) {
        let [zero, one, two, _] = &mut self.lines[gate.target()];
        match gate.operator() {
            Operator::C1 => {
                swap(zero, one);
                swap(zero, two);
            }
            Operator::C2 => {
                swap(zero, two);
                swap(zero, one);
            }
            Operator::N => swap(zero, two),
            Operator::D => swap(one, two),
            Operator::E => swap(zero, one),
        }
    }

    /// The inputs for which all control lines hold their values.
    fn fires(&self, gate: Gate) -> Plane<WORDS> {
        let asked = |line: usize| &self.lines[line][gate.control_byte(line) as usize];
        let (a, b, c) = (asked(0), asked(1), asked(2));
        let (d, e, f) = (asked(3), asked(4), asked(5));
        let mut fires = [0; WORDS];
        for (word, fires) in fires.iter_mut().enumerate() {
            // In pairs, so that none waits for all others.
            *fires = (a[word] & b[word]) & (c[word] & d[word]) & (e[word] & f[word]);
        }
        fires
    }

    fn write(&self, entries: &mut [u16]) {
        for (group, entries) in entries.chunks_mut(4).enumerate() {
            let (word, place) = (group / 16, 4 * (group % 16));
            let spread = |plane: &Plane<WORDS>| SPREAD[(plane[word] >> place & 15) as usize];
            let mut four = 0;
            for ([_, one, two, _], weight) in self.lines.iter().zip(WEIGHT) {
                four += weight as u64 * (spread(one) + 2 * spread(two));
            }
            for (number, entry) in entries.iter_mut().enumerate() {
                *entry = (four >> (16 * number)) as u16;
            }
        }
    }
}

/// Exchanges two planes' bits where another has its bits set.
fn exchange_where<const WORDS: usize>(
    fires: &Plane<WORDS>,
    one: &mut Plane<WORDS>,
    other: &mut Plane<WORDS>,
) {
    for word in 0..WORDS {
        let moved = (one[word] ^ other[word]) & fires[word];
        one[word] ^= moved;
        other[word] ^= moved;
    }
}

/// Moves bits from each plane to the next, and from the last to the first, where
/// another has its bits set.
fn rotate_where<const WORDS: usize>(fires: &Plane<WORDS>, planes: [&mut Plane<WORDS>; 3]) {
    let [first, second, third] = planes;
    for word in 0..WORDS {
        let one = first[word] & fires[word];
        let two = second[word] & fires[word];
        let three = third[word] & fires[word];
        first[word] ^= one ^ three;
        second[word] ^= two ^ one;
        third[word] ^= three ^ two;
    }
}

/// Four bits as the lowest bits of four numbers of 16 bits.
static SPREAD: [u64; 16] = {
    let mut spread = [0; 16];
    let mut bits = 0;
    while bits < 16 {
        spread[bits as usize] = bits & 1 | (bits & 2) << 15 | (bits & 4) << 30 | (bits & 8) << 45;
        bits += 1;
    }
    spread
};

static UNTOUCHED: [Line<MOST_WORDS>; MOST_LINES] = {
    let mut lines = [[[0; MOST_WORDS]; 4]; MOST_LINES];
    let mut line = 0;
    while line < MOST_LINES {
        lines[line][NO_CONTROL as usize] = [u64::MAX; MOST_WORDS];
        let mut pattern = 0;
        while pattern < MOST_PATTERNS {
            let digit = pattern / WEIGHT[line] as usize % 3;
            lines[line][digit][pattern / 64] |= 1 << (pattern % 64);
            pattern += 1;
        }
        line += 1;
    }
    lines
};
