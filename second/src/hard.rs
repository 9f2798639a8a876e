//! Tables and cascades that take the calls longest, made by formula.

use crate::draws::Draws;
use crate::gate::Operator::{self, C1, C2, D, E, N};
use crate::gate::{NO_CONTROL, RECORD};

/// A table whose cascade has as many gates as the bound allows. When row i's turn
/// comes, its entry is i or more, so that the leading digits 2 of i are in place;
/// here all others differ, the highest of them by being larger.
pub fn hardest(lines: u8) -> Vec<u16> {
    let digit = |pattern: usize, line: u8| pattern / power(line) % 3;
    let mut table: Vec<u16> = (0..power(lines) as u16).collect();
    // What the procedure does, backward: the last row first, and in each row the
    // highest line first. A gate exchanges two patterns.
    for row in (0..power(lines)).rev() {
        let leading = (0..lines).rev().take_while(|&line| digit(row, line) == 2).count() as u8;
        let mut present = row;
        for line in (0..lines - leading).rev() {
            let from = digit(present, line);
            let to = if line + 1 == lines - leading { from + 1 } else { (from + 1) % 3 };
            let before = present + to * power(line) - from * power(line);
            for entry in &mut table {
                if *entry as usize == present {
                    *entry = before as u16;
                } else if *entry as usize == before {
                    *entry = present as u16;
                }
            }
            present = before;
        }
    }
    table
}

fn power(lines: u8) -> usize {
    3usize.pow(lines as u32)
}

/// How to make a cascade on six lines of any length: gates that only stand there,
/// then parts over and over.
#[derive(Clone, Debug, PartialEq, Eq)]
pub struct Recipe {
    /// So many D and E gates in turn come first, each blocked by the next.
    pub idle: usize,
    /// So many of [`standing_rows`] come then.
    pub standing: usize,
    /// The seed of their order; for 0 they come as they are counted.
    pub order: u32,
    /// These come last, over and over.
    pub parts: Vec<Part>,
}

/// Gates with one operator, one target and one set of control lines. The values
/// of the controls are the base-3 digits of a number that grows by a step.
#[derive(Clone, Copy, Debug, PartialEq, Eq)]
pub struct Part {
    pub operator: Operator,
    pub target: usize,
    /// The control lines, a bit each. The target's own bit says nothing.
    pub lines: usize,
    pub count: usize,
    pub start: usize,
    pub step: usize,
    /// Added to the start each time that the parts come again.
    pub drift: usize,
}

impl Recipe {
    /// So many gates.
    pub fn cascade(&self, gates: usize) -> Vec<u8> {
        let idle = [bare(D, 5), bare(E, 5)].into_iter().cycle().take(self.idle);
        let standing = standing_rows(self.order).into_iter().take(self.standing);
        let rounds = (0..).flat_map(|round| self.parts.iter().map(move |part| (round, part)));
        let parts = rounds.flat_map(|(round, part)| part.gates(round));
        idle.chain(standing).chain(parts).take(gates).flatten().collect()
    }
}

impl Part {
    /// The gates of this part when the parts come for so many times again.
    fn gates(&self, round: usize) -> impl Iterator<Item = [u8; RECORD]> + '_ {
        let start = self.start + round * self.drift;
        (0..self.count).map(move |number| self.gate(start + number * self.step))
    }

    fn gate(&self, mut values: usize) -> [u8; RECORD] {
        let mut record = bare(self.operator, self.target);
        for line in (0..6).filter(|&line| line != self.target && self.lines >> line & 1 == 1) {
            record[2 + line] = (values % 3) as u8;
            values /= 3;
        }
        record
    }
}

fn bare(operator: Operator, target: usize) -> [u8; RECORD] {
    let mut record = [NO_CONTROL; RECORD];
    record[..2].copy_from_slice(&[operator.number(), target as u8]);
    record
}

/// C1 and C2 gates on one target: all pass each other, and no two fit. The values
/// of a C1's controls add up to a multiple of three, those of a C2's to one more.
/// So with equal control lines two of one operator differ in two values or more,
/// and two of both in one or more. There are 683. They come in an order drawn from a
/// seed, or for 0 as they are counted.
pub fn standing_rows(order: u32) -> Vec<[u8; RECORD]> {
    let mut rows = vec![];
    for controls in 0..4usize.pow(5) {
        let mut record = bare(C1, 5);
        for line in 0..5 {
            record[2 + line] = (controls >> (2 * line) & 3) as u8;
        }
        let values = record[2..].iter().filter(|&&value| value != NO_CONTROL);
        match values.map(|&value| value as usize).sum::<usize>() % 3 {
            0 => rows.push(record),
            1 => {
                record[0] = C2.number();
                rows.push(record);
            }
            _ => {}
        }
    }
    if order != 0 {
        Draws::from_seed(order).shuffle(&mut rows);
    }
    rows
}

/// Gates on x5 with controls on the first so many lines.
pub fn words(operator: Operator, controls: usize, count: usize, start: usize, step: usize) -> Part {
    let lines = (1 << controls) - 1;
    Part { operator, target: 5, lines, count, start, step, drift: 0 }
}

/// Gates with five controls, of which nearly every one loses its controls step by
/// step and then goes with another: two numbers in turn, both growing by five.
pub fn chains() -> Vec<Part> {
    [188, 21].map(|start| Part { drift: 5, ..words(N, 5, 1, start, 0) }).into()
}

/// Few gates in which many steps are possible; each segment blocks the one before,
/// and most gates stay.
pub fn segments() -> Vec<Part> {
    vec![words(D, 4, 38, 0, 50), words(E, 4, 38, 0, 50)]
}

/// The worst that were thought of or found. Segments alone come first.
pub fn hard() -> [(&'static str, Recipe); 8] {
    let rotations = vec![words(C1, 5, 243, 0, 212), words(C2, 5, 243, 0, 212)];
    let equal = |operator, start| vec![words(operator, 5, 1, start, 0)];
    let recipe = |idle, standing, order, parts| Recipe { idle, standing, order, parts };
    [
        ("segments", recipe(0, 0, 0, segments())),
        ("chains", recipe(0, 0, 0, chains())),
        ("chains behind 683 that pass all", recipe(0, 683, 0, rotations)),
        ("segments behind idle gates", recipe(2_000, 0, 0, segments())),
        ("chains behind idle gates", recipe(3_500, 0, 0, chains())),
        ("equal gates behind 683 that pass all", recipe(0, 683, 0, equal(C1, 134))),
        ("equal gates behind 683, shuffled", recipe(0, 683, 30, equal(C2, 105))),
        ("equal gates behind 250 of them, shuffled", recipe(0, 250, 29, equal(C2, 153))),
    ]
}
