//! Running a cascade on all patterns at once, by what stands where.
//!
//! For each pattern the input is kept that the gates so far have brought there. A
//! gate exchanges inputs between the patterns on which it acts. These are few if
//! it has many controls: one row of three where all other lines are controls.

use crate::cascade::Cascade;
use crate::gate::{Gate, Type, CONTROLS, NO_CONTROL};
use crate::pattern::{MOST_LINES, MOST_PATTERNS, WEIGHT};

/// Writes what the cascade computes into a room of exactly 3^n entries.
pub(crate) fn tabulate(cascade: Cascade, entries: &mut [u16]) {
    let mut standing = UNTOUCHED;
    let board = board(cascade);
    for gate in cascade.gates() {
        apply(gate, board, &mut standing);
    }
    for (pattern, &input) in standing.iter().enumerate().take(entries.len()) {
        entries[input as usize] = pattern as u16;
    }
}

/// The rows of three patterns that a gate acts on, on average. Every eighth gate
/// is asked.
pub(crate) fn mean_rows(cascade: Cascade) -> usize {
    let lines = cascade.lines().count();
    let asked = cascade.gates().step_by(8);
    let gates = asked.len().max(1);
    let rows = asked.map(|gate| WEIGHT[lines - 1 - gate.control_count()] as usize);
    rows.sum::<usize>().div_ceil(gates)
}

/// The lines that there are, a bit each.
fn board(cascade: Cascade) -> usize {
    (1 << cascade.lines().count()) - 1
}

fn apply(gate: Gate, board: usize, standing: &mut [u16; MOST_PATTERNS]) {
    let Rows { first, others } = Rows::of(gate, board);
    let [one, two, three] = ORDER[gate.operator() as usize - 1][gate.target()];
    for other in others {
        let row = first + other;
        standing.swap((row + one) as usize, (row + two) as usize);
    }
    if gate.operator().kind() == Type::C {
        for other in others {
            let row = first + other;
            standing.swap((row + one) as usize, (row + three) as usize);
        }
    }
}

/// For each operator and target the places of the three digits in a row, so that
/// the operator exchanges what stands at the first two and then, if it is C1 or
/// C2, at the first and the third.
static ORDER: [[[u16; 3]; MOST_LINES]; 5] = {
    // E and then N takes 0 to 1, 1 to 2, 2 to 0; the other way round, back.
    let digits = [[0, 1, 2], [0, 2, 1], [0, 2, 1], [1, 2, 0], [0, 1, 2]];
    let mut order = [[[0; 3]; MOST_LINES]; 5];
    let mut place = 0;
    while place < 5 * MOST_LINES * 3 {
        let (operator, line, number) = (place % 5, place / 5 % MOST_LINES, place / 5 / MOST_LINES);
        order[operator][line][number] = digits[operator][number] * WEIGHT[line];
        place += 1;
    }
    order
};

/// The rows that a gate acts on, told by their patterns with 0 on the target.
struct Rows {
    first: u16,
    /// To be added to the first. One of them is 0.
    others: &'static [u16],
}

impl Rows {
    fn of(gate: Gate, board: usize) -> Rows {
        let Controls { values, bare } = &BY_CONTROLS[gate.packed_controls() as usize];
        let free = *bare as usize & board & !(1 << gate.target());
        let Free { count, patterns } = &BY_LINES[free];
        Rows { first: *values, others: &patterns[..*count] }
    }
}

/// What a gate's controls say.
#[derive(Clone, Copy)]
struct Controls {
    /// The pattern with their values and 0 on all other lines.
    values: u16,
    /// The other lines, a bit each.
    bare: u8,
}

static BY_CONTROLS: [Controls; CONTROLS] = {
    let mut all = [Controls { values: 0, bare: 0 }; CONTROLS];
    let mut packed = 0;
    while packed < CONTROLS {
        let mut line = 0;
        while line < MOST_LINES {
            match packed >> (2 * line) & 3 {
                value if value < NO_CONTROL as usize => {
                    all[packed].values += value as u16 * WEIGHT[line]
                }
                _ => all[packed].bare |= 1 << line,
            }
            line += 1;
        }
        packed += 1;
    }
    all
};

/// The patterns that have 0 on all lines but some, at most five.
#[derive(Clone, Copy)]
struct Free {
    count: usize,
    patterns: [u16; MOST_PATTERNS / 3],
}

/// By the lines that may have other digits, a bit each.
static BY_LINES: [Free; 1 << MOST_LINES] = {
    let mut all = [Free { count: 1, patterns: [0; MOST_PATTERNS / 3] }; 1 << MOST_LINES];
    let mut lines = 0;
    while lines + 1 < all.len() {
        let mut line = 0;
        while line < MOST_LINES {
            if lines >> line & 1 == 1 {
                all[lines] = with_line(all[lines], WEIGHT[line]);
            }
            line += 1;
        }
        lines += 1;
    }
    all
};

const fn with_line(free: Free, weight: u16) -> Free {
    let Free { count, mut patterns } = free;
    let mut place = 0;
    while place < count {
        patterns[count + place] = patterns[place] + weight;
        patterns[2 * count + place] = patterns[place] + 2 * weight;
        place += 1;
    }
    Free { count: 3 * count, patterns }
}

static UNTOUCHED: [u16; MOST_PATTERNS] = {
    let mut standing = [0; MOST_PATTERNS];
    let mut pattern = 0;
    while pattern < MOST_PATTERNS {
        standing[pattern] = pattern as u16;
        pattern += 1;
    }
    standing
};

#[cfg(test)]
mod tests {
    use super::*;
    use crate::draws::Draws;
    use crate::pattern::Lines;
    use crate::planes;

    /// Both ways of tabulating, whichever would be taken.
    #[test]
    fn what_stands_where_is_what_the_planes_say() {
        let mut draws = Draws::from_seed(7);
        for round in 0..1_200 {
            let lines = 1 + round % 6;
            let gates = draws.below(30);
            let records = match round % 3 {
                0 => draws.cascade(lines, gates),
                _ => draws.dense_cascade(lines, gates, 1 + round % 4),
            };
            let checked = Lines::check(lines as u8).unwrap();
            let cascade = Cascade::check(checked, &records).unwrap();
            let (mut one, mut other) = (vec![0; checked.patterns()], vec![0; checked.patterns()]);
            tabulate(cascade, &mut one);
            planes::tabulate(cascade, &mut other);
            assert_eq!(one, other);
        }
    }
}
