//! Cascades: checking, running, inverting and pricing them.

use crate::answer::{Answer, Refusal};
use crate::gate::{faults, Gate, Operator, CONTROLS, NO_CONTROL, RECORD};
use crate::pattern::{Digits, Lines, MOST_LINES};

/// The most gates of a cascade.
pub const MOST_GATES: usize = 8_000;

/// Is this a cascade on so many lines? Refusals 1, 6, 7; the answer is the
/// number of gates.
pub fn check(lines: u8, cascade: &[u8]) -> Answer<usize> {
    let cascade = Cascade::check(Lines::check(lines)?, cascade)?;
    Ok(cascade.len())
}

/// What the cascade makes of a pattern. Refusals 1, 6, 7, 8.
pub fn run(lines: u8, cascade: &[u8], pattern: u16) -> Answer<u16> {
    let lines = Lines::check(lines)?;
    let cascade = Cascade::check(lines, cascade)?;
    match Digits::of(pattern as usize) {
        Some(digits) if (pattern as usize) < lines.patterns() => {
            let after = cascade.gates().fold(digits, |digits, gate| gate.apply(digits));
            Ok(after.pattern())
        }
        _ => Err(Refusal::pattern_too_large()),
    }
}

/// Writes the cascade that undoes this one: reversed, each gate replaced by its
/// inverse. Refusals 1, 6, 7, 5; the answer is the number of gates.
pub fn invert(lines: u8, cascade: &[u8], room: &mut [u8]) -> Answer<usize> {
    let cascade = Cascade::check(Lines::check(lines)?, cascade)?;
    let (room, _) = room.as_chunks_mut::<RECORD>();
    let Some(room) = room.get_mut(..cascade.len()) else {
        return Err(Refusal::room_too_small(cascade.len()));
    };
    for (record, gate) in room.iter_mut().rev().zip(cascade.gates()) {
        *record = gate.inverse().record();
    }
    Ok(cascade.len())
}

/// The quantum cost on a board with such a global control value and such operators
/// fitted. Refusals 1, 10, 13, 6, 7.
pub fn price(lines: u8, value: u8, fitted: u8, cascade: &[u8]) -> Answer<u32> {
    let (lines, value, fitted) = check_board(lines, value, fitted)?;
    Ok(Cascade::check(lines, cascade)?.cost(value, fitted))
}

/// What is told of a board. Refusals 1, 10, 13.
pub(crate) fn check_board(
    lines: u8,
    value: u8,
    fitted: u8,
) -> Answer<(Lines, GlobalValue, Fitted)> {
    Ok((Lines::check(lines)?, GlobalValue::check(value)?, Fitted::check(fitted)?))
}

/// A checked cascade on a known number of lines.
#[derive(Clone, Copy)]
pub struct Cascade<'a> {
    lines: Lines,
    records: &'a [[u8; RECORD]],
}

impl<'a> Cascade<'a> {
    /// Refusals 6, 7.
    pub fn check(lines: Lines, bytes: &'a [u8]) -> Answer<Cascade<'a>> {
        let (records, odd_bytes) = bytes.as_chunks::<RECORD>();
        if !odd_bytes.is_empty() || records.len() > MOST_GATES {
            return Err(Refusal::cascade_length());
        }
        if records.iter().fold(0, |all, &record| all | faults(lines, record)) != 0 {
            let place = records.iter().position(|&record| faults(lines, record) != 0);
            return Err(Refusal::not_a_gate(place.unwrap_or(0)));
        }
        Ok(Cascade { lines, records })
    }

    /// The records that synthesis has made.
    pub(crate) fn of_found(lines: Lines, records: &'a [[u8; RECORD]]) -> Cascade<'a> {
        Cascade { lines, records }
    }

    pub fn lines(self) -> Lines {
        self.lines
    }

    pub fn len(self) -> usize {
        self.records.len()
    }

    pub fn is_empty(self) -> bool {
        self.records.is_empty()
    }

    /// The gates, first to last.
    pub fn gates(self) -> impl DoubleEndedIterator<Item = Gate> + ExactSizeIterator + 'a {
        self.records.iter().map(|&record| Gate::of_checked(record))
    }

    pub fn cost(self, value: GlobalValue, fitted: Fitted) -> u32 {
        // Two sums, since either loop is the faster without the other.
        self.gates().map(|gate| gate_cost(gate, value)).sum::<u32>()
            + self.gates().map(|gate| fitted.more_for(gate)).sum::<u32>()
    }
}

/// The control value that a board's gates have for free.
#[derive(Clone, Copy, Debug, PartialEq, Eq)]
pub struct GlobalValue(u8);

impl GlobalValue {
    /// The value for which listings state the cost.
    pub const TWO: GlobalValue = GlobalValue(2);

    /// Refusal 10.
    pub fn check(value: u8) -> Answer<GlobalValue> {
        if value <= 2 {
            Ok(GlobalValue(value))
        } else {
            Err(Refusal::global_value_above_2())
        }
    }
}

/// The swaps that a board has, told by those that it lacks: a bit for each operator's
/// number. C1 and C2 are on every board, and at least one of D, E and N.
#[derive(Clone, Copy, Debug, PartialEq, Eq)]
pub struct Fitted {
    lacking: u8,
}

impl Fitted {
    /// The set for which listings state the cost.
    pub const ALL: Fitted = Fitted { lacking: 0 };

    /// A sum of 1 for D, 2 for E and 4 for N. Refusal 13.
    pub fn check(set: u8) -> Answer<Fitted> {
        if !(1..=7).contains(&set) {
            return Err(Refusal::not_a_fitted_set());
        }
        let swaps = [(1, Operator::D), (2, Operator::E), (4, Operator::N)];
        let lacking = swaps.into_iter().filter(|(number, _)| set & number == 0);
        Ok(Fitted { lacking: lacking.map(|(_, operator)| 1 << operator.number()).sum() })
    }

    /// What a gate costs more: 1 if its operator has to be made of two others.
    fn more_for(self, gate: Gate) -> u32 {
        (self.lacking >> gate.operator_number() & 1) as u32
    }
}

/// The cost where every operator is fitted.
fn gate_cost(gate: Gate, value: GlobalValue) -> u32 {
    COST[value.0 as usize][gate.packed_controls() as usize] as u32
}

/// The cost of a gate under each global value, by its packed controls.
static COST: [[u8; CONTROLS]; 3] = {
    let mut costs = [[0; CONTROLS]; 3];
    let mut value = 0;
    while value < costs.len() {
        let mut controls = 0;
        while controls < CONTROLS {
            costs[value][controls] = controls_cost(controls, value) as u8;
            controls += 1;
        }
        value += 1;
    }
    costs
};

/// Each control that asks for another value than the global one adds 2.
const fn controls_cost(packed: usize, value: usize) -> u32 {
    let (mut count, mut others) = (0, 0);
    let mut line = 0;
    while line < MOST_LINES {
        let control = packed >> (2 * line) & 3;
        if control != NO_CONTROL as usize {
            count += 1;
            others += (control != value) as u32;
        }
        line += 1;
    }
    base_cost(count) + 2 * others
}

/// From three controls on, five more than twice the cost with one fewer.
const fn base_cost(controls: usize) -> u32 {
    match controls {
        0 | 1 => 1,
        2 => 5,
        _ => 5 + 2 * base_cost(controls - 1),
    }
}
