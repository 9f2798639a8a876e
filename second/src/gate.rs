//! Operators and gates.

use crate::pattern::{Digits, Lines, MOST_LINES};

/// What a gate does to its target's digit. The numbers are those of the record.
#[derive(Clone, Copy, Debug, PartialEq, Eq, Hash)]
pub enum Operator {
    C1 = 1,
    C2 = 2,
    N = 3,
    D = 4,
    E = 5,
}

/// Document 01's table as printed: a row for each x, the columns C1 C2 N D E.
const PRINTED: [[u8; 5]; 3] = [
    [1, 2, 2, 0, 1], //
    [2, 0, 1, 2, 0],
    [0, 1, 0, 1, 2],
];

/// The operators up to turning one round: C1 and C2 are one type.
#[derive(Clone, Copy, Debug, PartialEq, Eq, Hash)]
pub enum Type {
    C,
    N,
    D,
    E,
}

impl Operator {
    pub const ALL: [Operator; 5] =
        [Operator::C1, Operator::C2, Operator::N, Operator::D, Operator::E];

    /// Document 01's names of [`Operator::ALL`].
    pub const NAMES: [&'static str; 5] = ["C1", "C2", "N", "D", "E"];

    pub fn from_number(number: u8) -> Option<Operator> {
        Operator::ALL.into_iter().find(|&operator| operator.number() == number)
    }

    #[inline]
    pub fn number(self) -> u8 {
        self as u8
    }

    pub fn name(self) -> &'static str {
        Operator::NAMES[self as usize - 1]
    }

    /// The new digit. What is no digit stays as it is.
    pub fn act(self, digit: u8) -> u8 {
        match PRINTED.get(digit as usize) {
            Some(row) => row[self as usize - 1],
            None => digit,
        }
    }

    pub fn inverse(self) -> Operator {
        match self {
            Operator::C1 => Operator::C2,
            Operator::C2 => Operator::C1,
            swap => swap,
        }
    }

    pub fn kind(self) -> Type {
        match self {
            Operator::C1 | Operator::C2 => Type::C,
            Operator::N => Type::N,
            Operator::D => Type::D,
            Operator::E => Type::E,
        }
    }
}

/// Bytes of a record.
pub const RECORD: usize = 8;

/// The control byte of a line that is no control.
pub const NO_CONTROL: u8 = 3;

// Six control bytes are worked on at once, as one number. Each is below 4.
const ONE_EACH: u64 = 0x0101_0101_0101;
const THREE_EACH: u64 = 3 * ONE_EACH;

/// The ways to choose a control byte for each line.
pub(crate) const CONTROLS: usize = 1 << (2 * MOST_LINES);

/// A gate: its record, read as one little-endian number.
///
/// Since each gate has one record and only [`Gate::read`] lets records in, the
/// record is as good as any other form, and two gates are equal exactly if these
/// numbers are.
#[derive(Clone, Copy, PartialEq, Eq, Hash)]
pub struct Gate(u64);

impl Gate {
    /// The gate that a record says, if it says one on so many lines.
    #[inline]
    pub fn read(lines: Lines, record: [u8; RECORD]) -> Option<Gate> {
        (faults(lines, record) == 0).then_some(Gate::of_checked(record))
    }

    /// For records that `read` has accepted before.
    #[inline]
    pub(crate) fn of_checked(record: [u8; RECORD]) -> Gate {
        Gate(u64::from_le_bytes(record))
    }

    /// The gate with such a head that acts if all other lines of the board hold
    /// these digits.
    pub(crate) fn fully_controlled(lines: Lines, head: Head, others: Digits) -> Gate {
        Gate(head.0 | (others.0 | beyond(lines.count())) << 16)
    }

    pub fn record(self) -> [u8; RECORD] {
        self.0.to_le_bytes()
    }

    #[inline]
    pub fn operator(self) -> Operator {
        match self.0 as u8 {
            1 => Operator::C1,
            2 => Operator::C2,
            3 => Operator::N,
            4 => Operator::D,
            _ => Operator::E,
        }
    }

    /// The operator's number, to look it up in a set.
    #[inline]
    pub(crate) fn operator_number(self) -> u8 {
        self.0 as u8 & 7
    }

    #[inline]
    pub fn target(self) -> usize {
        (self.0 >> 8) as u8 as usize
    }

    /// The value that a line must hold, or `None` if the line is no control.
    pub fn control(self, line: usize) -> Option<u8> {
        let value = if line < MOST_LINES { self.control_byte(line) } else { NO_CONTROL };
        (value != NO_CONTROL).then_some(value)
    }

    /// The record's byte for a line below six.
    pub(crate) fn control_byte(self, line: usize) -> u8 {
        (self.controls() >> (8 * line)) as u8 & 3
    }

    /// The control bytes as six base-4 digits, x0 with weight 1.
    #[inline]
    pub fn packed_controls(self) -> u16 {
        // First two and two, then the product brings the three pairs together.
        let pairs = (self.controls() | self.controls() >> 6) & 0x000f_000f_000f;
        ((pairs * 0x0100_1001) >> 24) as u16 % CONTROLS as u16
    }

    pub fn inverse(self) -> Gate {
        // C1 and C2, and no others, have one of the two low bits and not the
        // third. Each is the other with both of these turned over.
        let is_c = (self.0 ^ self.0 >> 1) & !(self.0 >> 2) & 1;
        Gate(self.0 ^ (3 * is_c))
    }

    /// Does every control line hold its value?
    pub fn fires(self, digits: Digits) -> bool {
        (digits.0 ^ self.controls()) & (3 * self.controlled()) == 0
    }

    /// The lines after the gate.
    pub fn apply(self, digits: Digits) -> Digits {
        if !self.fires(digits) {
            return digits;
        }
        let place = 8 * self.target();
        let before = (digits.0 >> place) as u8 & 3;
        let after = self.operator().act(before);
        Digits(digits.0 ^ ((before ^ after) as u64) << place)
    }

    pub(crate) fn control_count(self) -> usize {
        // The product gathers the sum of the bytes, which are 0 or 1, in the sixth.
        (self.controlled().wrapping_mul(ONE_EACH) >> 40) as usize & 7
    }

    /// The lines that are controls, a bit each.
    pub(crate) fn control_lines(self) -> usize {
        // Seven less for each further byte brings the bits side by side.
        (self.controlled().wrapping_mul(0x0008_1020_4081) >> 35) as usize & 0x3f
    }

    /// The six control bytes.
    pub(crate) fn controls(self) -> u64 {
        self.0 >> 16
    }

    /// A 1 in the byte of each line that is a control.
    pub(crate) fn controlled(self) -> u64 {
        nonzero_bytes(self.controls() ^ THREE_EACH)
    }

    pub(crate) fn with_control_byte(self, line: usize, value: u8) -> Gate {
        let place = 16 + 8 * line;
        Gate(self.0 & !(0xff << place) | (value as u64) << place)
    }
}

/// What a record says of operator and target; the other control bytes are 0.
#[derive(Clone, Copy)]
pub(crate) struct Head(u64);

impl Head {
    pub(crate) const fn of(operator: Operator, target: usize) -> Head {
        Head((NO_CONTROL as u64) << (16 + 8 * target) | (target as u64) << 8 | operator as u64)
    }
}

impl std::fmt::Debug for Gate {
    fn fmt(&self, out: &mut std::fmt::Formatter<'_>) -> std::fmt::Result {
        write!(out, "{} x{}", self.operator().name(), self.target())?;
        for line in 0..MOST_LINES {
            if let Some(value) = self.control(line) {
                write!(out, " x{line}={value}")?;
            }
        }
        Ok(())
    }
}

/// Not 0 if a record is no gate on so many lines. The faults of many records, put
/// together bit by bit, tell whether all are gates without a branch for any.
#[inline]
pub(crate) fn faults(lines: Lines, record: [u8; RECORD]) -> u64 {
    let record = u64::from_le_bytes(record);
    let asked = ASKED[lines.count() - 1][(record & 7 | record >> 5 & 0o70) as usize];
    record & NEVER | asked & !record
}

/// The bits that no gate's record has: operators and targets are below 8.
const NEVER: u64 = !(THREE_EACH << 16 | 0x0707);

/// The bits that a record must have, by the lines (from 1), the target and the
/// operator: 3 in the bytes that must say "none". Where there is no such operator
/// or target, all bits.
static ASKED: [[u64; 64]; MOST_LINES] = {
    let mut asked = [[u64::MAX; 64]; MOST_LINES];
    let mut lines = 1;
    while lines <= MOST_LINES {
        let mut target = 0;
        while target < lines {
            let mut operator = 1;
            while operator <= 5 {
                asked[lines - 1][8 * target + operator] = bare_bytes(lines, target) << 16;
                operator += 1;
            }
            target += 1;
        }
        lines += 1;
    }
    asked
};

/// A 3 in the control bytes that must say "none": the target's own, and those of
/// the lines that the board doesn't have.
const fn bare_bytes(lines: usize, target: usize) -> u64 {
    beyond(lines) | 3 << (8 * target)
}

/// A 3 in the control bytes of the lines that the board doesn't have.
const fn beyond(lines: usize) -> u64 {
    THREE_EACH & (THREE_EACH << (8 * lines))
}

/// A 1 in each of six bytes that isn't 0, where no byte is above 3.
pub(crate) fn nonzero_bytes(bytes: u64) -> u64 {
    (bytes | bytes >> 1) & ONE_EACH
}
