//! The printed text of a cascade.

use crate::answer::{Answer, Refusal};
use crate::cascade::{Cascade, Fitted, GlobalValue};
use crate::gate::{Gate, Operator, NO_CONTROL};
use crate::pattern::{Lines, MOST_LINES};

/// Writes the listing: a head line, then a line for each gate. Refusals 1, 6, 7,
/// 5; the answer is the number of bytes.
pub fn listing(lines: u8, cascade: &[u8], room: &mut [u8]) -> Answer<usize> {
    let cascade = Cascade::check(Lines::check(lines)?, cascade)?;
    Listing::of(cascade).write(room)
}

/// A listing that is still to be written.
pub(crate) struct Listing<'a> {
    head: String,
    starts: &'static Starts,
    cascade: Cascade<'a>,
}

impl<'a> Listing<'a> {
    pub(crate) fn of(cascade: Cascade<'a>) -> Self {
        let (lines, gates) = (cascade.lines().count(), cascade.len());
        let cost = cascade.cost(GlobalValue::TWO, Fitted::ALL);
        let head = format!("lines {lines} gates {gates} cost {cost}\n");
        Listing { head, starts: &STARTS, cascade }
    }

    /// Without a head line, and with other names for the operators.
    pub(crate) fn of_gates(cascade: Cascade<'a>, starts: &'static Starts) -> Self {
        Listing { head: String::new(), starts, cascade }
    }

    fn length(&self) -> usize {
        let lines = self.cascade.gates().map(|gate| line_length(self.starts, gate));
        self.head.len() + lines.sum::<usize>()
    }

    /// Refusal 5; the answer is the number of bytes.
    pub(crate) fn write(&self, room: &mut [u8]) -> Answer<usize> {
        let needed = self.length();
        match room.get_mut(..needed) {
            Some(room) => {
                self.fill(room);
                Ok(needed)
            }
            None => Err(Refusal::room_too_small(needed)),
        }
    }

    pub(crate) fn text(&self) -> Vec<u8> {
        let mut text = vec![0; self.length()];
        self.fill(&mut text);
        text
    }

    /// Fills a room of exactly that length.
    fn fill(&self, room: &mut [u8]) {
        let (head, mut rest) = room.split_at_mut(self.head.len());
        head.copy_from_slice(self.head.as_bytes());
        for gate in self.cascade.gates() {
            let length = write_line(self.starts, gate, rest);
            rest = &mut rest[length..];
        }
    }
}

/// The bytes of `D x0 x1=2` and its newline, the same for each target.
fn line_length(starts: &Starts, gate: Gate) -> usize {
    let [start, ..] = starts[gate.operator() as usize - 1];
    start.length + gate.control_count() * " x1=2".len() + "\n".len()
}

/// Room for any line, wherever in it a whole piece begins.
const LINE: usize = 64;

/// Writes a gate's line at the start of a room and tells its length.
fn write_line(starts: &Starts, gate: Gate, room: &mut [u8]) -> usize {
    // Pieces are written whole, whatever their length, and what is too much is
    // written over by the next. Only close to the room's end it matters.
    if let Some(room) = room.first_chunk_mut::<LINE>() {
        return write_pieces(starts, gate, room);
    }
    let mut line = [0; LINE];
    let length = write_pieces(starts, gate, &mut line);
    room[..length].copy_from_slice(&line[..length]);
    length
}

fn write_pieces(starts: &Starts, gate: Gate, room: &mut [u8; LINE]) -> usize {
    let controls = gate.packed_controls() as usize;
    let mut length = starts[gate.operator() as usize - 1][gate.target()].write(room, 0);
    for (number, pairs) in PAIRS.iter().enumerate() {
        length = pairs[controls >> (4 * number) & 15].write(room, length);
    }
    room[length] = b'\n';
    length + 1
}

/// A few bytes of text.
#[derive(Clone, Copy)]
pub(crate) struct Piece {
    bytes: [u8; 16],
    length: usize,
}

impl Piece {
    const EMPTY: Piece = Piece { bytes: [0; 16], length: 0 };

    const fn and(mut self, text: &[u8]) -> Piece {
        let mut place = 0;
        while place < text.len() {
            self.bytes[self.length] = text[place];
            self.length += 1;
            place += 1;
        }
        self
    }

    /// Writes the piece at a place and tells where it ends.
    fn write(&self, room: &mut [u8; LINE], at: usize) -> usize {
        room[at..at + self.bytes.len()].copy_from_slice(&self.bytes);
        at + self.length
    }
}

/// Operator and target, `D x0`, by both.
pub(crate) type Starts = [[Piece; MOST_LINES]; 5];

static STARTS: Starts = starts(Operator::NAMES);

/// The starts of lines in which the operators have such names.
pub(crate) const fn starts(names: [&str; 5]) -> Starts {
    let mut starts = [[Piece::EMPTY; MOST_LINES]; 5];
    let mut place = 0;
    while place < 5 * MOST_LINES {
        let (operator, line) = (place % 5, place / 5);
        let line_text = [b' ', b'x', b'0' + line as u8];
        starts[operator][line] = Piece::EMPTY.and(names[operator].as_bytes()).and(&line_text);
        place += 1;
    }
    starts
}

/// The controls of x0 and x1, of x2 and x3, of x4 and x5, by their bytes: the
/// upper line's times 4 and the lower one's.
static PAIRS: [[Piece; 16]; MOST_LINES / 2] = {
    let mut pairs = [[Piece::EMPTY; 16]; MOST_LINES / 2];
    let mut place = 0;
    while place < 16 * MOST_LINES {
        let (controls, line) = (place % 16, place / 16);
        let control = (controls >> (2 * (line % 2)) & 3) as u8;
        if control != NO_CONTROL {
            let text = [b' ', b'x', b'0' + line as u8, b'=', b'0' + control];
            pairs[line / 2][controls] = pairs[line / 2][controls].and(&text);
        }
        place += 1;
    }
    pairs
};
