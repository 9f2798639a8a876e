//! Sums and digests over many tables and cascades, for another program to print
//! too: all tables on two lines, and drawn ones on three to six.

use crate::answer::Answer;
use crate::cascade::{invert, price, MOST_GATES};
use crate::draws::Draws;
use crate::gate::RECORD;
use crate::pattern::{Lines, MOST_PATTERNS};
use crate::synthesis::synthesize;
use crate::tabulating::tabulate;
use crate::tidying::tidy;
use crate::vectors::Digest;

/// How many tables, and how many cascades of each kind, are drawn for 3 to 6
/// lines.
const TABLES_DRAWN: [usize; 4] = [1_000, 300, 60, 12];
const CASCADES_DRAWN: [usize; 4] = [1_000, 1_000, 500, 200];

/// Gates of a drawn cascade, and how many kinds of them a dense one has.
const GATES: usize = 60;
const KINDS: usize = 8;

/// How many long cascades are drawn for 3 to 6 lines, and how many kinds of gates one
/// has where all pass each other.
const LONG_DRAWN: [usize; 4] = [10, 10, 6, 6];
const PASSING_KINDS: usize = 40;

/// For which boards costs are summed up: the global value and the fitted set. All three
/// operators at each value, then D, E and N alone.
const BOARDS: [(u8, u8); 6] = [(0, 7), (1, 7), (2, 7), (2, 1), (2, 2), (2, 4)];

/// Prints all families, each in its lines.
pub fn report() -> Answer<String> {
    let mut text = all_two_line_tables()?.text("tables", 2);
    for lines in 3..=6 {
        let mut draws = Draws::from_seed(lines as u32);
        let mut sums = Sums::new(lines)?;
        for _ in 0..TABLES_DRAWN[lines - 3] {
            sums.add_table(&draws.table(lines))?;
        }
        text += &sums.text("tables", lines);
    }
    text +=
        &families("cascades", 100, CASCADES_DRAWN, |draws, lines, _| draws.cascade(lines, GATES))?;
    text += &families("dense", 200, CASCADES_DRAWN, |draws, lines, _| {
        draws.dense_cascade(lines, GATES, KINDS)
    })?;
    // In every second long one all gates pass each other.
    text += &families("long", 300, LONG_DRAWN, |draws, lines, number| match number % 2 {
        0 => draws.dense_cascade(lines, MOST_GATES, KINDS),
        _ => draws.passing_cascade(lines, MOST_GATES, PASSING_KINDS),
    })?;
    Ok(text)
}

/// A family for 3 to 6 lines, with as many cascades as `drawn` says, which are counted
/// from 0. The seed of each is the lines and a number more.
fn families(
    name: &str,
    seed: u32,
    drawn: [usize; 4],
    draw: impl Fn(&mut Draws, usize, usize) -> Vec<u8>,
) -> Answer<String> {
    let mut text = String::new();
    for lines in 3..=6 {
        let mut draws = Draws::from_seed(seed + lines as u32);
        let mut sums = Sums::new(lines)?;
        for number in 0..drawn[lines - 3] {
            sums.add_cascade(&draw(&mut draws, lines, number))?;
        }
        text += &sums.text(name, lines);
    }
    Ok(text)
}

/// In lexicographic order, 0 1 2 3 4 5 6 7 8 first.
fn all_two_line_tables() -> Answer<Sums> {
    let mut sums = Sums::new(2)?;
    let mut table: Vec<u16> = (0..9).collect();
    sums.add_table(&table)?;
    while advance(&mut table) {
        sums.add_table(&table)?;
    }
    Ok(sums)
}

/// Goes to the next permutation in lexicographic order; false after the last.
fn advance(table: &mut [u16]) -> bool {
    let Some(rise) = table.windows(2).rposition(|pair| pair[0] < pair[1]) else {
        return false;
    };
    let Some(above) = table.iter().rposition(|&entry| entry > table[rise]) else {
        return false;
    };
    table.swap(rise, above);
    table[rise + 1..].reverse();
    true
}

/// What is summed up over a family.
struct Sums {
    lines: u8,
    entries: usize,
    count: u64,
    gates: u64,
    cost: [u64; BOARDS.len()],
    tidied_gates: u64,
    tidied_cost: [u64; BOARDS.len()],
    steps: u64,
    /// How many cascades tidying changed.
    changed: u64,
    /// The most gates of a cascade, and how many have so many.
    most: u64,
    with_most: u64,
    // Running digests over all cascades, one behind the other.
    records: Digest,
    computed: Digest,
    inverse: Digest,
    left: Digest,
    kept: Digest,
}

impl Sums {
    fn new(lines: usize) -> Answer<Sums> {
        let entries = Lines::check(lines as u8)?.patterns();
        Ok(Sums {
            lines: lines as u8,
            entries,
            count: 0,
            gates: 0,
            cost: [0; BOARDS.len()],
            tidied_gates: 0,
            tidied_cost: [0; BOARDS.len()],
            steps: 0,
            changed: 0,
            most: 0,
            with_most: 0,
            records: Digest::START,
            computed: Digest::START,
            inverse: Digest::START,
            left: Digest::START,
            kept: Digest::START,
        })
    }

    fn add_table(&mut self, table: &[u16]) -> Answer<()> {
        let mut room = vec![0; RECORD * Lines::check(self.lines)?.gate_bound()];
        let gates = synthesize(self.lines, table, &mut room)?;
        self.add_cascade(&room[..RECORD * gates])
    }

    fn add_cascade(&mut self, cascade: &[u8]) -> Answer<()> {
        let gates = (cascade.len() / RECORD) as u64;
        self.count += 1;
        self.gates += gates;
        if gates > self.most {
            (self.most, self.with_most) = (gates, 0);
        }
        self.with_most += (gates == self.most) as u64;
        self.records = self.records.and(cascade);
        self.computed = self.computed.and_entries(self.table_of(cascade, &mut [0; MOST_PATTERNS])?);
        let mut inverse = vec![0; cascade.len()];
        invert(self.lines, cascade, &mut inverse)?;
        self.inverse = self.inverse.and(&inverse);

        let mut left = cascade.to_vec();
        let tidied = tidy(self.lines, &mut left)?;
        left.truncate(RECORD * tidied.gates);
        self.tidied_gates += tidied.gates as u64;
        self.steps += tidied.steps as u64;
        self.changed += (tidied.steps > 0) as u64;
        self.left = self.left.and(&left);
        self.kept = self.kept.and_entries(self.table_of(&left, &mut [0; MOST_PATTERNS])?);

        for (board, (value, fitted)) in BOARDS.into_iter().enumerate() {
            self.cost[board] += price(self.lines, value, fitted, cascade)? as u64;
            self.tidied_cost[board] += price(self.lines, value, fitted, &left)? as u64;
        }
        Ok(())
    }

    fn table_of<'a>(
        &self,
        cascade: &[u8],
        room: &'a mut [u16; MOST_PATTERNS],
    ) -> Answer<&'a [u16]> {
        tabulate(self.lines, cascade, room)?;
        Ok(&room[..self.entries])
    }

    fn text(&self, family: &str, lines: usize) -> String {
        let numbers = [
            ("count", self.count),
            ("gates", self.gates),
            ("cost at 0", self.cost[0]),
            ("cost at 1", self.cost[1]),
            ("cost at 2", self.cost[2]),
            ("cost with D", self.cost[3]),
            ("cost with E", self.cost[4]),
            ("cost with N", self.cost[5]),
            ("tidied gates", self.tidied_gates),
            ("tidied cost at 0", self.tidied_cost[0]),
            ("tidied cost at 1", self.tidied_cost[1]),
            ("tidied cost at 2", self.tidied_cost[2]),
            ("tidied cost with D", self.tidied_cost[3]),
            ("tidied cost with E", self.tidied_cost[4]),
            ("tidied cost with N", self.tidied_cost[5]),
            ("steps", self.steps),
            ("changed", self.changed),
            ("most gates", self.most),
            ("with most gates", self.with_most),
        ];
        let digests = [
            ("records", self.records),
            ("computed", self.computed),
            ("inverse", self.inverse),
            ("left", self.left),
            ("kept", self.kept),
        ];
        let mut text = format!("{family} {lines}\n");
        text.extend(numbers.map(|(name, number)| format!("{name} {number}\n")));
        text.extend(digests.map(|(name, digest)| format!("{name} {digest}\n")));
        text
    }
}
