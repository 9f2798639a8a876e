//! Tidying: cancel, merge and reduce pairs of gates until no open pair fits.
//!
//! The written procedure starts its search anew after each step: the smallest i
//! that has a fitting open pair, then the smallest j. Done literally that is
//! minutes on made-up cascades. Here each row i remembers how far it is clear,
//! that is how far it passes every gate and fits none, and a changed gate puts
//! back only the rows that looked at it. The lowest row that is not settled is
//! always the next to be walked, so the pairs found are the procedure's, in the
//! procedure's order.

use crate::answer::Answer;
use crate::cascade::Cascade;
use crate::gate::{nonzero_bytes, Gate, NO_CONTROL, RECORD};
use crate::pattern::{Lines, MOST_LINES};

/// What tidying left, and how many rules it used.
#[derive(Clone, Copy, Debug, PartialEq, Eq)]
pub struct Tidied {
    pub gates: usize,
    pub steps: usize,
}

/// Tidies a cascade where it lies: the gates left stand first, the records freed
/// are zeroed. Refusals 1, 6, 7.
pub fn tidy(lines: u8, cascade: &mut [u8]) -> Answer<Tidied> {
    let mut rack = Rack::check(lines, cascade)?;
    let mut steps = 0;
    while rack.step() {
        steps += 1;
    }

    let (records, _) = cascade.as_chunks_mut::<RECORD>();
    let mut left = 0;
    for gate in rack.left() {
        records[left] = gate.record();
        left += 1;
    }
    records[left..].fill([0; RECORD]);
    Ok(Tidied { gates: left, steps })
}

/// What stands at the places i and j once a rule has been used on them.
type Outcome = (Option<Gate>, Option<Gate>);

/// The rule that fits a pair, if one does, told by its outcome.
fn rule(i: Gate, j: Gate) -> Option<Outcome> {
    if i.target() != j.target() || i.controlled() != j.controlled() {
        return None;
    }
    let differing = nonzero_bytes(i.controls() ^ j.controls());
    if differing == 0 && i.operator().inverse() == j.operator() {
        // Cancel.
        return Some((None, None));
    }
    // All but the lowest bit must be 0.
    if i.operator() != j.operator() || differing & differing.wrapping_sub(1) != 0 {
        return None;
    }
    if differing == 0 {
        // Merge: equal operators that do not invert themselves are both C1 or
        // both C2.
        return Some((None, Some(j.inverse())));
    }
    // Control reduction. A swap's inverse is itself.
    let line = differing.trailing_zeros() as usize / 8;
    let third = 3 - i.control_byte(line) - j.control_byte(line);
    Some((
        Some(i.with_control_byte(line, NO_CONTROL)),
        Some(j.inverse().with_control_byte(line, third)),
    ))
}

/// A gate as the others see it. It decides whether two gates may change places
/// and whether a rule can pair them.
#[derive(Clone, Copy)]
struct View {
    /// What the gate relies on, in the low half, and what it disturbs, in the high
    /// half. Five bits of a half belong to each line: "has the value v" for the
    /// three digits v, and two for the type of a gate whose target the line is.
    /// Two gates may change places exactly if neither disturbs what the other
    /// relies on.
    sets: u64,

    /// Target, type and control lines: what the gates of a fitting pair share.
    family: u16,
}

impl View {
    /// A place whose gate has gone: all pass it, and no gate is of its family.
    const GAP: View = View { sets: 0, family: u16::MAX };

    fn of(gate: Gate) -> View {
        let bare = &BARE[gate.operator() as usize - 1][gate.target()];
        let controls = gate.packed_controls() as usize;
        let values = VALUES[controls % 64] | VALUES[controls / 64] << 15;
        View { sets: bare.sets | values, family: bare.family | gate.control_lines() as u16 }
    }

    /// Of one gate, or of all whose sets were put together.
    fn may_pass(self, sets: u64) -> bool {
        self.sets & sets.rotate_left(32) == 0
    }

    /// The bit for its control lines in a set of such.
    fn control_lines(self) -> u64 {
        1 << (self.family % 64)
    }
}

/// The views of gates without controls, by operator and target.
static BARE: [[View; MOST_LINES]; 5] = {
    // A gate disturbs the digits that its operator moves: all for C, all but 0 for
    // D, all but 2 for E, all but 1 for N. On its target it relies on the bits of
    // its type and disturbs the others, so that two gates with one target are at
    // odds exactly if their types differ.
    let moved = [0b111, 0b111, 0b101, 0b110, 0b011];
    let types = [0b00, 0b00, 0b11, 0b01, 0b10];
    let mut bare = [[View::GAP; MOST_LINES]; 5];
    let mut place = 0;
    while place < 5 * MOST_LINES {
        let (operator, line) = (place % 5, place / 5);
        let (relies_on, disturbs) = (types[operator] << 3, !types[operator] << 3 & 0b11000);
        bare[operator][line] = View {
            sets: (relies_on | (disturbs | moved[operator]) << 32) << (5 * line),
            family: (types[operator] as u16) << 9 | (line as u16) << 6,
        };
        place += 1;
    }
    bare
};

/// What three lines' packed controls rely on. No value, no bit.
static VALUES: [u64; 64] = {
    let mut values = [0; 64];
    let mut place = 0;
    while place < 3 * 64 {
        let (controls, line) = (place % 64, place / 64);
        values[controls] |= (1 << (controls >> (2 * line) & 3) & 0b111) << (5 * line);
        place += 1;
    }
    values
};

/// Places that are passed, or left alone, together.
const STRETCH: usize = 16;

/// What stands in a stretch of places.
#[derive(Clone, Copy)]
struct Stretch {
    /// The gates' sets, put together.
    sets: u64,
    /// Their control lines, a bit for each of the 64 choices.
    control_lines: u64,
}

/// A cascade being tidied. Gates keep their places throughout and leave gaps.
pub struct Rack {
    /// What a gap still holds is no one's to look at.
    gates: Vec<Gate>,
    views: Vec<View>,

    /// Row i passes and doesn't fit each gate strictly between i and clear_to[i].
    /// A gap is clear to 0, before everything.
    clear_to: Vec<u16>,

    /// For each stretch what stands in it, and the furthest place to which one of
    /// its rows is clear.
    stretches: Vec<Stretch>,
    reach: Vec<u16>,

    /// The rows of which more is not known. Any other row cannot pass the gate it
    /// is clear to, or is clear to the end: it has no fitting open pair.
    unsettled: Rows,
}

impl Rack {
    /// Refusals 1, 6, 7.
    pub fn check(lines: u8, cascade: &[u8]) -> Answer<Rack> {
        let gates: Vec<Gate> = Cascade::check(Lines::check(lines)?, cascade)?.gates().collect();
        let count = gates.len();
        let views: Vec<View> = gates.iter().map(|&gate| View::of(gate)).collect();
        Ok(Rack {
            clear_to: (1..=count as u16).collect(),
            stretches: views.chunks(STRETCH).map(Stretch::of).collect(),
            reach: (1..=count)
                .step_by(STRETCH)
                .map(|row| count.min(row + STRETCH - 1) as u16)
                .collect(),
            unsettled: Rows::all(count),
            gates,
            views,
        })
    }

    /// The gates that are left.
    pub fn left(&self) -> impl Iterator<Item = Gate> + '_ {
        let all = self.gates.iter().zip(&self.views);
        all.filter(|(_, view)| view.family != View::GAP.family).map(|(&gate, _)| gate)
    }

    /// Uses the rule that fits the smallest i, then the smallest j; false if no
    /// open pair fits.
    pub fn step(&mut self) -> bool {
        while let Some(row) = self.unsettled.lowest() {
            if let Some((place, (at_row, at_place))) = self.walk(row) {
                self.change(row, at_row);
                self.change(place, at_place);
                return true;
            }
            self.unsettled.remove(row);
        }
        false
    }

    /// Walks a row on from where it is known to be clear, up to the first gate
    /// that it fits or cannot pass.
    fn walk(&mut self, row: usize) -> Option<(usize, Outcome)> {
        let view = self.views[row];
        let mut place = self.clear_to[row] as usize;
        let mut found = None;
        while place < self.gates.len() {
            if place.is_multiple_of(STRETCH) && self.stretches[place / STRETCH].is_clear_for(view) {
                place += STRETCH;
                continue;
            }
            if !view.may_pass(self.views[place].sets) {
                break;
            }
            if let Some(outcome) = self.outcome(row, place) {
                found = Some((place, outcome));
                break;
            }
            place += 1;
        }
        let clear_to = place.min(self.gates.len()) as u16;
        self.clear_to[row] = clear_to;
        let reach = &mut self.reach[row / STRETCH];
        *reach = clear_to.max(*reach);
        found
    }

    /// Puts another gate, or none, at a place, and unsettles the rows for which
    /// that can matter: its own, those that stood before the old gate, and those
    /// that had passed it but fit or cannot pass the new one.
    fn change(&mut self, place: usize, gate: Option<Gate>) {
        self.put(place, gate);
        let mut stretch = 0;
        while let Some(reaching) = self.next_reaching(stretch, place) {
            let start = reaching * STRETCH;
            for row in start..place.min(start + STRETCH) {
                let clear_to = self.clear_to[row] as usize;
                if clear_to == place || clear_to > place && self.stops_at(row, place) {
                    self.clear_to[row] = place as u16;
                    self.unsettled.insert(row);
                }
            }
            self.measure_reach(reaching);
            stretch = reaching + 1;
        }
    }

    /// From a stretch on, the first with a row before a place that is clear to it.
    fn next_reaching(&self, from: usize, place: usize) -> Option<usize> {
        let before = self.reach[..place.div_ceil(STRETCH)].get(from..)?;
        let reaches = |reach: &u16| *reach as usize >= place;
        // Many are asked together, since as a rule none reaches so far.
        let some = |many: &&[u16]| many.iter().fold(false, |any, reach| any | reaches(reach));
        let (number, many) = before.chunks(STRETCH).enumerate().find(|(_, many)| some(many))?;
        many.iter().position(reaches).map(|further| from + STRETCH * number + further)
    }

    /// Does a row fit the gate at a place, or can it not pass it?
    fn stops_at(&self, row: usize, place: usize) -> bool {
        !self.views[row].may_pass(self.views[place].sets) || self.outcome(row, place).is_some()
    }

    /// What a rule makes of the gates at two places, if one fits.
    fn outcome(&self, i: usize, j: usize) -> Option<Outcome> {
        if self.views[i].family == self.views[j].family {
            rule(self.gates[i], self.gates[j])
        } else {
            None
        }
    }

    /// Puts a gate, or none, at a place. Nothing is known of its row then.
    fn put(&mut self, place: usize, gate: Option<Gate>) {
        match gate {
            Some(gate) => {
                self.gates[place] = gate;
                self.views[place] = View::of(gate);
                self.clear_to[place] = place as u16 + 1;
                self.unsettled.insert(place);
            }
            None => {
                self.views[place] = View::GAP;
                self.clear_to[place] = 0;
                self.unsettled.remove(place);
            }
        }
        let stretch = place / STRETCH;
        self.stretches[stretch] = Stretch::of(places(&self.views, stretch));
        self.measure_reach(stretch);
    }

    fn measure_reach(&mut self, stretch: usize) {
        let clear_to = places(&self.clear_to, stretch);
        self.reach[stretch] = clear_to.iter().fold(0, |furthest, &to| furthest.max(to));
    }
}

/// What belongs to the places of a stretch.
fn places<T>(all: &[T], stretch: usize) -> &[T] {
    let start = stretch * STRETCH;
    &all[start..all.len().min(start + STRETCH)]
}

impl Stretch {
    fn of(views: &[View]) -> Stretch {
        let none = Stretch { sets: 0, control_lines: 0 };
        views.iter().fold(none, |stretch, view| Stretch {
            sets: stretch.sets | view.sets,
            control_lines: stretch.control_lines | view.control_lines(),
        })
    }

    /// Can all gates be passed, and are none of the family?
    fn is_clear_for(self, view: View) -> bool {
        view.may_pass(self.sets) && self.control_lines & view.control_lines() == 0
    }
}

/// A set of rows that tells its lowest.
struct Rows {
    words: Vec<u64>,
    /// No row of a word before this one is in the set.
    from: usize,
}

impl Rows {
    /// All of so many rows.
    fn all(count: usize) -> Rows {
        let word = |start: usize| u64::MAX >> (64 - (count - start).min(64));
        Rows { words: (0..count).step_by(64).map(word).collect(), from: 0 }
    }

    fn insert(&mut self, row: usize) {
        self.words[row / 64] |= 1 << (row % 64);
        self.from = self.from.min(row / 64);
    }

    fn remove(&mut self, row: usize) {
        self.words[row / 64] &= !(1 << (row % 64));
    }

    fn lowest(&mut self) -> Option<usize> {
        while *self.words.get(self.from)? == 0 {
            self.from += 1;
        }
        Some(64 * self.from + self.words[self.from].trailing_zeros() as usize)
    }
}
