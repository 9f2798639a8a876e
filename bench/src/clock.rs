//! Two sides timed in turn.

use std::hint::black_box;
use std::time::{Duration, Instant};

/// What a call took, in seconds.
#[derive(Clone, Copy, Debug)]
pub struct Times {
    pub median: f64,
    pub least: f64,
}

/// Times a call that leaves what it reads as it is, on the proved side and on the
/// other. Each has a room of its own, filled once: what the call before wrote
/// still stands in it. Both must answer the same and write the same.
pub fn race<R: Clone + PartialEq>(
    patience: Duration,
    room: R,
    mut proved: impl FnMut(&mut R) -> u64,
    mut second: impl FnMut(&mut R) -> u64,
) -> [Times; 2] {
    let (mut ours, mut theirs) = (room.clone(), room);
    let alike = proved(&mut ours) == second(&mut theirs) && ours == theirs;
    assert!(alike, "the two differ");
    race_sides(
        patience,
        &mut Steady { room: ours, call: proved },
        &mut Steady { room: theirs, call: second },
    )
}

/// Times a call on things that take turns, so that no call can know by heart what
/// comes. Both sides must answer and write the same for each of them.
pub fn race_in_turn<T, R: Clone + PartialEq>(
    patience: Duration,
    things: &[T],
    room: R,
    proved: impl Fn(&T, &mut R) -> u64,
    second: impl Fn(&T, &mut R) -> u64,
) -> [Times; 2] {
    for thing in things {
        let (mut ours, mut theirs) = (room.clone(), room.clone());
        let alike = proved(thing, &mut ours) == second(thing, &mut theirs) && ours == theirs;
        assert!(alike, "the two differ");
    }
    let (mut ours, mut theirs) = (things.iter().cycle(), things.iter().cycle());
    race_sides(
        patience,
        &mut Steady {
            room: room.clone(),
            call: |room: &mut R| ours.next().map_or(0, |thing| proved(thing, room)),
        },
        &mut Steady {
            room,
            call: |room: &mut R| theirs.next().map_or(0, |thing| second(thing, room)),
        },
    )
}

/// Times a call that changes the bytes it is given: each time it gets a new copy,
/// made outside the clock. Both must answer the same and change the bytes alike.
pub fn race_changing(
    patience: Duration,
    given: &[u8],
    mut proved: impl FnMut(&mut [u8]) -> u64,
    mut second: impl FnMut(&mut [u8]) -> u64,
) -> [Times; 2] {
    let (mut ours, mut theirs) = (given.to_vec(), given.to_vec());
    let alike = proved(&mut ours) == second(&mut theirs) && ours == theirs;
    assert!(alike, "the two differ");
    race_sides(
        patience,
        &mut Changing { given, copies: vec![], call: proved },
        &mut Changing { given, copies: vec![], call: second },
    )
}

trait Side {
    /// What has to be done before so many calls, outside the clock.
    fn prepare(&mut self, calls: usize);

    /// So many calls, one after the other.
    fn call(&mut self, calls: usize);
}

struct Steady<R, F> {
    room: R,
    call: F,
}

impl<R, F: FnMut(&mut R) -> u64> Side for Steady<R, F> {
    fn prepare(&mut self, _calls: usize) {}

    fn call(&mut self, calls: usize) {
        for _ in 0..calls {
            black_box((self.call)(black_box(&mut self.room)));
        }
    }
}

struct Changing<'a, F> {
    given: &'a [u8],
    copies: Vec<Vec<u8>>,
    call: F,
}

impl<F: FnMut(&mut [u8]) -> u64> Side for Changing<'_, F> {
    fn prepare(&mut self, calls: usize) {
        self.copies.resize(calls, vec![]);
        for copy in &mut self.copies {
            copy.clear();
            copy.extend(self.given);
        }
    }

    fn call(&mut self, calls: usize) {
        for copy in &mut self.copies[..calls] {
            black_box((self.call)(black_box(copy)));
        }
    }
}

/// Calls are timed in bundles of at least this, far more than the clock takes.
const BUNDLE: Duration = Duration::from_micros(40);

/// However slow a call is.
const LEAST_ROUNDS: usize = 3;

/// Times both sides in turn, each first in every second round, until the patience
/// is at its end.
fn race_sides(patience: Duration, one: &mut dyn Side, other: &mut dyn Side) -> [Times; 2] {
    let calls = [bundle(one), bundle(other)];
    let mut taken = [vec![], vec![]];
    let start = Instant::now();
    for round in 0.. {
        if round >= LEAST_ROUNDS && start.elapsed() >= patience {
            break;
        }
        if round % 2 == 0 {
            taken[0].push(sample(one, calls[0]));
            taken[1].push(sample(other, calls[1]));
        } else {
            taken[1].push(sample(other, calls[1]));
            taken[0].push(sample(one, calls[0]));
        }
    }
    taken.map(times)
}

/// How many calls make a bundle. Finding that out warms the side up.
fn bundle(side: &mut dyn Side) -> usize {
    let mut calls = 1;
    while sample(side, calls) * (calls as f64) < BUNDLE.as_secs_f64() {
        calls *= 2;
    }
    calls
}

/// Seconds a call, in one bundle.
fn sample(side: &mut dyn Side, calls: usize) -> f64 {
    side.prepare(calls);
    let start = Instant::now();
    side.call(calls);
    start.elapsed().as_secs_f64() / calls as f64
}

/// The median of an odd or even number of times, and the least.
pub fn times(mut taken: Vec<f64>) -> Times {
    taken.sort_by(f64::total_cmp);
    let middle = [taken[(taken.len() - 1) / 2], taken[taken.len() / 2]];
    Times { median: (middle[0] + middle[1]) / 2.0, least: taken[0] }
}
