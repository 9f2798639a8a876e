//! Readers of tables as text that no start has made. What the library promises of them is
//! little: each call ends, it changes no memory but the reader and, at an end that accepts,
//! the table; and after a refusal or an end all calls repeat the answer and leave both alone.

use compare::proved::{Library, Reader};
use samples::Numbers;
use second::calls::Told;

use crate::both::{mark_entry, words, GuardedReader, Lent};
use crate::inputs::permutation;

/// How many readers are made up.
const MADE_UP: u64 = 200_000;

/// How many calls each of them gets.
const CALLS: usize = 5;

/// Calls them. In words: how many there were; or the first that breaks a promise.
pub fn check(seed: u64) -> Result<String, String> {
    let mut answered = [0; 2];
    for number in 0..MADE_UP {
        let mut numbers = Numbers::of(!seed, number);
        let last = check_one(&mut numbers)
            .map_err(|broken| format!("the made-up reader {number} of seed {seed}\n{broken}"))?;
        answered[(last.number != 0) as usize] += 1;
    }
    let [accepted, refused] = answered;
    Ok(format!("made-up readers keep what they answered: {accepted} accepted, {refused} refused"))
}

/// Calls a reader several times; the last call is an end. Tells its answer, or what was
/// wrong.
fn check_one(numbers: &mut Numbers) -> Result<Told, String> {
    let (made_up, salt) = (some_reader(numbers), numbers.next());
    let mut checked = Checked {
        library: Library { null_if_empty: numbers.one_in(2) },
        guarded: GuardedReader::of(made_up.clone(), salt),
        salt,
        settled: None,
    };
    let mut calls = || {
        for _ in 1..CALLS {
            if numbers.one_in(3) {
                checked.end(numbers)?;
            } else {
                checked.part(numbers)?;
            }
        }
        checked.end(numbers)
    };
    calls().map_err(|broken| format!("{made_up:?}\n{broken}"))
}

/// A reader, and from a refusal or an end on what was answered and how the reader was.
struct Checked {
    library: Library,
    guarded: GuardedReader,
    salt: u64,
    settled: Option<(Told, Reader)>,
}

impl Checked {
    fn part(&mut self, numbers: &mut Numbers) -> Result<(), String> {
        let part = some_part(numbers);
        let kept = part.clone();
        let told = self.library.serial_part(&mut self.guarded.reader, &part);
        if part != kept {
            return Err("a part was changed".into());
        }
        self.settle(told, told.number != 0)
    }

    fn end(&mut self, numbers: &mut Numbers) -> Result<Told, String> {
        let length = numbers.pick(&[0, 2, 3, 9, 27, 81, 243, 728, 729, 800]);
        let mut table = Lent::room(length, self.salt, mark_entry);
        let kept = table.clone();
        let told = self.library.serial_end(&mut self.guarded.reader, table.part_mut());
        // Only an end that accepts, and is the first, writes so many entries.
        let accepts = told.number == 0 && self.settled.is_none();
        let written = if accepts { length.min(told.first as usize) } else { 0 };
        table.part_mut()[..written].copy_from_slice(&kept.part()[..written]);
        if let Some(place) = table.difference(&kept) {
            return Err(format!("{}\nbut the table was changed {place}", words(told)));
        }
        self.settle(told, true)?;
        Ok(told)
    }

    /// Compares with what was settled before, or settles it.
    fn settle(&mut self, told: Told, settles: bool) -> Result<(), String> {
        if !self.guarded.is_guarded(self.salt) {
            return Err(format!("{}\nbut around the reader", words(told)));
        }
        match &self.settled {
            Some((before, _)) if *before != told => {
                Err(format!("first  {}\nthen   {}", words(*before), words(told)))
            }
            Some((_, reader)) if *reader != self.guarded.reader => {
                Err(format!("{}\nand once more, but the reader was changed", words(told)))
            }
            Some(_) => Ok(()),
            None => {
                self.settled = settles.then(|| (told, self.guarded.reader.clone()));
                Ok(())
            }
        }
    }
}

/// Any memory, or a reader that could almost be one.
fn some_reader(numbers: &mut Numbers) -> Reader {
    let mut reader = Reader::of(std::array::from_fn(|_| numbers.next() as u16));
    if numbers.one_in(8) {
        return reader;
    }
    let lines = 1 + numbers.below(6);
    let size = 3u16.pow(lines as u32);
    let mut small = |below: usize| match numbers.below(8) {
        0 => numbers.byte(),
        _ => numbers.below(below) as u8,
    };
    reader.last = small(4);
    reader.over = small(if lines == 1 { 3 } else { 1 });
    reader.number = small(if lines == 2 { 16 } else { 1 });
    reader.lines = match small(12) {
        0 => small(9),
        _ => lines as u8,
    };
    let edges = [0, 1, size - 1, size, size + 1, 6_553, 6_554, 65_534, 65_535];
    for field in [&mut reader.place, &mut reader.at, &mut reader.first, &mut reader.value] {
        *field = numbers.pick(&edges);
    }
    reader.count = if numbers.one_in(2) { size } else { numbers.pick(&edges) };
    if !numbers.one_in(8) {
        let table = permutation(numbers, lines);
        reader.entries[..table.len()].copy_from_slice(&table);
    }
    reader
}

/// Often such that the end may be told behind it.
fn some_part(numbers: &mut Numbers) -> Vec<u8> {
    let parts = ["", "\n", " ", "0", "1\n", "9 9\n", "0 1 2\n", "65535\n", "65536", "00", "x"];
    match numbers.below(10) {
        0 => b"1 ".repeat(numbers.below(34_000)),
        1 => {
            let length = numbers.below(20);
            numbers.bytes(length)
        }
        _ => numbers.pick(&parts).as_bytes().to_vec(),
    }
}
