//! Every call, timed on both sides.

use std::hint::black_box;
use std::time::Duration;

use compare::proved::{Library, Reader};
use second::answer::{Answer, Refusal};
use second::calls::Told;
use second::file::Opening;
use second::gate::{Gate, RECORD};
use second::serial::SerialReader;
use second::{cascade, choice, file, listing, names, sheet, synthesis, table, tabulating, tidying};

use crate::clock::{race, race_changing, race_in_turn, Times};
use crate::inputs::{bound, file_of, patterns, table_file, ALL_FITTED, MOST_GATES};

const LIBRARY: Library = Library { null_if_empty: false };

/// The second program's call for the gate at a place.
type Next = fn(&[u8], u8, usize, usize) -> Answer<Option<Gate>>;

/// The second program's call for a part of a text.
type Part = fn(&mut SerialReader, &[u8]) -> Answer<usize>;

/// The bytes of the longest listing.
const LONGEST_LISTING: usize = 248_031;

/// Times calls. Each answer has the proved side's times first.
pub struct Timer {
    pub patience: Duration,
}

impl Timer {
    /// The tables take turns.
    pub fn check_table(&self, lines: u8, tables: &[Vec<u16>]) -> [Times; 2] {
        race_in_turn(
            self.patience,
            tables,
            (),
            |table, _| proved(LIBRARY.check_table(lines, table)),
            |table, _| {
                second(table::check_table(lines, table));
                0
            },
        )
    }

    /// The tables take turns.
    pub fn synthesize(&self, lines: u8, tables: &[Vec<u16>]) -> [Times; 2] {
        race_in_turn(
            self.patience,
            tables,
            vec![0; RECORD * bound(lines)],
            |table, room| proved(LIBRARY.synthesize(lines, table, room)),
            |table, room| second(synthesis::synthesize(lines, table, room)) as u64,
        )
    }

    /// All tables, which stand one behind the other, in one go. The room is for one
    /// cascade, so each is compared by itself before.
    pub fn synthesize_all(&self, lines: u8, tables: &[u16]) -> [Times; 2] {
        let room = vec![0; RECORD * bound(lines)];
        let (mut ours, mut theirs) = (room.clone(), room.clone());
        let tables = || tables.chunks(patterns(lines));
        for table in tables() {
            let gates = proved(LIBRARY.synthesize(lines, table, &mut ours));
            assert_eq!(gates, second(synthesis::synthesize(lines, table, &mut theirs)) as u64);
            assert!(ours == theirs, "the two differ");
        }
        race(
            self.patience,
            room,
            |room| tables().map(|table| proved(LIBRARY.synthesize(lines, table, room))).sum(),
            |room| {
                let gates = tables().map(|table| second(synthesis::synthesize(lines, table, room)));
                gates.sum::<usize>() as u64
            },
        )
    }

    pub fn check_cascade(&self, lines: u8, cascade: &[u8]) -> [Times; 2] {
        race(
            self.patience,
            (),
            |_| proved(LIBRARY.check_cascade(lines, cascade)),
            |_| second(cascade::check(lines, cascade)) as u64,
        )
    }

    /// On one pattern a call; all take turns.
    pub fn run(&self, lines: u8, cascade: &[u8]) -> [Times; 2] {
        let all: Vec<u16> = (0..patterns(lines) as u16).collect();
        race_in_turn(
            self.patience,
            &all,
            (),
            |&pattern, _| proved(LIBRARY.run(lines, cascade, pattern)),
            |&pattern, _| second(cascade::run(lines, cascade, pattern)) as u64,
        )
    }

    pub fn tabulate(&self, lines: u8, cascade: &[u8]) -> [Times; 2] {
        race(
            self.patience,
            vec![0; patterns(lines)],
            |room| proved(LIBRARY.tabulate(lines, cascade, room)),
            |room| second(tabulating::tabulate(lines, cascade, room)) as u64,
        )
    }

    pub fn invert(&self, lines: u8, cascade: &[u8]) -> [Times; 2] {
        race(
            self.patience,
            vec![0; cascade.len()],
            |room| proved(LIBRARY.invert(lines, cascade, room)),
            |room| second(cascade::invert(lines, cascade, room)) as u64,
        )
    }

    pub fn price(&self, lines: u8, fitted: u8, cascade: &[u8]) -> [Times; 2] {
        race(
            self.patience,
            (),
            |_| proved(LIBRARY.price(lines, 2, fitted, cascade)),
            |_| second(cascade::price(lines, 2, fitted, cascade)) as u64,
        )
    }

    pub fn choose(&self, lines: u8, [one, other]: &[Vec<u8>; 2]) -> [Times; 2] {
        race(
            self.patience,
            (),
            |_| proved(LIBRARY.choose(lines, 2, ALL_FITTED, one, other)),
            |_| second(choice::choose(lines, 2, ALL_FITTED, one, other)) as u64,
        )
    }

    pub fn write_file(&self, lines: u8, cascade: &[u8], note: &[u8]) -> [Times; 2] {
        race(
            self.patience,
            file_of(lines, cascade, note),
            |room| proved(LIBRARY.write_file(lines, cascade, note, room)),
            |room| second(file::write_file(lines, cascade, note, room)) as u64,
        )
    }

    pub fn read_file(&self, file: &[u8]) -> [Times; 2] {
        race(
            self.patience,
            (vec![0; file.len()], vec![0; file.len()]),
            |(records, note)| {
                let told = LIBRARY.read_file(file, records, note);
                proved(told) + (told.second << 8) + (told.third << 32)
            },
            |(records, note)| {
                let found = second(file::read_file(file, records, note));
                found.lines as u64 + ((found.gates as u64) << 8) + ((found.note as u64) << 32)
            },
        )
    }

    pub fn opening(&self, file: &[u8]) -> [Times; 2] {
        race(
            self.patience,
            (),
            |_| {
                let told = LIBRARY.opening(file);
                proved(told) + (told.second << 8) + (told.third << 32)
            },
            |_| {
                let Opening { lines, place, end } = second(file::opening(file));
                lines as u64 + ((place as u64) << 8) + ((end as u64) << 32)
            },
        )
    }

    /// Opening, then gate by gate to the end. Each gate is one call on either side:
    /// the second program's is hidden from the compiler, as the library's is.
    pub fn read_gates(&self, file: &[u8]) -> [Times; 2] {
        race(
            self.patience,
            (),
            |_| {
                let opening = LIBRARY.opening(file);
                let (lines, end) = (proved(opening) as u8, opening.third as usize);
                let mut place = opening.second as usize;
                let mut sum = 0;
                loop {
                    let turn = LIBRARY.next(file, lines, place, end);
                    if proved(turn) == 0 {
                        return sum;
                    }
                    sum += turn.third;
                    place = turn.second as usize;
                }
            },
            |_| {
                let next: Next = black_box(file::next);
                let Opening { lines, mut place, end } = second(file::opening(file));
                let mut sum = 0;
                while let Some(gate) = second(next(file, lines, place, end)) {
                    let operator = gate.operator().number() as u64;
                    let controls = gate.packed_controls() as u64;
                    sum += operator + 256 * gate.target() as u64 + 65_536 * controls;
                    place += RECORD;
                }
                sum
            },
        )
    }

    pub fn listing(&self, lines: u8, cascade: &[u8]) -> [Times; 2] {
        race(
            self.patience,
            vec![0; LONGEST_LISTING],
            |room| proved(LIBRARY.listing(lines, cascade, room)),
            |room| second(listing::listing(lines, cascade, room)) as u64,
        )
    }

    pub fn sheet(&self, lines: u8, table: &[u16]) -> [Times; 2] {
        let file = table_file(lines, table);
        race(
            self.patience,
            vec![0; LONGEST_LISTING],
            |room| proved(LIBRARY.sheet(&file, room)),
            |room| second(sheet::sheet(&file, room)) as u64,
        )
    }

    /// Also of a list that is refused.
    pub fn read_names(&self, lines: u8, list: &[u8]) -> [Times; 2] {
        race(
            self.patience,
            vec![0; RECORD * MOST_GATES],
            |room| {
                let Told { number, place, first, .. } = LIBRARY.read_names(lines, list, room);
                first + (number << 32) + (place << 40)
            },
            |room| match names::read_names(lines, list, room) {
                Ok(gates) => gates as u64,
                Err(Refusal { number, place }) => ((number as u64) << 32) + ((place as u64) << 40),
            },
        )
    }

    pub fn write_names(&self, lines: u8, cascade: &[u8]) -> [Times; 2] {
        race(
            self.patience,
            vec![0; LONGEST_LISTING],
            |room| proved(LIBRARY.write_names(lines, cascade, room)),
            |room| second(names::write_names(lines, cascade, room)) as u64,
        )
    }

    pub fn serial_start(&self, lines: u8) -> [Times; 2] {
        let mut reader = new_reader();
        race(
            self.patience,
            (),
            |_| proved(LIBRARY.serial_start(black_box(&mut reader), lines)),
            |_| second(black_box(SerialReader::start(lines)).answer()) as u64,
        )
    }

    /// A reader that is started and then fed a text in parts of so many bytes. Each part is
    /// one call on either side: the second program's is hidden from the compiler, as the
    /// library's is.
    pub fn serial_part(&self, lines: u8, text: &[u8], length: usize) -> [Times; 2] {
        let mut reader = new_reader();
        race(
            self.patience,
            (),
            |_| {
                proved(LIBRARY.serial_start(&mut reader, lines));
                let parts = text.chunks(length);
                parts.map(|part| 1 + proved(LIBRARY.serial_part(&mut reader, part))).sum()
            },
            |_| {
                let feed: Part = black_box(SerialReader::part);
                let mut reader = SerialReader::start(lines);
                let parts = text.chunks(length);
                parts.map(|part| 1 + second(feed(&mut reader, part)) as u64).sum()
            },
        )
    }

    /// A table's text from the start to the end; an end alone can't be told twice.
    pub fn serial_end(&self, lines: u8, text: &[u8]) -> [Times; 2] {
        let mut reader = new_reader();
        race(
            self.patience,
            vec![0; patterns(lines)],
            |table| {
                proved(LIBRARY.serial_start(&mut reader, lines));
                proved(LIBRARY.serial_part(&mut reader, text));
                proved(LIBRARY.serial_end(&mut reader, table))
            },
            |table| {
                let mut reader = SerialReader::start(lines);
                second(reader.part(text));
                second(reader.end(table)) as u64
            },
        )
    }

    pub fn tidy(&self, lines: u8, cascade: &[u8]) -> [Times; 2] {
        race_changing(
            self.patience,
            cascade,
            |cascade| {
                let told = LIBRARY.tidy(lines, cascade);
                proved(told) << 32 | told.second
            },
            |cascade| {
                let tidied = second(tidying::tidy(lines, cascade));
                (tidied.gates as u64) << 32 | tidied.steps as u64
            },
        )
    }
}

/// Tidies by the proved library.
pub fn tidy(lines: u8, cascade: &mut [u8]) {
    proved(LIBRARY.tidy(lines, cascade));
}

/// Memory for a reader.
fn new_reader() -> Reader {
    Reader::of([0; Reader::CELLS])
}

/// The first value of an answer that must be accepted. The number is compared by
/// value: lent to `assert_eq!`, it would have the whole answer copied, by loads that
/// wait for the stores of the call, five nanoseconds each time.
fn proved(told: Told) -> u64 {
    assert!(told.number == 0, "refused");
    told.first
}

fn second<T>(answer: Answer<T>) -> T {
    answer.unwrap_or_else(|refusal| panic!("refused: {refusal:?}"))
}
