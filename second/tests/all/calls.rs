//! Every call that is lent memory, with the memory watched.
//!
//! A room is lent full of marks. After a refusal all marks must be there; after
//! success all those beyond the output. The answer is then the output itself.

use second::answer::Answer;
use second::file::Contents;
use second::serial::SerialReader;
use second::tidying::Tidied;

/// Marks that no call writes in this order.
fn marks(count: usize) -> Vec<u8> {
    (0..count).map(|k| (k * 7 + 129) as u8).collect()
}

fn watch<T: Copy>(
    room: usize,
    call: impl FnOnce(&mut [u8]) -> Answer<T>,
    output: impl FnOnce(T) -> usize,
) -> Answer<(T, Vec<u8>)> {
    let before = marks(room);
    let mut lent = before.clone();
    match call(&mut lent) {
        Ok(answer) => {
            let end = output(answer);
            assert_eq!(lent[end..], before[end..], "bytes beyond the output");
            lent.truncate(end);
            Ok((answer, lent))
        }
        Err(refusal) => {
            assert_eq!(lent, before, "a refused call changed its room");
            Err(refusal)
        }
    }
}

/// A room of so many bytes.
pub fn synthesize(lines: u8, table: &[u16], room: usize) -> Answer<Vec<u8>> {
    let call = |room: &mut [u8]| second::synthesis::synthesize(lines, table, room);
    watch(room, call, |gates| 8 * gates).map(|(_, records)| records)
}

/// With the room that is asked.
pub fn synthesized(lines: u8, table: &[u16]) -> Vec<u8> {
    synthesize(lines, table, 8 * super::helpers::BOUND[lines as usize]).expect("a permutation")
}

pub fn invert(lines: u8, cascade: &[u8], room: usize) -> Answer<Vec<u8>> {
    let call = |room: &mut [u8]| second::cascade::invert(lines, cascade, room);
    watch(room, call, |gates| 8 * gates).map(|(_, records)| records)
}

pub fn write_file(lines: u8, cascade: &[u8], note: &[u8], room: usize) -> Answer<Vec<u8>> {
    let call = |room: &mut [u8]| second::file::write_file(lines, cascade, note, room);
    watch(room, call, |bytes| bytes).map(|(_, file)| file)
}

pub fn listing(lines: u8, cascade: &[u8], room: usize) -> Answer<Vec<u8>> {
    let call = |room: &mut [u8]| second::listing::listing(lines, cascade, room);
    watch(room, call, |bytes| bytes).map(|(_, text)| text)
}

pub fn read_names(lines: u8, text: &[u8], room: usize) -> Answer<Vec<u8>> {
    let call = |room: &mut [u8]| second::names::read_names(lines, text, room);
    watch(room, call, |gates| 8 * gates).map(|(_, records)| records)
}

pub fn write_names(lines: u8, cascade: &[u8], room: usize) -> Answer<Vec<u8>> {
    let call = |room: &mut [u8]| second::names::write_names(lines, cascade, room);
    watch(room, call, |bytes| bytes).map(|(_, text)| text)
}

pub fn sheet(file: &[u8], room: usize) -> Answer<Vec<u8>> {
    watch(room, |room| second::sheet::sheet(file, room), |bytes| bytes).map(|(_, text)| text)
}

/// A room of so many entries.
pub fn tabulate(lines: u8, cascade: &[u8], room: usize) -> Answer<Vec<u16>> {
    let before: Vec<u16> = (0..room).map(|k| (k * 7 + 1_000) as u16).collect();
    let mut lent = before.clone();
    match second::tabulating::tabulate(lines, cascade, &mut lent) {
        Ok(entries) => {
            assert_eq!(lent[entries..], before[entries..], "entries beyond the output");
            lent.truncate(entries);
            Ok(lent)
        }
        Err(refusal) => {
            assert_eq!(lent, before, "a refused call changed its room");
            Err(refusal)
        }
    }
}

/// A text in parts, and a table of so many entries. What is answered once is answered again,
/// to a part and to an end with any table.
pub fn serial(lines: u8, parts: &[&[u8]], room: usize) -> Answer<Vec<u16>> {
    let before: Vec<u16> = (0..room).map(|k| (k * 7 + 1_000) as u16).collect();
    let mut reader = SerialReader::start(lines);
    let mut so_far = reader.answer();
    for part in parts {
        let answer = reader.part(part);
        assert_eq!(answer, if so_far.is_ok() { answer } else { so_far }, "a refusal stays");
        assert!(answer.is_err() || answer == Ok(0));
        so_far = answer;
    }
    let mut lent = before.clone();
    let answer = reader.end(&mut lent);
    assert_eq!(answer, if so_far.is_ok() { answer } else { so_far }, "a refusal stays");
    // A table that has no room, and one that has.
    for room in [0, 3usize.pow(lines.min(6) as u32)] {
        let mut table = vec![9; room];
        assert_eq!(reader.end(&mut table), answer);
        assert!(table.iter().all(|&entry| entry == 9), "a table lent after the end");
        for part in [&b""[..], b"0 1 2\n", b"x"] {
            assert_eq!(reader.part(part), answer);
        }
    }
    match answer {
        Ok(entries) => {
            assert_eq!(lent[entries..], before[entries..], "entries beyond the table");
            lent.truncate(entries);
            Ok(lent)
        }
        Err(refusal) => {
            assert_eq!(lent, before, "a refused end changed its table");
            Err(refusal)
        }
    }
}

/// What a good cascade computes.
pub fn computed(lines: u8, cascade: &[u8]) -> Vec<u16> {
    tabulate(lines, cascade, 3usize.pow(lines as u32)).expect("a cascade")
}

/// The gates left.
pub fn tidy(lines: u8, cascade: &[u8]) -> Answer<(Tidied, Vec<u8>)> {
    let mut lent = cascade.to_vec();
    match second::tidying::tidy(lines, &mut lent) {
        Ok(answer) => {
            assert!(lent[8 * answer.gates..].iter().all(|&byte| byte == 0), "freed records");
            lent.truncate(8 * answer.gates);
            Ok((answer, lent))
        }
        Err(refusal) => {
            assert_eq!(lent, cascade, "a refused call changed the cascade");
            Err(refusal)
        }
    }
}

/// Rooms of so many bytes; the answer has records and note.
pub fn read_file(
    file: &[u8],
    records_room: usize,
    note_room: usize,
) -> Answer<(Contents, Vec<u8>, Vec<u8>)> {
    let (records_before, note_before) = (marks(records_room), marks(note_room));
    let (mut records, mut note) = (records_before.clone(), note_before.clone());
    match second::file::read_file(file, &mut records, &mut note) {
        Ok(contents) => {
            let end = 8 * contents.gates;
            assert_eq!(records[end..], records_before[end..], "bytes beyond the records");
            assert_eq!(note[contents.note..], note_before[contents.note..], "beyond the note");
            records.truncate(end);
            note.truncate(contents.note);
            Ok((contents, records, note))
        }
        Err(refusal) => {
            assert_eq!((records, note), (records_before, note_before), "refused, yet changed");
            Err(refusal)
        }
    }
}
