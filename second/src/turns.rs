//! What a reader over a cascade file hands out, a line a turn, for another program
//! to print too.

use crate::answer::Refusal;
use crate::file::Reader;
use crate::gate::RECORD;

/// A turn for each record that the file has room for, its trailer among them, and
/// one more: the end is seen at least twice.
pub fn text(file: &[u8]) -> String {
    let mut reader = Reader::open(file);
    (0..file.len() / RECORD + 1).map(|_| turn(&mut reader)).collect()
}

fn turn(reader: &mut Reader) -> String {
    match reader.next() {
        Ok(Some(gate)) => {
            format!(
                "gate {} {} {}\n",
                gate.operator().number(),
                gate.target(),
                gate.packed_controls()
            )
        }
        Ok(None) => String::from("end\n"),
        Err(Refusal { number, place }) => format!("refused {number} at {place}\n"),
    }
}
