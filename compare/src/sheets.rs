//! The program `tiles` beside the second program, on table files good and bad.

use samples::Numbers;
use second::hard::hardest;
use second::sheet;

use compare::program;

use crate::inputs::some_table_file;

/// How many table files are made up, beside those that are always there.
const MADE_UP: usize = 30;

/// Compares what the two print. In words: how many files there were, or why there
/// were none; or the first difference.
pub fn compare(seed: u64) -> Result<String, String> {
    let Some(program) = program::find() else {
        return Ok("tiles isn't run: it is built for x86-64, which this machine isn't".into());
    };
    let mut accepted = 0;
    let files = table_files(seed);
    for file in &files {
        let expected = sheet::text(file);
        let printed = program::print(&program, file)
            .map_err(|error| format!("{}: {error}", program.display()))?;
        if printed != expected {
            let [printed, expected] = [printed, expected].map(|text| start_of(&text));
            return Err(format!("tiles prints   {printed}\nsecond prints  {expected}"));
        }
        accepted += expected.starts_with(b"lines") as usize;
    }
    let refused = files.len() - accepted;
    Ok(format!("tiles prints the second program's text: {accepted} lists, {refused} refusals"))
}

/// A good one and the hardest on each number of lines, each broken length, edges of
/// the lines, of the entries, of the longest file; then some that are made up.
fn table_files(seed: u64) -> Vec<Vec<u8>> {
    let mut numbers = Numbers::of(seed, u64::MAX);
    let mut files = vec![vec![], vec![0], vec![7, 0, 0], vec![255], vec![6; 1_459]];
    for lines in 1..=6 {
        files.push(table_file(lines, &numbers.table(lines as usize)));
        files.push(table_file(lines, &hardest(lines)));
    }
    let longest = table_file(6, &hardest(6));
    files.push(longest[..longest.len() - 1].to_vec());
    files.push([&longest[..], &[0]].concat());
    files.push([&longest[..], &[0, 0]].concat());
    files.push(longest.repeat(100));
    files.extend([[0, 1, 3], [0, 0, 1], [0, 0, 3], [0, 1, 256]].map(|table| table_file(1, &table)));
    files.extend((0..MADE_UP).map(|_| some_table_file(&mut numbers)));
    files
}

fn table_file(lines: u8, table: &[u16]) -> Vec<u8> {
    let entries = table.iter().flat_map(|entry| entry.to_le_bytes());
    [lines].into_iter().chain(entries).collect()
}

fn start_of(text: &[u8]) -> String {
    format!("{:?}", String::from_utf8_lossy(&text[..text.len().min(200)]))
}
