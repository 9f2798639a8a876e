//! What is timed on what.

use second::draws::Draws;
use second::file::LONGEST_NOTE;
use second::gate::RECORD;
use second::hard::{hard, hardest};

use crate::inputs::{
    alike, all_tables, bare_cascade, counter, drawn_cascade, drawn_tables, file_of, identity,
    list_of, longest_text, patterns, synthesized, text_of, there_and_back, ALL_FITTED, D_FITTED,
    MOST_GATES,
};
use crate::report::{Report, What};

// The aims, where speed is felt: six lines, long cascades, worst cases. Tables and
// cascades of a few entries have none.
const SYNTHESIS: f64 = 1.3;
const LONG: f64 = 2.0;
const PRICING: f64 = 1.2;
const TIDYING: f64 = 1.0;

pub fn print(report: &mut Report) {
    synthesis(report);
    tables(report);
    cascades(report);
    files(report);
    texts(report);
    lists(report);
    serial(report);
    tidying(report);
}

fn synthesis(report: &mut Report) {
    for lines in 1..=6 {
        let mut line = |call, aim: Option<f64>, tables: &[Vec<u16>]| {
            let aim = aim.filter(|_| lines == 6);
            let what = What { call, lines, size: patterns(lines), aim };
            report.line(what, |timer| timer.synthesize(lines, tables));
        };
        line("synthesize, drawn tables in turn", Some(SYNTHESIS), &drawn_tables(lines, 50));
        // The second program looks for the identity first.
        line("synthesize, the identity", None, &[identity(lines)]);
        line("synthesize, the door counter", Some(SYNTHESIS), &[counter(lines)]);
        line("synthesize, a table that reaches the bound", Some(SYNTHESIS), &[hardest(lines)]);
    }
    let all = all_tables(patterns(2) as u16);
    let call = "synthesize, all two-line tables in one go";
    let what = What { call, lines: 2, size: all.len() / patterns(2), aim: None };
    report.line(what, |timer| timer.synthesize_all(2, &all));
}

fn tables(report: &mut Report) {
    for lines in 1..=6 {
        let tables = drawn_tables(lines, 50);
        let call = "check_table, drawn tables in turn";
        let what = What { call, lines, size: patterns(lines), aim: None };
        report.line(what, |timer| timer.check_table(lines, &tables));
    }
}

/// A call on a cascade on six lines.
fn on<'a>(call: &'a str, cascade: &[u8]) -> What<'a> {
    let size = cascade.len() / RECORD;
    What { call, lines: 6, size, aim: (size == MOST_GATES).then_some(LONG) }
}

fn cascades(report: &mut Report) {
    let drawn = &drawn_cascade(6, MOST_GATES);
    let bare = &bare_cascade(6, MOST_GATES);
    let found = &synthesized(6, &drawn_tables(6, 1)[0]);
    let pair = &alike(6, MOST_GATES);
    report.line(on("check_cascade, drawn gates", drawn), |timer| timer.check_cascade(6, drawn));
    report.line(on("run, drawn gates, patterns in turn", drawn), |timer| timer.run(6, drawn));
    report.line(on("run, a synthesized cascade, patterns in turn", found), |timer| {
        timer.run(6, found)
    });
    report.line(on("tabulate, drawn gates", drawn), |timer| timer.tabulate(6, drawn));
    report.line(on("tabulate, a synthesized cascade", found), |timer| timer.tabulate(6, found));
    report.line(on("tabulate, gates with no controls", bare), |timer| timer.tabulate(6, bare));
    for (call, fitted) in
        [("price, drawn gates", ALL_FITTED), ("price, drawn gates, D alone fitted", D_FITTED)]
    {
        let price = What { aim: Some(PRICING), ..on(call, drawn) };
        report.line(price, |timer| timer.price(6, fitted, drawn));
    }
    report.line(on("invert, drawn gates", drawn), |timer| timer.invert(6, drawn));
    report.line(on("choose, two with the same table", &pair[0]), |timer| timer.choose(6, pair));
}

fn files(report: &mut Report) {
    let drawn = &drawn_cascade(6, MOST_GATES);
    let note = &[b'-'; LONGEST_NOTE];
    let file = &file_of(6, drawn, note);
    report.line(on("write_file, the longest", drawn), |timer| timer.write_file(6, drawn, note));
    report.line(on("read_file, the longest", drawn), |timer| timer.read_file(file));
    report.line(on("opening, the longest", drawn), |timer| timer.opening(file));
    report.line(on("opening and next, gate by gate", drawn), |timer| timer.read_gates(file));
}

fn texts(report: &mut Report) {
    let drawn = &drawn_cascade(6, MOST_GATES);
    let table = &drawn_tables(6, 1)[0];
    let found = &synthesized(6, table);
    let hardest = &hardest(6);
    report.line(on("listing, drawn gates", drawn), |timer| timer.listing(6, drawn));
    report.line(on("listing, a synthesized cascade", found), |timer| timer.listing(6, found));
    let on_table = |call| What { call, lines: 6, size: patterns(6), aim: None };
    report.line(on_table("sheet, a drawn table"), |timer| timer.sheet(6, table));
    report.line(on_table("sheet, a table that reaches the bound"), |timer| timer.sheet(6, hardest));
}

/// Lists in document 003's names; then long texts, of which the first two are refused at
/// their first line and the last, which has too many lines, at its end.
fn lists(report: &mut Report) {
    let drawn = &drawn_cascade(6, MOST_GATES);
    let list = &list_of(6, drawn);
    report.line(on("read_names, drawn gates", drawn), |timer| timer.read_names(6, list));
    report.line(on("write_names, drawn gates", drawn), |timer| timer.write_names(6, drawn));
    for (call, part) in [
        ("read_names, 20 MB without a newline", "+1 x0 "),
        ("read_names, 20 MB of newlines", "\n"),
        ("read_names, 20 MB of good lines", "+1 x0\n"),
    ] {
        let text = part.repeat(20_000_000 / part.len());
        let what = What { call, lines: 6, size: text.len(), aim: None };
        report.line(what, |timer| timer.read_names(6, text.as_bytes()));
    }
}

/// Tables as text: the longest text in parts, and a table's from its start to its end. The
/// size is in bytes.
fn serial(report: &mut Report) {
    let text = &longest_text(6);
    let what = |call, size, aim| What { call, lines: 6, size, aim };
    report.line(what("serial_start", 0, None), |timer| timer.serial_start(6));
    for (call, length) in [
        ("serial_part, the longest text in one part", text.len()),
        ("serial_part, in parts of 16 bytes", 16),
        ("serial_part, byte by byte", 1),
    ] {
        let what = what(call, text.len(), Some(LONG));
        report.line(what, |timer| timer.serial_part(6, text, length));
    }
    let table = &text_of(&drawn_tables(6, 1)[0]);
    let call = "serial_end, a drawn table from its start";
    report.line(what(call, table.len(), Some(LONG)), |timer| timer.serial_end(6, table));
}

fn tidying(report: &mut Report) {
    let mut line = |call: &str, lines, cascade: &[u8]| {
        let what = What { lines, aim: Some(TIDYING), ..on(call, cascade) };
        report.line(what, |timer| timer.tidy(lines, cascade));
    };
    for lines in 3..=6 {
        let found = synthesized(lines, &drawn_tables(lines, 1)[0]);
        line("tidy, a synthesized cascade", lines, &found);
    }
    line("tidy, drawn gates", 6, &drawn_cascade(6, MOST_GATES));
    let mut draws = Draws::from_seed(1);
    for (lines, kinds) in [(2, 3), (3, 8), (4, 20), (6, 60)] {
        let dense = draws.dense_cascade(lines as usize, MOST_GATES, kinds);
        line(&format!("tidy, {kinds} kinds of gates"), lines, &dense);
    }
    line("tidy, equal gates", 6, &[1, 0, 3, 3, 3, 3, 3, 3].repeat(MOST_GATES));
    line("tidy, there and back", 6, &there_and_back(6, MOST_GATES));
    for (name, recipe) in hard() {
        line(&format!("tidy, {name}"), 6, &recipe.cascade(MOST_GATES));
    }
}
