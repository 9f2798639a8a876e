//! How the time of a call grows with the gates and with the lines.

use second::hard::hard;

use crate::calls::Timer;
use crate::clock::Times;
use crate::inputs::{
    drawn_cascade, drawn_tables, file_of, list_of, patterns, ALL_FITTED, MOST_GATES,
};
use crate::report::{duration, grouped};

const GATES: [usize; 5] = [500, 1_000, 2_000, 4_000, MOST_GATES];
const LINES: [u8; 6] = [1, 2, 3, 4, 5, 6];

pub fn print(timer: &Timer) {
    with_gates(timer);
    with_lines(timer);
}

fn with_gates(timer: &Timer) {
    head("time a gate, on six lines, by gates", &GATES.map(grouped));
    let line = |call: &str, time: &dyn Fn(usize) -> [Times; 2]| {
        line(call, &GATES.map(|gates| (time(gates), gates)));
    };
    let drawn = |gates| drawn_cascade(6, gates);
    line("check_cascade, drawn gates", &|gates| timer.check_cascade(6, &drawn(gates)));
    line("run, drawn gates", &|gates| timer.run(6, &drawn(gates)));
    line("tabulate, drawn gates", &|gates| timer.tabulate(6, &drawn(gates)));
    line("price, drawn gates", &|gates| timer.price(6, ALL_FITTED, &drawn(gates)));
    line("invert, drawn gates", &|gates| timer.invert(6, &drawn(gates)));
    line("read_file, drawn gates", &|gates| timer.read_file(&file_of(6, &drawn(gates), b"")));
    line("listing, drawn gates", &|gates| timer.listing(6, &drawn(gates)));
    line("read_names, drawn gates", &|gates| timer.read_names(6, &list_of(6, &drawn(gates))));
    line("tidy, drawn gates", &|gates| timer.tidy(6, &drawn(gates)));
    let [(name, segments), ..] = hard();
    line(&format!("tidy, {name}"), &|gates| timer.tidy(6, &segments.cascade(gates)));
}

fn with_lines(timer: &Timer) {
    head("time an entry, by lines", &LINES.map(|lines| lines.to_string()));
    let tables = |lines| drawn_tables(lines, 50);
    let by_entry = |call: &str, time: &dyn Fn(u8) -> [Times; 2]| {
        line(call, &LINES.map(|lines| (time(lines), patterns(lines))));
    };
    by_entry("check_table, drawn tables", &|lines| timer.check_table(lines, &tables(lines)));
    by_entry("synthesize, drawn tables", &|lines| timer.synthesize(lines, &tables(lines)));

    head("time a gate of 2,000, by lines", &LINES.map(|lines| lines.to_string()));
    let drawn = |lines| drawn_cascade(lines, 2_000);
    let by_gate = |call: &str, time: &dyn Fn(u8) -> [Times; 2]| {
        line(call, &LINES.map(|lines| (time(lines), 2_000)));
    };
    by_gate("run, drawn gates", &|lines| timer.run(lines, &drawn(lines)));
    by_gate("tabulate, drawn gates", &|lines| timer.tabulate(lines, &drawn(lines)));
    by_gate("tidy, drawn gates", &|lines| timer.tidy(lines, &drawn(lines)));
}

fn head(title: &str, columns: &[String]) {
    print!("\n{title:<43}");
    columns.iter().for_each(|column| print!("{column:>10}"));
    println!();
}

/// The two sides' times, one below the other, each divided by a size.
fn line<const COLUMNS: usize>(call: &str, times: &[([Times; 2], usize); COLUMNS]) {
    for (side, name) in ["proved", "second"].into_iter().enumerate() {
        print!("{:<35}{name:<8}", if side == 0 { call } else { "" });
        for (times, size) in times {
            print!("{:>10}", duration(times[side].least / *size as f64));
        }
        println!();
    }
}
