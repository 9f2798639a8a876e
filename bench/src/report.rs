//! The printed tables.

use crate::calls::Timer;
use crate::clock::{times, Times};

/// A call on an input, and how many times the second program's time the proved
/// side may take, where that has an aim.
#[derive(Clone, Copy)]
pub struct What<'a> {
    pub call: &'a str,
    pub lines: u8,
    /// Gates of a cascade, entries of a table, tables, or bytes of a text.
    pub size: usize,
    pub aim: Option<f64>,
}

/// Prints a line for each comparison as it is made, in one run or in several.
pub struct Report {
    /// Only calls with this in their names are timed.
    only: String,
    timer: Timer,
    lines: Vec<Line>,
}

/// What was timed, as it is printed, and the least time of each side in each run.
struct Line {
    what: String,
    aim: Option<f64>,
    least: Vec<[f64; 2]>,
}

impl Line {
    fn ratios(&self) -> Vec<f64> {
        self.least.iter().map(|[proved, second]| proved / second).collect()
    }

    /// Is the median over all runs above the aim?
    fn is_missed(&self) -> bool {
        self.aim.is_some_and(|aim| times(self.ratios()).median > aim)
    }
}

impl Report {
    pub fn new(only: &str, timer: Timer) -> Report {
        Report { only: only.to_string(), timer, lines: vec![] }
    }

    pub fn start_run(&self) {
        println!(
            "{:<46}{:>5}{:>11}{:>10}{:>10}{:>10}{:>10}{:>8}{:>6}",
            "call", "lines", "size", "proved", "least", "second", "least", "ratio", "aim"
        );
    }

    pub fn line(&mut self, what: What, time: impl FnOnce(&Timer) -> [Times; 2]) {
        let What { call, lines, size, aim } = what;
        if !call.contains(&self.only) {
            return;
        }
        let [proved, second] = time(&self.timer);
        // What else the machine does only adds time, so the least times are compared.
        let ratio = proved.least / second.least;
        let what = format!("{call:<46}{lines:>5}{:>11}", grouped(size));
        println!(
            "{what}{:>10}{:>10}{:>10}{:>10}{:>8}{:>6}{}",
            duration(proved.median),
            duration(proved.least),
            duration(second.median),
            duration(second.least),
            ratio_text(ratio),
            aim.map_or("-".to_string(), |aim| format!("{aim:.2}")),
            if aim.is_some_and(|aim| ratio > aim) { " *" } else { "" }
        );
        let least = [proved.least, second.least];
        match self.lines.iter_mut().find(|line| line.what == what) {
            Some(line) => line.least.push(least),
            None => self.lines.push(Line { what, aim, least: vec![least] }),
        }
    }

    /// The medians over all runs, if there were several, and the spread of the ratios.
    /// Tells whether all aims are met by the medians.
    pub fn end(self) -> bool {
        let runs = self.lines.iter().map(|line| line.least.len()).max().unwrap_or(0);
        if runs > 1 {
            self.print_medians(runs);
        }
        let missed = self.lines.iter().filter(|line| line.is_missed()).count();
        println!("* the aim is missed: {missed} of {} lines", self.lines.len());
        missed == 0
    }

    fn print_medians(&self, runs: usize) {
        println!(
            "\n{:<62}{:>10}{:>10}{:>8}{:>8}{:>8}{:>6}",
            format!("medians of {runs} runs"),
            "proved",
            "second",
            "ratio",
            "least",
            "most",
            "aim"
        );
        for line in &self.lines {
            let [proved, second] =
                [0, 1].map(|side| times(line.least.iter().map(|least| least[side]).collect()));
            let ratios = line.ratios();
            let most = ratios.iter().fold(0.0, |most: f64, &ratio| most.max(ratio));
            let Times { median, least } = times(ratios);
            println!(
                "{}{:>10}{:>10}{:>8}{:>8}{:>8}{:>6}{}",
                line.what,
                duration(proved.median),
                duration(second.median),
                ratio_text(median),
                ratio_text(least),
                ratio_text(most),
                line.aim.map_or("-".to_string(), |aim| format!("{aim:.2}")),
                if line.is_missed() { " *" } else { "" }
            );
        }
    }
}

/// With two places, or none where a number is large.
fn ratio_text(ratio: f64) -> String {
    let places = if ratio < 100.0 { 2 } else { 0 };
    format!("{ratio:.places$}")
}

/// A number of seconds with three digits and a unit.
pub fn duration(seconds: f64) -> String {
    let (number, unit) = match seconds {
        s if s < 999.5e-9 => (s * 1e9, "ns"),
        s if s < 999.5e-6 => (s * 1e6, "us"),
        s if s < 0.9995 => (s * 1e3, "ms"),
        s => (s, "s"),
    };
    let places = match number {
        n if n < 9.995 => 2,
        n if n < 99.95 => 1,
        _ => 0,
    };
    format!("{number:.places$} {unit}")
}

/// A number with commas between thousands.
pub fn grouped(number: usize) -> String {
    match number {
        0..=999 => number.to_string(),
        _ => format!("{},{:03}", grouped(number / 1000), number % 1000),
    }
}
