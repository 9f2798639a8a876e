//! Document 01 word for word, and order 2 of document 02: numbers, lists and loops,
//! nothing clever.

#[derive(Clone, Copy, Debug, PartialEq, Eq)]
pub enum Op {
    C1,
    C2,
    N,
    D,
    E,
}

use Op::{C1, C2, D, E, N};

#[derive(Clone, Debug, PartialEq, Eq)]
pub struct Gate {
    pub op: Op,
    pub target: usize,
    pub controls: [Option<u8>; 6],
}

// Patterns, tables, gates.

pub fn act(op: Op, x: u8) -> u8 {
    match (op, x) {
        (C1, 0) => 1,
        (C1, 1) => 2,
        (C1, 2) => 0,
        (C2, 0) => 2,
        (C2, 1) => 0,
        (C2, 2) => 1,
        (N, 0) => 2,
        (N, 1) => 1,
        (N, 2) => 0,
        (D, 0) => 0,
        (D, 1) => 2,
        (D, 2) => 1,
        (E, 0) => 1,
        (E, 1) => 0,
        (E, 2) => 2,
        _ => unreachable!("no digit"),
    }
}

pub fn inverse_op(op: Op) -> Op {
    match op {
        C1 => C2,
        C2 => C1,
        N => N,
        D => D,
        E => E,
    }
}

pub fn inverse(gate: &Gate) -> Gate {
    Gate { op: inverse_op(gate.op), ..gate.clone() }
}

pub fn digit(pattern: usize, line: usize) -> u8 {
    (pattern / 3usize.pow(line as u32) % 3) as u8
}

pub fn with_digit(pattern: usize, line: usize, new: u8) -> usize {
    let weight = 3usize.pow(line as u32);
    pattern - weight * digit(pattern, line) as usize + weight * new as usize
}

pub fn apply(gate: &Gate, pattern: usize) -> usize {
    for line in 0..6 {
        if let Some(value) = gate.controls[line] {
            if digit(pattern, line) != value {
                return pattern;
            }
        }
    }
    with_digit(pattern, gate.target, act(gate.op, digit(pattern, gate.target)))
}

pub fn run(gates: &[Gate], pattern: usize) -> usize {
    gates.iter().fold(pattern, |pattern, gate| apply(gate, pattern))
}

pub fn tabulate(lines: usize, gates: &[Gate]) -> Vec<u16> {
    (0..3usize.pow(lines as u32)).map(|pattern| run(gates, pattern) as u16).collect()
}

pub fn decode(lines: usize, record: &[u8]) -> Option<Gate> {
    let op = match record[0] {
        1 => C1,
        2 => C2,
        3 => N,
        4 => D,
        5 => E,
        _ => return None,
    };
    let target = record[1] as usize;
    if target >= lines {
        return None;
    }
    let mut controls = [None; 6];
    for line in 0..6 {
        controls[line] = match record[2 + line] {
            value @ 0..=2 if line < lines && line != target => Some(value),
            3 => None,
            _ => return None,
        };
    }
    Some(Gate { op, target, controls })
}

pub fn encode(gate: &Gate) -> [u8; 8] {
    let mut record = [0; 8];
    record[0] = match gate.op {
        C1 => 1,
        C2 => 2,
        N => 3,
        D => 4,
        E => 5,
    };
    record[1] = gate.target as u8;
    for line in 0..6 {
        record[2 + line] = gate.controls[line].unwrap_or(3);
    }
    record
}

/// The gates of a good cascade.
pub fn gates(lines: usize, cascade: &[u8]) -> Vec<Gate> {
    cascade.chunks(8).map(|record| decode(lines, record).expect("a gate")).collect()
}

/// Every gate on so many lines.
pub fn all_gates(lines: usize) -> Vec<Gate> {
    let records = (0..5 * lines * 4usize.pow(lines as u32)).map(|code| {
        let mut record = [3; 8];
        record[0] = 1 + (code % 5) as u8;
        record[1] = (code / 5 % lines) as u8;
        for line in 0..lines {
            record[2 + line] = ((code / 5 / lines) >> (2 * line) & 3) as u8;
        }
        record
    });
    records.filter_map(|record| decode(lines, &record)).collect()
}

pub fn bytes(gates: &[Gate]) -> Vec<u8> {
    gates.iter().flat_map(encode).collect()
}

// The refusal card, for cascades: 6, 7.

pub fn check_cascade(lines: usize, cascade: &[u8]) -> Result<Vec<Gate>, (u8, usize)> {
    if !cascade.len().is_multiple_of(8) || cascade.len() / 8 > 8_000 {
        return Err((6, 0));
    }
    let mut gates = Vec::new();
    for (place, record) in cascade.chunks(8).enumerate() {
        gates.push(decode(lines, record).ok_or((7, place))?);
    }
    Ok(gates)
}

// The refusal card, for boards: 1, 10, 13.

pub fn check_board(lines: u8, value: u8, fitted: u8) -> Result<(), (u8, usize)> {
    if !(1..=6).contains(&lines) {
        return Err((1, 0));
    }
    if value > 2 {
        return Err((10, 0));
    }
    if !(1..=1 + 2 + 4).contains(&fitted) {
        return Err((13, 0));
    }
    Ok(())
}

// The refusal card, for tables: 1, 2, 3, 4.

pub fn check_table(lines: u8, table: &[u16]) -> Result<(), (u8, usize)> {
    if !(1..=6).contains(&lines) {
        return Err((1, 0));
    }
    let size = 3usize.pow(lines as u32);
    if table.len() != size {
        return Err((2, 0));
    }
    if let Some(place) = (0..size).find(|&i| table[i] as usize >= size) {
        return Err((3, place));
    }
    if let Some(place) = (0..size).find(|&i| table[..i].contains(&table[i])) {
        return Err((4, place));
    }
    Ok(())
}

// From table to cascade.

pub fn synthesize(lines: usize, table: &[u16]) -> Vec<Gate> {
    let mut entries: Vec<usize> = table.iter().map(|&entry| entry as usize).collect();
    let mut found = Vec::new();
    for i in 0..entries.len() {
        for k in 0..lines {
            let a = entries[i];
            let (from, to) = (digit(a, k), digit(i, k));
            if from == to {
                continue;
            }
            let op = [N, D, E].into_iter().find(|&op| act(op, from) == to).expect("a swap");
            let mut controls = [None; 6];
            for line in (0..lines).filter(|&line| line != k) {
                controls[line] = Some(digit(a, line));
            }
            let gate = Gate { op, target: k, controls };
            for entry in &mut entries {
                *entry = apply(&gate, *entry);
            }
            found.push(gate);
        }
    }
    assert!(entries.iter().enumerate().all(|(i, &entry)| i == entry), "the identity is left");
    found.reverse();
    found
}

// The price of a gate.

pub fn base_price(controls: usize) -> u32 {
    match controls {
        0 => 1,
        1 => 1,
        2 => 5,
        k => 2 * base_price(k - 1) + 5,
    }
}

/// The sums of 1 for D, 2 for E and 4 for N in which an operator is.
pub fn is_fitted(fitted: u8, op: Op) -> bool {
    match op {
        C1 | C2 => true,
        D => [1, 1 + 2, 1 + 4, 1 + 2 + 4].contains(&fitted),
        E => [2, 1 + 2, 2 + 4, 1 + 2 + 4].contains(&fitted),
        N => [4, 1 + 4, 2 + 4, 1 + 2 + 4].contains(&fitted),
    }
}

pub fn cost(value: u8, fitted: u8, gates: &[Gate]) -> u32 {
    let mut cost = 0;
    for gate in gates {
        let values: Vec<u8> = gate.controls.iter().flatten().copied().collect();
        cost += base_price(values.len());
        cost += 2 * values.iter().filter(|&&v| v != value).count() as u32;
        if !is_fitted(fitted, gate.op) {
            cost += 1;
        }
    }
    cost
}

pub fn price(lines: u8, value: u8, fitted: u8, cascade: &[u8]) -> Result<u32, (u8, usize)> {
    check_board(lines, value, fitted)?;
    Ok(cost(value, fitted, &check_cascade(lines as usize, cascade)?))
}

// The cheaper of two.

pub fn choose(
    lines: u8,
    value: u8,
    fitted: u8,
    first: &[u8],
    second: &[u8],
) -> Result<u8, (u8, usize)> {
    check_board(lines, value, fitted)?;
    let first = check_cascade(lines as usize, first)?;
    let second = check_cascade(lines as usize, second)?;
    let tables = [&first, &second].map(|gates| tabulate(lines as usize, gates));
    for input in 0..tables[0].len() {
        if tables[0][input] != tables[1][input] {
            return Err((11, input));
        }
    }
    let costs = [&first, &second].map(|gates| cost(value, fitted, gates));
    if costs[0] != costs[1] {
        return Ok(if costs[0] < costs[1] { 1 } else { 2 });
    }
    Ok(if first.len() <= second.len() { 1 } else { 2 })
}

// Tidying.

fn same_type(one: Op, other: Op) -> bool {
    let is_c = |op| op == C1 || op == C2;
    one == other || is_c(one) && is_c(other)
}

/// "the target of one is a control of the other with value v and the gate with
/// that target is C1 or C2, or is D with v ≠ 0, E with v ≠ 2, N with v ≠ 1"
fn disturbs(one: &Gate, other: &Gate) -> bool {
    match other.controls[one.target] {
        None => false,
        Some(v) => match one.op {
            C1 | C2 => true,
            D => v != 0,
            E => v != 2,
            N => v != 1,
        },
    }
}

pub fn may_change_places(one: &Gate, other: &Gate) -> bool {
    let at_odds = one.target == other.target && !same_type(one.op, other.op);
    !(at_odds || disturbs(one, other) || disturbs(other, one))
}

pub fn cancels(i: &Gate, j: &Gate) -> bool {
    i.target == j.target && i.controls == j.controls && inverse_op(i.op) == j.op
}

pub fn merges(i: &Gate, j: &Gate) -> bool {
    let both_the_same_c = i.op == j.op && (i.op == C1 || i.op == C2);
    i.target == j.target && i.controls == j.controls && both_the_same_c
}

/// The line xk on which two gates reduce.
pub fn reduces(i: &Gate, j: &Gate) -> Option<usize> {
    let same_lines = (0..6).all(|k| i.controls[k].is_some() == j.controls[k].is_some());
    if i.target != j.target || !same_lines || i.op != j.op {
        return None;
    }
    let differing: Vec<usize> = (0..6).filter(|&k| i.controls[k] != j.controls[k]).collect();
    match differing[..] {
        [k] => Some(k),
        _ => None,
    }
}

/// Uses the rule that fits the pair, if there is one.
pub fn use_rule(gates: &mut Vec<Gate>, i: usize, j: usize) -> bool {
    if cancels(&gates[i], &gates[j]) {
        gates.remove(j);
        gates.remove(i);
        return true;
    }
    if merges(&gates[i], &gates[j]) {
        gates[j].op = inverse_op(gates[j].op);
        gates.remove(i);
        return true;
    }
    if let Some(k) = reduces(&gates[i], &gates[j]) {
        let s = gates[i].controls[k].take().expect("a control");
        let t = gates[j].controls[k].expect("a control");
        gates[j].controls[k] = Some(3 - s - t);
        gates[j].op = inverse_op(gates[j].op);
        return true;
    }
    false
}

/// One step: the smallest i that has a fitting open pair, then the smallest j.
pub fn step(gates: &mut Vec<Gate>) -> bool {
    for i in 0..gates.len() {
        for j in i + 1..gates.len() {
            if use_rule(gates, i, j) {
                return true;
            }
            // From here on gate i has this one between.
            if !may_change_places(&gates[i], &gates[j]) {
                break;
            }
        }
    }
    false
}

/// Steps repeat from the start until none fits.
pub fn tidy(gates: &mut Vec<Gate>) -> usize {
    let mut steps = 0;
    while step(gates) {
        steps += 1;
    }
    steps
}

/// Is there a pair that is open and fits a rule?
pub fn has_fitting_open_pair(gates: &[Gate]) -> bool {
    step(&mut gates.to_vec())
}

// The listing.

pub fn listing(lines: usize, gates: &[Gate]) -> String {
    let cost = cost(2, 1 + 2 + 4, gates);
    let mut text = format!("lines {lines} gates {} cost {cost}\n", gates.len());
    for gate in gates {
        text += &format!("{:?} x{}", gate.op, gate.target);
        for k in 0..6 {
            if let Some(value) = gate.controls[k] {
                text += &format!(" x{k}={value}");
            }
        }
        text += "\n";
    }
    text
}

// The cascade file.

pub struct Read<'a> {
    pub lines: u8,
    pub note: &'a [u8],
    pub records: &'a [u8],
}

pub fn read_file(file: &[u8]) -> Result<Read<'_>, (u8, usize)> {
    if file.len() < 8 {
        return Err((9, 0));
    }
    let trailer = file.len() - 8;
    let byte = |k: usize| file[trailer + k] as u64;
    let distance = byte(0) + (byte(1) << 8) + (byte(2) << 16) + (byte(3) << 24);
    let count = byte(4) + (byte(5) << 8);
    if byte(7) != 1 || distance != 8 * count || distance > trailer as u64 {
        return Err((9, 0));
    }
    let start = trailer - distance as usize;
    if start > 1_024 {
        return Err((9, 0));
    }
    let lines = byte(6) as u8;
    if !(1..=6).contains(&lines) {
        return Err((1, 0));
    }
    check_cascade(lines as usize, &file[start..trailer])?;
    Ok(Read { lines, note: &file[..start], records: &file[start..trailer] })
}

pub fn write_file(lines: u8, records: &[u8], note: &[u8]) -> Vec<u8> {
    let mut file = note.to_vec();
    file.extend(records);
    let count = records.len() / 8;
    for k in 0..4 {
        file.push((records.len() >> (8 * k)) as u8);
    }
    file.push(count as u8);
    file.push((count >> 8) as u8);
    file.push(lines);
    file.push(1);
    file
}
