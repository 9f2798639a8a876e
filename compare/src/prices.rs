//! What each gate on six lines costs alone, on every board.

use compare::proved::Library;
use second::calls::Told;
use second::cascade;
use second::cases::all_gates;
use second::gate::RECORD;

const LIBRARY: Library = Library { null_if_empty: false };

/// Compares what the two say. In words: how many prices there were; or the first
/// difference.
pub fn compare() -> Result<String, String> {
    let gates = all_gates(6);
    for gate in gates.chunks(RECORD) {
        for (value, fitted) in boards() {
            let proved = LIBRARY.price(6, value, fitted, gate);
            let second = cascade::price(6, value, fitted, gate);
            if Ok(proved) != second.map(|cost| Told { first: cost.into(), ..Told::default() }) {
                return Err(format!(
                    "the gate {gate:?} at the value {value} with the set {fitted}\n\
                     proved {proved:?}\nsecond {second:?}"
                ));
            }
        }
    }
    let count = gates.len() / RECORD;
    Ok(format!("each of {count} gates alone costs the same on {} boards", boards().count()))
}

/// Each global value with each set.
fn boards() -> impl Iterator<Item = (u8, u8)> {
    (0..=2).flat_map(|value| (1..=7).map(move |fitted| (value, fitted)))
}
