//! A search for cascades that take long to tidy.
//!
//! It keeps the recipes that took the proved library longest, changes one of them
//! here and there, and times what comes out. All changes come from the seed; the
//! clock decides which recipes are kept.

use std::time::{Duration, Instant};

use samples::Numbers;
use second::gate::Operator;
use second::hard::{hard, standing_rows, Part, Recipe};

use crate::calls::tidy;
use crate::report::duration;

/// How many recipes are kept.
const KEPT: usize = 12;

/// A recipe and what the proved library took for its cascade, in seconds.
struct Tried {
    recipe: Recipe,
    seconds: f64,
}

/// Searches, and prints each recipe that is worse than all before.
pub fn search(patience: Duration, seed: u64, gates: usize) {
    let mut numbers = Numbers::of(seed, 0);
    let mut kept: Vec<Tried> = hard().map(|(_, recipe)| Tried::of(recipe, gates)).into();
    let start = Instant::now();
    let mut count = 0;
    while start.elapsed() < patience {
        kept.sort_by(|one, other| other.seconds.total_cmp(&one.seconds));
        kept.truncate(KEPT);
        // The worst ones are changed most often.
        let parent = numbers.below(kept.len()).min(numbers.below(kept.len()));
        let mut recipe = kept[parent].recipe.clone();
        for _ in 0..1 + numbers.below(3) {
            change(&mut recipe, &mut numbers);
        }
        if kept.iter().any(|one| one.recipe == recipe) {
            continue;
        }
        count += 1;
        let tried = Tried::of(recipe, gates);
        if tried.seconds > kept[0].seconds {
            println!("{count}: {}, {:?}", duration(tried.seconds), tried.recipe);
        }
        kept.push(tried);
    }
    println!("{count} recipes tried on {gates} gates");
}

impl Tried {
    fn of(recipe: Recipe, gates: usize) -> Tried {
        let mut cascade = recipe.cascade(gates);
        let start = processor_seconds();
        tidy(6, &mut cascade);
        Tried { recipe, seconds: processor_seconds() - start }
    }
}

/// What this thread has had of the processor, counted in some milliseconds; other
/// work of the machine isn't in it. Where the system doesn't tell, all is 0.
fn processor_seconds() -> f64 {
    let told = std::fs::read_to_string("/proc/thread-self/schedstat").unwrap_or_default();
    let nanoseconds = told.split(' ').next().and_then(|word| word.parse::<f64>().ok());
    nanoseconds.map_or(0.0, |nanoseconds| nanoseconds / 1e9)
}

fn change(recipe: &mut Recipe, numbers: &mut Numbers) {
    let parts = &mut recipe.parts;
    let place = numbers.below(parts.len());
    match numbers.below(20) {
        0 | 1 => recipe.idle = 500 * numbers.below(12),
        2 => recipe.standing = numbers.below(standing_rows(0).len() + 1),
        3 => recipe.standing = numbers.pick(&[0, standing_rows(0).len()]),
        9 | 10 => recipe.order = numbers.below(1_000) as u32,
        4 if parts.len() < 8 => parts.insert(place, some_part(numbers)),
        5 if parts.len() < 8 => parts.insert(place, parts[place]),
        6 if parts.len() > 1 => drop(parts.remove(place)),
        7 => {
            let other = numbers.below(parts.len());
            parts.swap(place, other);
        }
        8 => parts[place] = some_part(numbers),
        _ => change_part(&mut parts[place], numbers),
    }
}

fn change_part(part: &mut Part, numbers: &mut Numbers) {
    let other = some_part(numbers);
    match numbers.below(9) {
        0 => part.operator = other.operator,
        1 => part.target = other.target,
        2 => part.lines = other.lines,
        3 => part.lines ^= 1 << numbers.below(6),
        4 => part.count = other.count,
        5 => part.count = (part.count + numbers.below(7)).saturating_sub(3).max(1),
        6 => part.start = other.start,
        7 => part.step = other.step,
        _ => part.drift = other.drift,
    }
}

fn some_part(numbers: &mut Numbers) -> Part {
    let any_lines = numbers.below(64);
    Part {
        operator: numbers.pick(&Operator::ALL),
        target: numbers.pick(&[0, 1, 2, 3, 4, 5, 5, 5, 5, 5]),
        lines: numbers.pick(&[0b11111, 0b1111, 0b111, 0, any_lines]),
        count: numbers.pick(&[1, 1, 1, 2, 3, 5, 9, 20, 40, 81, 162, 243, 324, 486]),
        start: numbers.below(243),
        step: numbers.below(243),
        drift: numbers.pick(&[0, 0, 0, 1, 5, 81]),
    }
}
