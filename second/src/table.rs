//! Tables: entry i is the output for input i.

use crate::answer::{Answer, Refusal};
use crate::pattern::Lines;

/// Is the table a permutation of the patterns of its lines? Refusals 1, 2, 3, 4.
pub fn check_table(lines: u8, table: &[u16]) -> Answer<()> {
    match Lines::check(lines)?.count() {
        1 => inverse::<3>(table).map(drop),
        2 => inverse::<9>(table).map(drop),
        3 => inverse::<27>(table).map(drop),
        4 => inverse::<81>(table).map(drop),
        5 => inverse::<243>(table).map(drop),
        _ => inverse::<729>(table).map(drop),
    }
}

/// A checked table of a known size, 3^n, and its inverse. The size is part of the
/// type so that small tables are not made to take the time of large ones.
#[derive(Clone, Debug)]
pub struct Permutation<const SIZE: usize> {
    outputs: [u16; SIZE],
    inputs: [u16; SIZE],
}

impl<const SIZE: usize> Permutation<SIZE> {
    /// Refusals 2, 3, 4.
    #[inline]
    pub fn check(table: &[u16]) -> Answer<Permutation<SIZE>> {
        let inputs = inverse(table)?;
        let mut outputs = [0; SIZE];
        outputs.copy_from_slice(table);
        Ok(Permutation { outputs, inputs })
    }

    /// The table that was checked.
    pub fn table(&self) -> &[u16; SIZE] {
        &self.outputs
    }

    /// The inverse table: entry o is the input whose output is o.
    pub fn inverse_table(&self) -> &[u16; SIZE] {
        &self.inputs
    }

    /// Half of an exchange of two outputs: the input that has the one gets the
    /// other. The input that has the other is the caller's to look after, and the
    /// inverse says nothing of the one.
    pub(crate) fn replace_output(&mut self, one: usize, other: usize) {
        let input = self.inputs[one];
        self.outputs[input as usize] = other as u16;
        self.inputs[other] = input;
    }
}

/// Stands in the inverse for an output that no input reaches.
const UNREACHED: u16 = u16::MAX;

/// The inverse of a table of this size. Refusals 2, 3, 4.
#[inline]
fn inverse<const SIZE: usize>(table: &[u16]) -> Answer<[u16; SIZE]> {
    if table.len() != SIZE {
        return Err(Refusal::table_length());
    }
    let mut inputs = [UNREACHED; SIZE];
    for (input, &output) in table.iter().enumerate() {
        match inputs.get_mut(output as usize) {
            Some(reached_from) => *reached_from = input as u16,
            None => return Err(Refusal::entry_too_large(input)),
        }
    }
    // If one of as many patterns as there are entries isn't reached, some repeat.
    // All are asked together, which takes no branch for any of them; only where
    // some repeat is the place looked for.
    if inputs.iter().fold(false, |any, &input| any | (input == UNREACHED)) {
        return Err(Refusal::entry_repeated(first_twin(table)));
    }
    Ok(inputs)
}

/// The first entry that equals an earlier one. There is one, and none is too large.
#[cold]
fn first_twin(table: &[u16]) -> usize {
    let mut reached = vec![false; table.len()];
    let news = |&&entry: &&u16| !std::mem::replace(&mut reached[entry as usize], true);
    table.iter().take_while(news).count()
}
