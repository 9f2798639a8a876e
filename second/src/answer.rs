//! The refusal card.

/// Why a call did nothing: the card's number, and the place that goes with it.
#[derive(Clone, Copy, Debug, PartialEq, Eq)]
pub struct Refusal {
    pub number: u8,
    pub place: usize,
}

/// What every call answers.
pub type Answer<T> = Result<T, Refusal>;

// The card itself. No refusal is made anywhere but here.
impl Refusal {
    pub(crate) const fn lines_not_1_to_6() -> Self {
        Refusal { number: 1, place: 0 }
    }

    pub(crate) const fn table_length() -> Self {
        Refusal { number: 2, place: 0 }
    }

    pub(crate) const fn entry_too_large(entry: usize) -> Self {
        Refusal { number: 3, place: entry }
    }

    pub(crate) const fn entry_repeated(entry: usize) -> Self {
        Refusal { number: 4, place: entry }
    }

    pub(crate) const fn room_too_small(needed: usize) -> Self {
        Refusal { number: 5, place: needed }
    }

    pub(crate) const fn cascade_length() -> Self {
        Refusal { number: 6, place: 0 }
    }

    pub(crate) const fn not_a_gate(place: usize) -> Self {
        Refusal { number: 7, place }
    }

    pub(crate) const fn pattern_too_large() -> Self {
        Refusal { number: 8, place: 0 }
    }

    /// Also for a note that is too long to be written.
    pub(crate) const fn file_frame() -> Self {
        Refusal { number: 9, place: 0 }
    }

    pub(crate) const fn global_value_above_2() -> Self {
        Refusal { number: 10, place: 0 }
    }

    pub(crate) const fn different_tables(input: usize) -> Self {
        Refusal { number: 11, place: input }
    }

    /// In a list: not of the form, or no gate.
    pub(crate) const fn not_a_line(line: usize) -> Self {
        Refusal { number: 12, place: line }
    }

    pub(crate) const fn not_a_fitted_set() -> Self {
        Refusal { number: 13, place: 0 }
    }

    /// A byte that can't stand there, a number too large, or an end.
    pub(crate) const fn not_in_a_text(offset: usize) -> Self {
        Refusal { number: 14, place: offset }
    }
}
