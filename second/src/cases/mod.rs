//! The cases that every other program has to answer alike: each refusal of each
//! call from both sides of its edge, the order of refusals, the documents'
//! examples and printed tables, damaged and cut files, made-up readers, boards with
//! any operators fitted, texts that come in parts, and some drawn tables and cascades. A
//! part stands for each family of calls. A new one goes to the end, so that the others
//! keep their fills.

mod boards;
mod cascades;
mod choices;
mod files;
mod long_tidying;
mod making;
mod names;
mod published;
mod serial;
mod tables;
mod texts;
mod tidying;

pub use cascades::{RIGHT_RECORD, WRONG_RECORDS};
pub use making::gates;
pub use names::all_gates;

use crate::vectors::Case;

/// The cases, always the same and in the same order.
pub fn cases() -> Vec<Case> {
    let parts: [fn() -> Vec<Case>; 40] = [
        tables::tables,
        tables::rooms_for_synthesis,
        cascades::lines_of_cascades,
        cascades::lengths_of_cascades,
        cascades::records,
        cascades::places_of_bad_records,
        cascades::patterns,
        cascades::rooms_for_cascades,
        cascades::values,
        tidying::tidying,
        long_tidying::long_tidying,
        choices::choices,
        published::published,
        files::written_files,
        files::frames,
        files::rooms_for_files,
        files::readers,
        texts::listings,
        texts::sheets,
        names::boards_of_lists,
        names::forms_of_lines,
        names::damaged_lines,
        names::lengths_of_lists,
        names::rooms_for_lists,
        names::written_lists,
        names::lists_read_back,
        boards::every_set,
        boards::every_operator,
        boards::refused_sets,
        boards::dearest_gates,
        boards::choices_by_set,
        boards::drawn_on_boards,
        serial::boards_of_texts,
        serial::forms_of_texts,
        serial::bytes_of_texts,
        serial::damaged_texts,
        serial::tables_as_text,
        serial::rooms_for_texts,
        serial::counts_of_numbers,
        serial::longest_texts,
    ];
    let mut cases: Vec<_> = parts.into_iter().flat_map(|part| part()).collect();
    for (place, case) in cases.iter_mut().enumerate() {
        case.fill = (7 * place + 129) as u8;
    }
    cases
}
