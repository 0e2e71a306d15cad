//! The library's operations as it exports them, for the comparison and the benchmark.

pub mod answers;
pub mod charged;
pub mod dice;
pub mod difference;
pub mod each;
pub mod places;
pub mod steps;
pub mod totals;
pub mod typed;
pub mod written;

pub use ebbcandle::linked::{
    answer, answer_charged, check_route, count, read_sheet, write_sheet, Detail, NO_ROOM, PLACES,
    SHEET_PLACES,
};
