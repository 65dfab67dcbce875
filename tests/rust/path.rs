//! A model of Check with the path. The sixth words of the rows play no part in it.

use crate::check::{check, MISSING, NO_DATE, WRONG_KIND};
use crate::read::{Expected, Reading, NAME, NO_ROOM};

/// The least words of a list: the most brackets open at once, and the value inside them.
pub const LEAST_LIST: usize = 33;

/// A short list before everything; then Check, and with 20 to 22 the path, which is empty on every other code.
pub fn check_path(document: &Reading, schema: &Reading, words: [usize; 2], list: usize) -> (Expected, Vec<u32>) {
    if list < LEAST_LIST {
        return (Expected { answer: [NO_ROOM, 0, 0, LEAST_LIST as u32], written: [false, false] }, Vec::new());
    }
    let (expected, _) = check(document, schema, words);
    let path = match expected.answer {
        [WRONG_KIND | MISSING | NO_DATE, _, place, _] => rows_at(document, place),
        _ => Vec::new(),
    };
    (expected, path)
}

/// The rows of the values that a place lies in, from the one that begins there to the top.
fn rows_at(document: &Reading, place: u32) -> Vec<u32> {
    let holds = |row: u32| {
        let [kind, first, end, ..] = document.rows[row as usize];
        kind != NAME && first <= place && place < end
    };
    (0..document.rows.len() as u32).rev().filter(|row| holds(*row)).collect()
}
