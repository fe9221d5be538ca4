//! Looking up a session by its identifier: only used rows are visited, and the caller is told how many.
//!
//! Document 02, request c, decides; readings 33 to 37 say how its open places were read. Reading 37: the commands keep
//! their own lookups, in `state`, which tell no number.

use crate::code::Code;
use crate::state::{bit, LIMIT, ROWS, ROW_WORDS};

const TABLE_WORDS: usize = ROWS * ROW_WORDS;

/// Looks up an identifier in the used rows of the table (rule 25.3). Gives the completion code + 256 × the row found +
/// 65,536 × the number of rows visited.
pub fn find_session(identifier: u32, rows: u32, table: &[u32]) -> u32 {
    // Reading 33: no more than this is tested; where it fails, nothing is visited.
    if table.len() != TABLE_WORDS || rows >= LIMIT {
        return pack(Code::NOT_SOUND, 0, 0);
    }
    // Reading 34: all 32 bits of the row's first word count.
    let (found, visited) = search(used_rows(rows, table), |words| words.first() == Some(&identifier));
    match found {
        Some(row) => pack(Code::SUCCESS, row, visited),
        None => pack(Code::ABSENT, 0, visited),
    }
}

/// The used rows with their words, lowest first (rule 25.1). What unused rows hold is never looked at (reading 35).
fn used_rows(rows: u32, table: &[u32]) -> impl Iterator<Item = (usize, &[u32])> + '_ {
    table.chunks_exact(ROW_WORDS).enumerate().filter(move |(row, _)| bit(rows, *row))
}

/// Goes from row to row until one is wanted (rule 25.1). Reading 36: each row that it looks at is counted as it comes,
/// the wanted one too (rule 25.2).
fn search<'t>(
    rows: impl Iterator<Item = (usize, &'t [u32])>,
    wanted: impl Fn(&[u32]) -> bool,
) -> (Option<usize>, usize) {
    let mut visited = 0usize;
    let found = rows.inspect(|_| visited = visited.saturating_add(1)).find(|(_, words)| wanted(words));
    (found.map(|(row, _)| row), visited)
}

/// The result in one number (rule 25.4): neither number is above 16.
fn pack(code: Code, row: usize, visited: usize) -> u32 {
    let [row, visited] = [row, visited].map(|number| u32::try_from(number).unwrap_or(0));
    code.number() | (row << 8) | (visited << 16)
}
