//! The tally of a list of records: how many of each caller's carry each returned
//! number, and the sum of bytes moved.

use crate::record::LENGTH;

/// Callers 0 to 31 have a row each; the row after theirs is for all higher ones.
pub const MORE_CALLERS: u8 = 32;
/// Numbers 0 to 17 have a count each; the count after theirs is for all higher ones.
pub const MORE_NUMBERS: u8 = 18;

/// A caller's row. Counts and sum are taken modulo 2 to the 64.
#[derive(Clone, PartialEq, Eq, Debug, Default)]
pub struct Row {
    pub counts: [u64; MORE_NUMBERS as usize + 1],
    pub bytes: u64,
}

impl Row {
    /// One more record.
    pub fn add(&mut self, number: u8, moved: u8) {
        let count = &mut self.counts[number.min(MORE_NUMBERS) as usize];
        *count = count.wrapping_add(1);
        self.bytes = self.bytes.wrapping_add(moved.into());
    }
}

/// The rows of a list of records, or the refusal 12.
pub fn tally(list: &[u8]) -> Result<Vec<Row>, u8> {
    if list.len() % LENGTH != 0 {
        return Err(12);
    }
    let mut rows = vec![Row::default(); MORE_CALLERS as usize + 1];
    for record in list.chunks_exact(LENGTH) {
        let caller = record[1];
        let number = record[3];
        let moved = record[4];
        let row = &mut rows[caller.min(MORE_CALLERS) as usize];
        row.add(number, moved);
    }
    Ok(rows)
}
