//! Sets of tags. A tag is a number from 0 to 63.

use std::collections::BTreeSet;

pub type Tags = BTreeSet<u8>;

/// The highest tag.
pub const LAST_TAG: u8 = 63;

/// The set that a 64-bit number stands for: tag n at weight 2 to the n.
pub fn from_word(word: u64) -> Tags {
    (0..=LAST_TAG).filter(|n| (word >> n) & 1 == 1).collect()
}

/// The 64-bit number that stands for a set.
pub fn to_word(tags: &Tags) -> u64 {
    tags.iter().map(|n| 1u64 << n).sum()
}

/// The union of several sets.
pub fn union<'a>(sets: impl IntoIterator<Item = &'a Tags>) -> Tags {
    sets.into_iter().flatten().copied().collect()
}
