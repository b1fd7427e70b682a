//! The sixteen bytes that every call leaves.

use crate::call::Call;
use crate::hub::Hub;
use crate::tags::{from_word, to_word, union, Tags};

pub const LENGTH: usize = 16;
pub type Record = [u8; LENGTH];

/// Stands for a field that the call does not use.
pub const UNUSED: u8 = 255;

pub fn record(call: &Call, number: u8, moved: u8, need: &Tags) -> Record {
    let mut record = [0; LENGTH];
    record[0] = call.name as u8;
    record[1] = call.caller;
    record[2] = call.other.unwrap_or(UNUSED);
    record[3] = number;
    record[4] = moved;
    record[5] = call.tag.unwrap_or(UNUSED);
    record[6] = call.set.unwrap_or(UNUSED);
    record[8..].copy_from_slice(&to_word(need).to_le_bytes());
    record
}

/// The union of the caller's S before and after the call and the S of the
/// other's slot before it. For refusal 1 it is the S of the item in the caller's
/// slot alone, so empty if that is free or above 31.
pub fn need(before: &Hub, after: &Hub, call: &Call, number: u8) -> Tags {
    if number == 1 {
        return before.secrecy(call.caller);
    }
    let other = call.other.map(|slot| before.secrecy(slot)).unwrap_or_default();
    union([&before.secrecy(call.caller), &after.secrecy(call.caller), &other])
}

/// The need of any sixteen bytes: bytes 8 to 15, least byte first.
pub fn need_of(record: &[u8]) -> Tags {
    from_word(u64::from_le_bytes(record[8..16].try_into().expect("eight bytes")))
}
