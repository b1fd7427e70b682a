//! The nine calls.

use std::ops::RangeInclusive;

#[derive(Clone, Copy, PartialEq, Eq, Debug)]
pub enum Name {
    Put = 1,
    Show = 2,
    Send = 3,
    Fetch = 4,
    Add = 5,
    Drop = 6,
    Create = 7,
    Release = 8,
    Hand = 9,
}

use Name::*;

impl Name {
    pub const ALL: [Name; 9] = [Put, Show, Send, Fetch, Add, Drop, Create, Release, Hand];

    /// The call's name in a text.
    pub fn word(self) -> &'static str {
        match self {
            Put => "put",
            Show => "show",
            Send => "send",
            Fetch => "fetch",
            Add => "add",
            Drop => "drop",
            Create => "create",
            Release => "release",
            Hand => "hand",
        }
    }

    pub fn uses_other(self) -> bool {
        matches!(self, Send | Fetch | Create | Release | Hand)
    }

    pub fn uses_set(self) -> bool {
        matches!(self, Add | Drop | Create | Hand)
    }

    pub fn uses_tag(self) -> bool {
        matches!(self, Add | Drop | Hand)
    }

    /// The values of the set field that have a meaning for this call.
    pub fn set_values(self) -> Option<RangeInclusive<u8>> {
        match self {
            Add | Drop => Some(0..=1),
            Create => Some(1..=2),
            Hand => Some(0..=3),
            _ => None,
        }
    }
}

/// A call with its inputs. A field that the call does not use is `None`, `bytes`
/// is empty but in put, `buffer` is empty but in show.
#[derive(Clone, PartialEq, Eq, Debug)]
pub struct Call {
    pub name: Name,
    pub caller: u8,
    pub other: Option<u8>,
    pub set: Option<u8>,
    pub tag: Option<u8>,
    /// The bytes put.
    pub bytes: Vec<u8>,
    /// The buffer lent to show, with what it holds.
    pub buffer: Vec<u8>,
}

impl Call {
    fn new(name: Name, caller: u8) -> Call {
        Call { name, caller, other: None, set: None, tag: None, bytes: vec![], buffer: vec![] }
    }

    pub fn put(caller: u8, bytes: Vec<u8>) -> Call {
        Call { bytes, ..Call::new(Put, caller) }
    }

    pub fn show(caller: u8, buffer: Vec<u8>) -> Call {
        Call { buffer, ..Call::new(Show, caller) }
    }

    pub fn send(caller: u8, other: u8) -> Call {
        Call { other: Some(other), ..Call::new(Send, caller) }
    }

    pub fn fetch(caller: u8, other: u8) -> Call {
        Call { other: Some(other), ..Call::new(Fetch, caller) }
    }

    pub fn add(caller: u8, set: u8, tag: u8) -> Call {
        Call { set: Some(set), tag: Some(tag), ..Call::new(Add, caller) }
    }

    pub fn drop(caller: u8, set: u8, tag: u8) -> Call {
        Call { set: Some(set), tag: Some(tag), ..Call::new(Drop, caller) }
    }

    pub fn create(caller: u8, other: u8, set: u8) -> Call {
        Call { other: Some(other), set: Some(set), ..Call::new(Create, caller) }
    }

    pub fn release(caller: u8, other: u8) -> Call {
        Call { other: Some(other), ..Call::new(Release, caller) }
    }

    pub fn hand(caller: u8, other: u8, set: u8, tag: u8) -> Call {
        Call { other: Some(other), set: Some(set), tag: Some(tag), ..Call::new(Hand, caller) }
    }
}
