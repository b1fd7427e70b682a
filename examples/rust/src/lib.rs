//! The label monitor of a growers' hub, for Rust: what include/hub.h declares, and safe functions over it. That header
//! says what each call does, its refusals, and what a record holds.
//!
//! The table goes in and comes back by value. A refused call hands back the very table that came in. A call of which
//! neither the table nor the record is kept is a preview: it answers as the call would.

use std::mem::size_of;

pub const SLOTS: usize = 32;
pub const CONTENT: usize = 64;
pub const GROUPS: usize = 8;
pub const RECORD: usize = 16;

pub const FREE: u8 = 0;
pub const ITEM: u8 = 1;
pub const PROGRAM: u8 = 2;

pub const SECRECY: u8 = 0;
pub const INTEGRITY: u8 = 1;

pub const ADD_SECRECY: u8 = 0;
pub const DROP_SECRECY: u8 = 1;
pub const ADD_INTEGRITY: u8 = 2;
pub const DROP_INTEGRITY: u8 = 3;

/// The bytes of stack that a call needs at most.
pub const STACK: usize = 32768;

/// What stands in a slot. A set is a number: tag n, 0 to 63, has the weight 2 to the n.
#[repr(C)]
#[derive(Clone, Copy, PartialEq, Eq, Debug, Default)]
pub struct Slot {
    pub kind: u8,
    pub secrecy: u64,
    pub integrity: u64,
    /// The rights to add to S, drop from S, add to I, drop from I.
    pub rights: [u64; 4],
    pub len: usize,
}

#[repr(C)]
#[derive(Clone, Copy, PartialEq, Eq, Debug)]
pub struct Table {
    pub slots: [Slot; SLOTS],
    pub content: [u8; SLOTS * CONTENT],
    /// The tags of each conflict group.
    pub groups: [u64; GROUPS],
    /// How many tags of each group may be combined, 1 to 64.
    pub most: [u8; GROUPS],
    /// How many of the groups count.
    pub count: usize,
}

/// What a call hands back. The number is 0 for an allowed call, else the refusal.
#[repr(C)]
#[derive(Clone, Copy, PartialEq, Eq, Debug)]
pub struct Reply {
    pub table: Table,
    pub number: u8,
    pub record: [u8; RECORD],
}

/// What an audit hands back: the number, and how many bytes at the buffer's front it filled.
#[repr(C)]
#[derive(Clone, Copy, PartialEq, Eq, Debug)]
pub struct Audited {
    pub number: u8,
    pub len: usize,
}

/// What a check of the conflict groups hands back: 0, whether every group is kept, and the place of the first that is
/// broken, from 1, or the number of groups where none is; or 99, false and 0.
#[repr(C)]
#[derive(Clone, Copy, PartialEq, Eq, Debug)]
pub struct Checked {
    pub number: u8,
    pub keeps: bool,
    pub counted: usize,
}

/// What loading hands back: 0, line 0 and the table; or the refusal, its line and an empty table.
#[repr(C)]
#[derive(Clone, Copy, PartialEq, Eq, Debug)]
pub struct Loaded {
    pub table: Table,
    pub number: u8,
    pub line: usize,
}

// The layout that the archive has.
const _: () = assert!(size_of::<Slot>() == 64 && size_of::<Table>() == 4176 && size_of::<Reply>() == 4200);
const _: () = assert!(size_of::<Audited>() == 16 && size_of::<Checked>() == 16 && size_of::<Loaded>() == 4192);

extern "C" {
    fn hub_empty() -> Table;
    fn hub_load(text: *const u8, length: usize) -> Loaded;
    fn hub_put(t: Table, caller: u8, bytes: *const u8, length: usize) -> Reply;
    fn hub_show(t: Table, caller: u8, out: *mut u8, room: usize) -> Reply;
    fn hub_send(t: Table, caller: u8, other: u8) -> Reply;
    fn hub_fetch(t: Table, caller: u8, other: u8) -> Reply;
    fn hub_add(t: Table, caller: u8, set: u8, tag: u8) -> Reply;
    fn hub_drop(t: Table, caller: u8, set: u8, tag: u8) -> Reply;
    fn hub_create(t: Table, caller: u8, other: u8, kind: u8) -> Reply;
    fn hub_release(t: Table, caller: u8, other: u8) -> Reply;
    fn hub_hand(t: Table, caller: u8, other: u8, right: u8, tag: u8) -> Reply;
    fn hub_audit(
        t: Table,
        caller: u8,
        list: *const u8,
        length: usize,
        out: *mut u8,
        room: usize,
    ) -> Audited;
    fn hub_check(t: Table, held: u64) -> Checked;
}

// No function asks anything of its numbers and tables. All that makes a call safe is that a slice's pointer is valid for
// its length, and that a `&mut` overlaps no other.

pub fn load(text: &[u8]) -> Loaded {
    unsafe { hub_load(text.as_ptr(), text.len()) }
}

impl Table {
    pub fn empty() -> Table {
        unsafe { hub_empty() }
    }

    pub fn put(self, caller: u8, bytes: &[u8]) -> Reply {
        unsafe { hub_put(self, caller, bytes.as_ptr(), bytes.len()) }
    }

    pub fn show(self, caller: u8, out: &mut [u8]) -> Reply {
        unsafe { hub_show(self, caller, out.as_mut_ptr(), out.len()) }
    }

    pub fn send(self, caller: u8, other: u8) -> Reply {
        unsafe { hub_send(self, caller, other) }
    }

    pub fn fetch(self, caller: u8, other: u8) -> Reply {
        unsafe { hub_fetch(self, caller, other) }
    }

    pub fn add(self, caller: u8, set: u8, tag: u8) -> Reply {
        unsafe { hub_add(self, caller, set, tag) }
    }

    pub fn drop(self, caller: u8, set: u8, tag: u8) -> Reply {
        unsafe { hub_drop(self, caller, set, tag) }
    }

    pub fn create(self, caller: u8, other: u8, kind: u8) -> Reply {
        unsafe { hub_create(self, caller, other, kind) }
    }

    pub fn release(self, caller: u8, other: u8) -> Reply {
        unsafe { hub_release(self, caller, other) }
    }

    pub fn hand(self, caller: u8, other: u8, right: u8, tag: u8) -> Reply {
        unsafe { hub_hand(self, caller, other, right, tag) }
    }

    pub fn audit(self, caller: u8, list: &[u8], out: &mut [u8]) -> Audited {
        unsafe { hub_audit(self, caller, list.as_ptr(), list.len(), out.as_mut_ptr(), out.len()) }
    }

    /// Whether `held` keeps to every conflict group, and which is the first broken. Of an entity it is the union of S, I and
    /// the four rights; with a tag more, what a hand of that tag asks.
    pub fn check(self, held: u64) -> Checked {
        unsafe { hub_check(self, held) }
    }
}

/// Two lower-case hexadecimal digits a byte.
pub fn digits(bytes: &[u8]) -> String {
    bytes.iter().map(|byte| format!("{byte:02x}")).collect()
}
