//! The store as records.
//!
//! A store is 2 to 256 records of 256 bytes and has no header. Numbers are big-endian, strings are padded with zeros,
//! and every byte that the paper does not name is zero. This file knows where a field lies; what values it may have
//! is the business of `soundness`.

/// Bytes in a record.
pub const SIZE: usize = 256;
/// A store has at least this many records.
pub const FEWEST: usize = 2;
/// A store has at most this many records.
pub const MOST: usize = 256;
/// Object numbers run from 1 up to this one.
pub const LAST_OBJECT: u16 = 999;
/// Session numbers run from 1 up to this one, so that a handle has four bytes.
pub const LAST_SESSION: u32 = 65_535;
/// The longest ID.
pub const LONGEST_ID: usize = 32;
/// The longest PIN or PUK.
pub const LONGEST_PIN: usize = 16;
/// The longest public key.
pub const LONGEST_PUBLIC_KEY: usize = 96;

/// One record.
pub type Record = [u8; SIZE];

/// A free record is all zero.
pub const FREE: Record = [0; SIZE];

/// What byte 0 of a record says.
#[allow(missing_docs)]
pub mod kind {
    pub const FREE: u8 = 0;
    pub const SESSION: u8 = 1;
    pub const PUK: u8 = 2;
    pub const PIN_POLICY: u8 = 3;
    pub const KEY: u8 = 4;
    pub const PENDING: u8 = 5;
    pub const COUNTER: u8 = 6;
}

/// Where the fields lie that several kinds have alike.
#[allow(missing_docs)]
pub mod at {
    pub const KIND: usize = 0;
    pub const OWN: usize = 4;
    pub const SESSION: usize = 8;
    pub const PARENT: usize = 12;
    /// The length of the ID; its bytes follow.
    pub const ID: usize = 16;
}

/// Fields of kind 1. The common ID is the ServerSessionID.
#[allow(missing_docs)]
pub mod session {
    pub const STATE: usize = 1;
    pub const NEXT_OBJECT: usize = 2;
    pub const CLIENT_SESSION_ID: usize = 49;
    pub const SESSION_KEY: usize = 82;
    pub const MAC_COUNTER: usize = 114;
    pub const SESSION_KEY_LIMIT: usize = 116;
    pub const PRIVACY_ENABLED: usize = 118;
    pub const HAS_KEY_MANAGEMENT_KEY: usize = 119;
    pub const CLIENT_TIME: usize = 120;
    pub const SESSION_LIFE_TIME: usize = 124;
    /// From here on all is zero.
    pub const END: usize = 128;

    pub const OPEN: u8 = 1;
    pub const CLOSED: u8 = 2;
}

/// Fields of kind 2.
#[allow(missing_docs)]
pub mod puk {
    pub const FORMAT: usize = 1;
    pub const RETRY_LIMIT: usize = 2;
    pub const ERRORS: usize = 3;
    pub const VALUE: usize = 49;
    /// From here on all is zero.
    pub const END: usize = 66;
}

/// Fields of kind 3. The parent is a PUK.
#[allow(missing_docs)]
pub mod policy {
    pub const FORMAT: usize = 1;
    pub const RETRY_LIMIT: usize = 2;
    pub const GROUPING: usize = 3;
    pub const USER_DEFINED: usize = 49;
    pub const USER_MODIFIABLE: usize = 50;
    pub const PATTERNS: usize = 51;
    pub const MIN: usize = 52;
    pub const MAX: usize = 53;
    /// From here on all is zero.
    pub const END: usize = 54;

    /// Grouping 1: all keys of the policy have one PIN.
    pub const SHARED: u8 = 1;
}

/// Fields of kind 4. The parent is a PIN policy.
#[allow(missing_docs)]
pub mod key {
    pub const HAS_PATH: usize = 1;
    pub const ERRORS: usize = 2;
    pub const DELETE_PROTECTION: usize = 3;
    pub const PIN: usize = 49;
    /// Between the PIN and the public key all is zero.
    pub const AFTER_PIN: usize = 66;
    pub const PUBLIC_KEY: usize = 82;
    pub const CERTIFICATE_DIGEST: usize = 179;
    pub const ENABLE_PIN_CACHING: usize = 211;
    pub const EXPORT_PROTECTION: usize = 212;
    pub const APP_USAGE: usize = 213;
    /// From here on all is zero.
    pub const END: usize = 214;
}

/// Fields of kind 5. The parent is the target key, or 0 in a stale pending; there is no ID.
#[allow(missing_docs)]
pub mod pending {
    pub const OPERATION: usize = 1;
    pub const STALE: usize = 2;
    /// From here on all is zero.
    pub const END: usize = 16;

    pub const DELETE: u8 = 50;
    pub const UNLOCK: u8 = 51;
}

/// Fields of kind 6. The number lies where other kinds have their handle, and is none.
#[allow(missing_docs)]
pub mod counter {
    pub const NEXT_SESSION: usize = 4;
    /// From here on all is zero.
    pub const END: usize = 8;
}

/// The records of a store, or nothing if its length does not fit.
pub fn records(store: &[u8]) -> Option<&[Record]> {
    let (records, rest) = store.as_chunks::<SIZE>();
    (rest.is_empty() && fits(records.len())).then_some(records)
}

/// The same, to be changed.
pub fn records_mut(store: &mut [u8]) -> Option<&mut [Record]> {
    let (records, rest) = store.as_chunks_mut::<SIZE>();
    (rest.is_empty() && fits(records.len())).then_some(records)
}

fn fits(count: usize) -> bool {
    (FEWEST..=MOST).contains(&count)
}

/// The handle of an object of a session: session number × 65,536 + object number. A session is its own object 0.
pub fn handle(session: u32, object: u16) -> u32 {
    (session << 16) | u32::from(object)
}

/// The session number of a handle.
pub fn session_number(handle: u32) -> u32 {
    handle >> 16
}

/// The object number of a handle, 0 for a session's own.
pub fn object_number(handle: u32) -> u16 {
    handle as u16
}

/// Reading and writing the fields of a record by their place.
pub trait Fields {
    /// Byte 0.
    fn kind(&self) -> u8;
    /// Two bytes as a number.
    fn short(&self, place: usize) -> u16;
    /// Four bytes as a number.
    fn int(&self, place: usize) -> u32;
    /// A string: its length at `place`, its bytes after it, room for `longest` of them.
    fn text(&self, place: usize, longest: usize) -> &[u8];
    /// Sets two bytes.
    fn set_short(&mut self, place: usize, value: u16);
    /// Sets four bytes.
    fn set_int(&mut self, place: usize, value: u32);
    /// Sets a string and its padding; it is never longer than its room.
    fn set_text(&mut self, place: usize, longest: usize, value: &[u8]);

    /// The own handle.
    fn own(&self) -> u32 {
        self.int(at::OWN)
    }
    /// The session's handle.
    fn session(&self) -> u32 {
        self.int(at::SESSION)
    }
    /// The parent's handle, 0 for none.
    fn parent(&self) -> u32 {
        self.int(at::PARENT)
    }
    /// The ID.
    fn id(&self) -> &[u8] {
        self.text(at::ID, LONGEST_ID)
    }
    /// Whether this is a key under the PIN policy of that handle.
    fn is_key_under(&self, policy: u32) -> bool {
        self.kind() == kind::KEY && self.parent() == policy
    }
    /// Whether this is a PIN policy under the PUK of that handle.
    fn is_policy_under(&self, puk: u32) -> bool {
        self.kind() == kind::PIN_POLICY && self.parent() == puk
    }
    /// Whether this is an object that has an ID: a PUK, a PIN policy or a key.
    fn is_named_object(&self) -> bool {
        matches!(self.kind(), kind::PUK | kind::PIN_POLICY | kind::KEY)
    }
}

impl Fields for Record {
    fn kind(&self) -> u8 {
        self[at::KIND]
    }
    fn short(&self, place: usize) -> u16 {
        u16::from_be_bytes([self[place], self[place + 1]])
    }
    fn int(&self, place: usize) -> u32 {
        u32::from_be_bytes([self[place], self[place + 1], self[place + 2], self[place + 3]])
    }
    fn text(&self, place: usize, longest: usize) -> &[u8] {
        let length = usize::from(self[place]).min(longest);
        &self[place + 1..place + 1 + length]
    }
    fn set_short(&mut self, place: usize, value: u16) {
        self[place..place + 2].copy_from_slice(&value.to_be_bytes());
    }
    fn set_int(&mut self, place: usize, value: u32) {
        self[place..place + 4].copy_from_slice(&value.to_be_bytes());
    }
    fn set_text(&mut self, place: usize, longest: usize, value: &[u8]) {
        let length = value.len().min(longest);
        self[place] = length as u8;
        let room = &mut self[place + 1..place + 1 + longest];
        room.fill(0);
        room[..length].copy_from_slice(&value[..length]);
    }
}

/// A record of this kind with the common fields set and all else zero.
pub fn new_record(kind: u8, own: u32, session: u32, parent: u32, id: &[u8]) -> Record {
    let mut record = FREE;
    record[at::KIND] = kind;
    record.set_int(at::OWN, own);
    record.set_int(at::SESSION, session);
    record.set_int(at::PARENT, parent);
    record.set_text(at::ID, LONGEST_ID, id);
    record
}

/// The place of the record of this kind and handle. The kind is always part of the question: the counter's number
/// may look like a handle.
pub fn find(records: &[Record], kind: u8, handle: u32) -> Option<usize> {
    records.iter().position(|record| record.kind() == kind && record.own() == handle)
}

/// The place of the session of this handle if it is in this state.
pub fn find_session(records: &[Record], handle: u32, state: u8) -> Option<usize> {
    find(records, kind::SESSION, handle).filter(|&place| records[place][session::STATE] == state)
}

/// The place of an object of this kind and handle that belongs to this session.
pub fn find_in_session(records: &[Record], kind: u8, handle: u32, session: u32) -> Option<usize> {
    find(records, kind, handle).filter(|&place| records[place].session() == session)
}

/// The place that a new record takes: the lowest free one.
pub fn lowest_free(records: &[Record]) -> Option<usize> {
    records.iter().position(|record| record.kind() == kind::FREE)
}

/// The place of the counter.
pub fn find_counter(records: &[Record]) -> Option<usize> {
    records.iter().position(|record| record.kind() == kind::COUNTER)
}
