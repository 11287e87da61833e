//! A small sound store with every kind of record in it, which tests of soundness change in one place.

use crate::crafted::{self, Key, Pending, Policy, Puk, Record, Session};

// Places of its records.

pub const COUNTER: usize = 0;
pub const CLOSED: usize = 1;
pub const PUK: usize = 2;
pub const POLICY: usize = 3;
pub const KEY: usize = 4;
pub const TWIN: usize = 5;
pub const PLAIN: usize = 6;
pub const OPEN: usize = 7;
pub const NEW_PUK: usize = 8;
pub const NEW_POLICY: usize = 9;
pub const NEW_KEY: usize = 10;
pub const PENDING: usize = 11;
pub const STALE: usize = 12;
pub const UNMANAGED: usize = 13;
pub const FAR: usize = 14;
pub const FREE: usize = 15;

pub fn key(handle: u32, id: &str, policy: u32, pin: &[u8], path: bool) -> Key {
    Key {
        handle,
        id: id.into(),
        policy,
        pin: pin.to_vec(),
        errors: 0,
        delete_protection: 0,
        public_key: vec![4; 96],
        path: path.then_some([9; 32]),
        pin_caching: 1,
        export_protection: 3,
        app_usage: 255,
    }
}

pub fn policy(handle: u32, puk: u32) -> Policy {
    Policy {
        handle,
        id: b"policy".to_vec(),
        puk,
        format: 0,
        retry_limit: 3,
        grouping: 1,
        user_defined: 1,
        user_modifiable: 1,
        patterns: 7,
        min: 4,
        max: 16,
    }
}

pub fn puk(handle: u32) -> Puk {
    Puk { handle, id: b"puk".to_vec(), format: 3, retry_limit: 3, errors: 3, value: vec![1; 16] }
}

/// A closed session with PUK, shared policy, two keys under it and one without; an open one with everything; a closed
/// one that cannot be managed.
pub fn sample() -> Vec<Record> {
    let (a, b, c) = (65_536, 131_072, 196_608);
    let session = |number, closed, next_object, client: &str, managed| {
        Session { number, closed, next_object, client_session_id: client.into(), managed, ..Default::default() }
            .record()
    };
    let mut records = vec![[0; 256]; 16];
    records[COUNTER] = crafted::counter(9);
    records[CLOSED] = session(1, true, 6, "a", 1);
    records[PUK] = puk(a + 1).record();
    records[POLICY] = policy(a + 2, a + 1).record();
    records[KEY] = Key { errors: 3, delete_protection: 2, ..key(a + 3, "k1", a + 2, b"1234", true) }.record();
    records[TWIN] = Key { delete_protection: 1, ..key(a + 4, "k2", a + 2, b"1234", true) }.record();
    records[PLAIN] = Key { delete_protection: 3, ..key(a + 5, "k3", 0, b"", true) }.record();
    records[OPEN] = session(2, false, 6, "b", 0);
    records[NEW_PUK] = Puk { retry_limit: 0, errors: 0, ..puk(b + 1) }.record();
    records[NEW_POLICY] = policy(b + 2, 0).record();
    records[NEW_KEY] = key(b + 3, "k1", b + 2, b"9", false).record();
    records[PENDING] = Pending { handle: b + 4, operation: 51, target: a + 3 }.record();
    records[STALE] = Pending { handle: b + 5, operation: 50, target: 0 }.record();
    records[UNMANAGED] = session(3, true, 1000, "c", 0);
    records[FAR] = key(c + 999, "k1", 0, b"", true).record();
    records
}
