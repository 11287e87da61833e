//! Closing, and who comes second.
//!
//! What sessions ask of other sessions' keys waits as a pending record and is done at their close. Whoever changes a key
//! first makes every other pending on it stale, and a session with a stale pending cannot close.

use crate::records::*;

/// Whether a session may close: no key of it lacks its path, no policy of it lacks a child, no pending of it is
/// stale.
pub fn may_close(records: &[Record], session: u32) -> bool {
    records.iter().filter(|record| record.session() == session).all(|record| match record.kind() {
        kind::KEY => record[key::HAS_PATH] == 1,
        kind::PUK => records.iter().any(|other| other.is_policy_under(record.own())),
        kind::PIN_POLICY => records.iter().any(|other| other.is_key_under(record.own())),
        kind::PENDING => record[pending::STALE] == 0,
        _ => true,
    })
}

/// Closes a session that may: carries out its pendings by rising handle and frees them, then zeroes the SessionKey
/// and closes the session, or frees it if it has no key.
pub fn close(records: &mut [Record], place: usize) {
    let session = records[place].own();
    let mut pendings: Vec<(u32, usize)> = records
        .iter()
        .enumerate()
        .filter(|(_, record)| record.kind() == kind::PENDING && record.session() == session)
        .map(|(place, record)| (record.own(), place))
        .collect();
    pendings.sort_unstable();
    for (_, place) in pendings {
        carry_out(records, place);
    }

    if has_key(records, session) {
        records[place][session::STATE] = session::CLOSED;
        records[place][session::SESSION_KEY..session::MAC_COUNTER].fill(0);
    } else {
        records[place] = FREE;
    }
}

/// Does what a pending asks for. The pending itself goes first, so that those that become stale are the others.
fn carry_out(records: &mut [Record], place: usize) {
    let pending = records[place];
    records[place] = FREE;
    if let Some(target) = find(records, kind::KEY, pending.parent()) {
        match pending[pending::OPERATION] {
            pending::DELETE => remove_key(records, target),
            _ => unlock_key(records, target),
        }
    }
}

/// Removes a key of a closed session. Other pendings on it become stale; a PIN policy left without key goes, then a
/// PUK left without PIN policy, and the closed session if no key is left in it.
pub fn remove_key(records: &mut [Record], place: usize) {
    let key = records[place];
    records[place] = FREE;
    mark_stale(records, key.own());
    free_policy_without_key(records, key.parent());
    free_session_without_key(records, key.session());
}

fn free_policy_without_key(records: &mut [Record], policy: u32) {
    if records.iter().any(|record| record.is_key_under(policy)) {
        return;
    }
    if let Some(place) = find(records, kind::PIN_POLICY, policy) {
        let puk = records[place].parent();
        records[place] = FREE;
        free_puk_without_policy(records, puk);
    }
}

/// A PUK that another PIN policy uses stays.
fn free_puk_without_policy(records: &mut [Record], puk: u32) {
    if records.iter().any(|record| record.is_policy_under(puk)) {
        return;
    }
    if let Some(place) = find(records, kind::PUK, puk) {
        records[place] = FREE;
    }
}

fn free_session_without_key(records: &mut [Record], session: u32) {
    if has_key(records, session) {
        return;
    }
    if let Some(place) = find_session(records, session, session::CLOSED) {
        records[place] = FREE;
    }
}

/// Unlocks a key: its count and that of its PUK become 0, whether or not it was locked, and other pendings on it
/// become stale.
pub fn unlock_key(records: &mut [Record], place: usize) {
    let key = records[place];
    records[place][key::ERRORS] = 0;
    if let Some(policy) = find(records, kind::PIN_POLICY, key.parent()) {
        if let Some(puk) = find(records, kind::PUK, records[policy].parent()) {
            records[puk][puk::ERRORS] = 0;
        }
    }
    mark_stale(records, key.own());
}

/// Marks every pending on a key stale. It names no key from then on, and nothing undoes it.
pub fn mark_stale(records: &mut [Record], key: u32) {
    for record in records.iter_mut() {
        if record.kind() == kind::PENDING && record.parent() == key {
            record[pending::STALE] = 1;
            record.set_int(at::PARENT, 0);
        }
    }
}

/// Removes a session with all its records, and no other: what an abort does, and a refused session call.
pub fn remove_session(records: &mut [Record], session: u32) {
    for record in records.iter_mut() {
        if record.session() == session {
            *record = FREE;
        }
    }
}

fn has_key(records: &[Record], session: u32) -> bool {
    records.iter().any(|record| record.kind() == kind::KEY && record.session() == session)
}
