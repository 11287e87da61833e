//! When a store is sound.
//!
//! The paper's sentence is a list of clauses; each is a function here. First every record is looked at by itself, then
//! the records together.

use crate::records::*;

/// Whether the store is sound.
pub fn sound(store: &[u8]) -> bool {
    let Some(records) = records(store) else {
        return false;
    };
    let Some(next_session) = the_counter(records) else {
        return false;
    };
    if !records.iter().all(obeys_the_table) {
        return false;
    }
    let directory = Directory::of(records);
    let children = Children::of(records);
    handles_are_distinct(records)
        && ids_differ(records)
        && client_session_ids_differ(records)
        && records.iter().all(|record| match record.kind() {
            kind::SESSION => session_fits(record, next_session, &children),
            kind::PUK => object_fits(record, &directory) && puk_fits(record, &directory, &children),
            kind::PIN_POLICY => object_fits(record, &directory) && policy_fits(record, &directory, &children),
            kind::KEY => object_fits(record, &directory) && key_fits(record, &directory),
            kind::PENDING => object_fits(record, &directory) && pending_fits(record, &directory),
            _ => true,
        })
        && one_unstale_pending_per_key(records)
        && shared_pins_are_equal(records, &directory)
}

// ---- one record by itself

/// Whether a record obeys the table of kinds and the ranges of its fields, as far as it can be seen without looking
/// at another record. The ranges are those of status 17: any wider and a call could leave an unsound store, any
/// narrower and a sound one could not be made.
fn obeys_the_table(record: &Record) -> bool {
    match record.kind() {
        kind::FREE => zero(record),
        kind::SESSION => obeys_as_session(record),
        kind::PUK => obeys_as_puk(record),
        kind::PIN_POLICY => obeys_as_policy(record),
        kind::KEY => obeys_as_key(record),
        kind::PENDING => obeys_as_pending(record),
        kind::COUNTER => obeys_as_counter(record),
        _ => false,
    }
}

fn obeys_as_session(record: &Record) -> bool {
    let state = record[session::STATE];
    let next = record.short(session::NEXT_OBJECT);
    (state == session::OPEN || state == session::CLOSED)
        && (1..=LAST_OBJECT + 1).contains(&next)
        && record.own() == record.session()
        && session_number(record.own()) != 0
        && object_number(record.own()) == 0
        && record.parent() == 0
        && is_id(record, at::ID)
        && is_id(record, session::CLIENT_SESSION_ID)
        && record.short(session::MAC_COUNTER) <= record.short(session::SESSION_KEY_LIMIT)
        && record.short(session::SESSION_KEY_LIMIT) != 0
        && is_bool(record[session::PRIVACY_ENABLED])
        && is_bool(record[session::HAS_KEY_MANAGEMENT_KEY])
        && zero(&record[session::END..])
        && (state == session::OPEN || zero(&record[session::SESSION_KEY..session::MAC_COUNTER]))
}

fn obeys_as_puk(record: &Record) -> bool {
    record[puk::FORMAT] <= 3
        // A limit of 0 keeps no count, so this also asks for count 0 there.
        && record[puk::ERRORS] <= record[puk::RETRY_LIMIT]
        && is_object_handle(record)
        && record.parent() == 0
        && is_id(record, at::ID)
        && is_text(record, puk::VALUE, 1, LONGEST_PIN)
        && zero(&record[puk::END..])
}

fn obeys_as_policy(record: &Record) -> bool {
    let (min, max) = (record[policy::MIN], record[policy::MAX]);
    record[policy::FORMAT] <= 3
        && record[policy::RETRY_LIMIT] != 0
        && record[policy::GROUPING] <= 1
        && is_object_handle(record)
        && is_id(record, at::ID)
        && is_bool(record[policy::USER_DEFINED])
        && is_bool(record[policy::USER_MODIFIABLE])
        && record[policy::PATTERNS] <= 7
        && 1 <= min
        && min <= max
        && usize::from(max) <= LONGEST_PIN
        && zero(&record[policy::END..])
}

fn obeys_as_key(record: &Record) -> bool {
    let has_policy = record.parent() != 0;
    let has_pin = record[key::PIN] != 0;
    is_bool(record[key::HAS_PATH])
        && (has_policy || record[key::ERRORS] == 0)
        && record[key::DELETE_PROTECTION] <= 3
        && is_object_handle(record)
        && is_id(record, at::ID)
        && has_pin == has_policy
        && is_text(record, key::PIN, 0, LONGEST_PIN)
        && zero(&record[key::AFTER_PIN..key::PUBLIC_KEY])
        && is_text(record, key::PUBLIC_KEY, 1, LONGEST_PUBLIC_KEY)
        && (record[key::HAS_PATH] == 1 || zero(&record[key::CERTIFICATE_DIGEST..key::ENABLE_PIN_CACHING]))
        && is_bool(record[key::ENABLE_PIN_CACHING])
        && record[key::EXPORT_PROTECTION] <= 3
        && zero(&record[key::END..])
}

fn obeys_as_pending(record: &Record) -> bool {
    let operation = record[pending::OPERATION];
    (operation == pending::DELETE || operation == pending::UNLOCK)
        && is_bool(record[pending::STALE])
        && record[pending::STALE + 1] == 0
        && is_object_handle(record)
        && (record.parent() == 0) == (record[pending::STALE] == 1)
        && zero(&record[pending::END..])
}

fn obeys_as_counter(record: &Record) -> bool {
    let next = record.int(counter::NEXT_SESSION);
    zero(&record[1..counter::NEXT_SESSION]) && (1..=LAST_SESSION + 1).contains(&next) && zero(&record[counter::END..])
}

/// An object's handle carries its session's number, and an object number from 1. (That the session's own handle has the
/// right form is asked of the session, and that 999 is the last follows from its next number.)
fn is_object_handle(record: &Record) -> bool {
    session_number(record.own()) == session_number(record.session()) && object_number(record.own()) != 0
}

/// A string field: its length is in range, and zeros fill the room behind it.
fn is_text(record: &Record, place: usize, shortest: usize, longest: usize) -> bool {
    let length = usize::from(record[place]);
    (shortest..=longest).contains(&length) && zero(&record[place + 1 + length..place + 1 + longest])
}

/// An ID: 1 to 32 bytes, each 0x21 to 0x7E.
fn is_id(record: &Record, place: usize) -> bool {
    is_text(record, place, 1, LONGEST_ID)
        && record.text(place, LONGEST_ID).iter().all(|byte| (0x21..=0x7e).contains(byte))
}

fn is_bool(byte: u8) -> bool {
    byte <= 1
}

/// Most bytes of a store are such zeros; without a way out at each byte they are looked at many at a time.
fn zero(bytes: &[u8]) -> bool {
    bytes.iter().fold(0, |seen, byte| seen | byte) == 0
}

// ---- the records together

/// One counter stands in the store: its number, or nothing if there is none or more than one.
fn the_counter(records: &[Record]) -> Option<u32> {
    let mut counters = records.iter().filter(|record| record.kind() == kind::COUNTER);
    let counter = counters.next()?;
    counters.next().is_none().then(|| counter.int(counter::NEXT_SESSION))
}

/// Kinds 1 to 5 have a handle. The counter's number is none: at 65,536 it would equal that of session 1.
fn has_handle(record: &Record) -> bool {
    !matches!(record.kind(), kind::FREE | kind::COUNTER)
}

/// Handles are distinct over the store.
fn handles_are_distinct(records: &[Record]) -> bool {
    distinct(records.iter().filter(|record| has_handle(record)).map(|record| record.own()).collect())
}

/// Object IDs differ within a session; PUKs, PIN policies and keys share one space of names.
fn ids_differ(records: &[Record]) -> bool {
    let named = records.iter().filter(|record| record.is_named_object());
    distinct(named.map(|record| (record.session(), record.id())).collect())
}

/// ClientSessionIDs differ over the store, open and closed sessions alike.
fn client_session_ids_differ(records: &[Record]) -> bool {
    let sessions = records.iter().filter(|record| record.kind() == kind::SESSION);
    distinct(sessions.map(|record| record.text(session::CLIENT_SESSION_ID, LONGEST_ID)).collect())
}

/// One session has at most one unstale pending per key.
fn one_unstale_pending_per_key(records: &[Record]) -> bool {
    let unstale = records.iter().filter(|record| record.kind() == kind::PENDING && record[pending::STALE] == 0);
    distinct(unstale.map(|record| (record.session(), record.parent())).collect())
}

/// Keys under a shared policy have equal PINs. With the keys sorted by policy, neighbours tell.
fn shared_pins_are_equal(records: &[Record], directory: &Directory) -> bool {
    let mut pins: Vec<(u32, &[u8])> = records
        .iter()
        .filter(|record| record.kind() == kind::KEY)
        .filter(|record| {
            let its_policy = directory.parent_of(record, kind::PIN_POLICY);
            its_policy.is_some_and(|policy| policy[policy::GROUPING] == policy::SHARED)
        })
        .map(|record| (record.parent(), record.text(key::PIN, LONGEST_PIN)))
        .collect();
    pins.sort_unstable();
    pins.windows(2).all(|pair| pair[0].0 != pair[1].0 || pair[0].1 == pair[1].1)
}

/// A session's number is below the counter's. A closed one has a key; that its keys have paths, its policies children
/// and its SessionKey is zero is asked where those records are looked at.
fn session_fits(record: &Record, next_session: u32, children: &Children) -> bool {
    session_number(record.own()) < next_session
        && (record[session::STATE] == session::OPEN || children.has_key(record.own()))
}

/// An object's session exists, and the object's number is below that session's next one.
fn object_fits(record: &Record, directory: &Directory) -> bool {
    directory
        .session_of(record)
        .is_some_and(|its_session| object_number(record.own()) < its_session.short(session::NEXT_OBJECT))
}

/// No PUK in a closed session lacks a child.
fn puk_fits(record: &Record, directory: &Directory, children: &Children) -> bool {
    !directory.in_closed_session(record) || children.has_child(record.own())
}

/// A PIN policy's PUK exists in the same session; no PIN policy in a closed session lacks a child.
fn policy_fits(record: &Record, directory: &Directory, children: &Children) -> bool {
    (record.parent() == 0 || directory.parent_of(record, kind::PUK).is_some())
        && (!directory.in_closed_session(record) || children.has_child(record.own()))
}

/// A key's PIN policy exists in the same session and bounds its errors; DeleteProtection 1 has a PIN, 2 a PUK; a key
/// of a closed session has its path.
fn key_fits(record: &Record, directory: &Directory) -> bool {
    let its_policy = directory.parent_of(record, kind::PIN_POLICY);
    (record.parent() == 0 || its_policy.is_some())
        && its_policy.is_none_or(|policy| record[key::ERRORS] <= policy[policy::RETRY_LIMIT])
        && match record[key::DELETE_PROTECTION] {
            1 => its_policy.is_some(),
            2 => its_policy.is_some_and(|policy| policy.parent() != 0),
            _ => true,
        }
        && (!directory.in_closed_session(record) || record[key::HAS_PATH] == 1)
}

/// A pending belongs to an open session. An unstale one targets a key of a closed session that has a
/// KeyManagementKey, and for 51 the key has a PIN policy.
fn pending_fits(record: &Record, directory: &Directory) -> bool {
    !directory.in_closed_session(record)
        && (record[pending::STALE] == 1
            || directory.get(kind::KEY, record.parent()).is_some_and(|target| {
                directory.in_closed_session(target)
                    && directory.session_of(target).is_some_and(|found| found[session::HAS_KEY_MANAGEMENT_KEY] == 1)
                    && (record[pending::OPERATION] == pending::DELETE || target.parent() != 0)
            }))
}

/// Whether no two of the items are equal.
fn distinct<T: Ord>(mut items: Vec<T>) -> bool {
    items.sort_unstable();
    items.windows(2).all(|pair| pair[0] != pair[1])
}

/// The records by handle. It is made once per test, for each record asks for others several times.
struct Directory<'a> {
    by_handle: Vec<(u32, &'a Record)>,
}

impl<'a> Directory<'a> {
    fn of(records: &'a [Record]) -> Directory<'a> {
        let mut by_handle: Vec<(u32, &Record)> =
            records.iter().filter(|record| has_handle(record)).map(|record| (record.own(), record)).collect();
        by_handle.sort_unstable_by_key(|entry| entry.0);
        Directory { by_handle }
    }

    fn get(&self, kind: u8, handle: u32) -> Option<&'a Record> {
        let place = self.by_handle.binary_search_by_key(&handle, |entry| entry.0).ok()?;
        Some(self.by_handle[place].1).filter(|record| record.kind() == kind)
    }

    /// The session a record belongs to.
    fn session_of(&self, record: &Record) -> Option<&'a Record> {
        self.get(kind::SESSION, record.session())
    }

    fn in_closed_session(&self, record: &Record) -> bool {
        self.session_of(record).is_some_and(|found| found[session::STATE] == session::CLOSED)
    }

    /// The parent of that kind, if it is there and in the same session.
    fn parent_of(&self, record: &Record, kind: u8) -> Option<&'a Record> {
        self.get(kind, record.parent()).filter(|parent| parent.session() == record.session())
    }
}

/// Which handles are the parent of something, and which sessions have a key.
struct Children {
    parents: Vec<u32>,
    sessions_with_key: Vec<u32>,
}

impl Children {
    fn of(records: &[Record]) -> Children {
        // A PUK's child is a PIN policy, a PIN policy's a key. A pending's parent is a key, so it adds nothing here.
        let mut parents: Vec<u32> = records
            .iter()
            .filter(|record| matches!(record.kind(), kind::PIN_POLICY | kind::KEY))
            .map(|record| record.parent())
            .collect();
        parents.sort_unstable();
        let mut sessions_with_key: Vec<u32> =
            records.iter().filter(|record| record.kind() == kind::KEY).map(|record| record.session()).collect();
        sessions_with_key.sort_unstable();
        Children { parents, sessions_with_key }
    }

    fn has_child(&self, handle: u32) -> bool {
        self.parents.binary_search(&handle).is_ok()
    }

    fn has_key(&self, session: u32) -> bool {
        self.sessions_with_key.binary_search(&session).is_ok()
    }
}
