//! Things that happen rarely and matter much. A run of histories that never saw one of them has not tried the rule
//! behind it.

use crate::histories::Step;
use second::records::{key, pending, policy, puk, records, session, Fields, Record};
use std::collections::BTreeMap;

/// All that are looked for.
pub const ALL: [&str; 34] = [
    "close: removed a key",
    "close: unlocked a key",
    "close: carried out several pendings",
    "close: made another session's pending stale",
    "close: freed its own session, which had no key",
    "close: session stays, closed",
    "close: refused for a stale pending alone",
    "close: counter reached its limit",
    "removal: freed a PIN policy",
    "removal: kept a PIN policy that has another key",
    "removal: freed a PUK",
    "removal: kept a PUK that another PIN policy uses",
    "removal: freed a closed session",
    "removal: kept a closed session that has another key",
    "unlock: cleared the count of a PUK",
    "post: beside a stale pending",
    "post: on a key that another session holds",
    "80: made a pending stale",
    "80: right PUK cleared the count of a PUK that stays",
    "80: value given under DeleteProtection 0",
    "82: made a pending stale",
    "82: right value while the PUK is locked",
    "82: wrong value for a PUK with limit 0",
    "82: unlocked a locked key",
    "83: made a pending stale",
    "83: made a pending on a sibling key stale",
    "83: changed several keys at once",
    "83: sibling kept its count",
    "100: right value while the PIN is locked",
    "100: wrong value locked the key",
    "100: right value cleared the count",
    "made: the last object number",
    "made: the last session number",
    "made: in a place before others that are used",
];

/// How often each was seen.
#[derive(Default)]
pub struct Events {
    counts: BTreeMap<&'static str, u64>,
}

impl Events {
    /// Looks at a step.
    pub fn add(&mut self, step: &Step) {
        // Without a sound store nothing happens.
        if step.status == 19 || step.status == 21 || step.status == 16 {
            return;
        }
        if let (Some(before), Some(after)) = (records(&step.before), records(&step.after)) {
            for event in seen(step, before, after) {
                *self.counts.entry(event).or_default() += 1;
            }
        }
    }

    /// Those that were never seen.
    pub fn missing(&self) -> Vec<&'static str> {
        ALL.into_iter().filter(|event| !self.counts.contains_key(event)).collect()
    }

    /// The counts as text.
    pub fn text(&self) -> String {
        ALL.iter().map(|event| format!("{:>9}  {event}\n", self.counts.get(event).unwrap_or(&0))).collect()
    }
}

fn find(records: &[Record], kind: u8, handle: u32) -> Option<&Record> {
    records.iter().find(|record| record.kind() == kind && record.own() == handle)
}

fn gone(before: &[Record], after: &[Record], kind: u8) -> Vec<Record> {
    before.iter().filter(|record| record.kind() == kind && find(after, kind, record.own()).is_none()).copied().collect()
}

fn newly_stale(before: &[Record], after: &[Record]) -> Vec<Record> {
    let was_unstale = |record: &&Record| record.kind() == 5 && record[pending::STALE] == 0;
    before
        .iter()
        .filter(was_unstale)
        .filter(|record| find(after, 5, record.own()).is_some_and(|now| now[pending::STALE] == 1))
        .copied()
        .collect()
}

fn seen(step: &Step, before: &[Record], after: &[Record]) -> Vec<&'static str> {
    let mut events = Vec::new();
    let mut note = |event, happened: bool| {
        if happened {
            events.push(event);
        }
    };
    let method = step.call[0];
    let done = step.status == 0;
    let handle = u32::from_be_bytes([step.call[1], step.call[2], step.call[3], step.call[4]]);
    let stale = newly_stale(before, after);
    let removal = done && (method == 3 || method == 80);

    if method == 3 {
        let own: Vec<&Record> = before.iter().filter(|record| record.session() == handle).collect();
        let pendings: Vec<&&Record> = own.iter().filter(|record| record.kind() == 5).collect();
        let of = |operation| pendings.iter().any(|pending| pending[pending::OPERATION] == operation);
        note("close: removed a key", done && of(50));
        note("close: unlocked a key", done && of(51));
        note("close: carried out several pendings", done && pendings.len() > 1);
        note("close: made another session's pending stale", done && !stale.is_empty());
        note("close: freed its own session, which had no key", done && find(after, 1, handle).is_none());
        let closed = find(after, 1, handle);
        note("close: session stays, closed", done && closed.is_some());
        let has_stale = pendings.iter().any(|pending| pending[pending::STALE] == 1);
        let alone = own.iter().all(|record| match record.kind() {
            2 => before.iter().any(|other| other.is_policy_under(record.own())),
            3 => before.iter().any(|other| other.is_key_under(record.own())),
            4 => record[key::HAS_PATH] == 1,
            _ => true,
        });
        note("close: refused for a stale pending alone", step.status == 6 && has_stale && alone);
        let at_limit = |record: &Record| record.short(session::MAC_COUNTER) == record.short(session::SESSION_KEY_LIMIT);
        note("close: counter reached its limit", done && closed.is_some_and(at_limit));
        let unlocked_puk = before.iter().any(|record| {
            record.kind() == 2
                && record[puk::ERRORS] > 0
                && find(after, 2, record.own()).is_some_and(|now| now[puk::ERRORS] == 0)
        });
        note("unlock: cleared the count of a PUK", done && unlocked_puk);
    }
    if removal {
        note("removal: freed a PIN policy", !gone(before, after, 3).is_empty());
        note("removal: freed a PUK", !gone(before, after, 2).is_empty());
        note(
            "removal: freed a closed session",
            gone(before, after, 1).iter().any(|record| record[session::STATE] == 2),
        );
        for lost in gone(before, after, 4) {
            note("removal: kept a closed session that has another key", find(after, 1, lost.session()).is_some());
            note("removal: kept a PIN policy that has another key", find(after, 3, lost.parent()).is_some());
        }
        for lost in gone(before, after, 3) {
            note("removal: kept a PUK that another PIN policy uses", find(after, 2, lost.parent()).is_some());
        }
    }
    if (method == 50 || method == 51) && done {
        let target = u32::from_be_bytes([step.call[5], step.call[6], step.call[7], step.call[8]]);
        let pendings = || before.iter().filter(|record| record.kind() == 5);
        note("post: beside a stale pending", pendings().any(|p| p.session() == handle && p[pending::STALE] == 1));
        note(
            "post: on a key that another session holds",
            pendings().any(|p| p.session() != handle && p.parent() == target),
        );
    }
    if method >= 80 {
        by_user(step, before, after, handle, &stale, &mut note);
    }
    if done && [2, 8, 9, 10, 50, 51].contains(&method) {
        let place = (0..after.len()).find(|&place| before[place].kind() == 0 && after[place].kind() != 0);
        note(
            "made: in a place before others that are used",
            place.is_some_and(|place| before[place..].iter().any(|r| r.kind() != 0)),
        );
        let own = place.map_or(0, |place| after[place].own());
        note("made: the last object number", own % 65_536 == 999);
        note("made: the last session number", own == 65_535 * 65_536);
    }
    events
}

fn by_user(
    step: &Step,
    before: &[Record],
    after: &[Record],
    handle: u32,
    stale: &[Record],
    note: &mut dyn FnMut(&'static str, bool),
) {
    let (Some(target), done) = (find(before, 4, handle), step.status == 0) else {
        return;
    };
    let its_policy = find(before, 3, target.parent());
    let its_puk = its_policy.and_then(|policy| find(before, 2, policy.parent()));
    let limit = its_policy.map_or(0, |policy| policy[policy::RETRY_LIMIT]);
    let length = usize::from(u16::from_be_bytes([step.call[5], step.call[6]]));
    let typed = &step.call[7..7 + length];
    let now = find(after, 4, handle);
    match step.call[0] {
        80 => {
            note("80: made a pending stale", !stale.is_empty());
            let puk_now = its_puk.and_then(|puk| find(after, 2, puk.own()));
            let cleared =
                its_puk.is_some_and(|puk| puk[puk::ERRORS] > 0) && puk_now.is_some_and(|puk| puk[puk::ERRORS] == 0);
            note("80: right PUK cleared the count of a PUK that stays", done && cleared);
            note("80: value given under DeleteProtection 0", step.status == 1 && target[key::DELETE_PROTECTION] == 0);
        }
        82 => {
            note("82: made a pending stale", !stale.is_empty());
            if let Some(puk) = its_puk {
                let locked = puk[puk::RETRY_LIMIT] != 0 && puk[puk::ERRORS] == puk[puk::RETRY_LIMIT];
                let right = puk.text(puk::VALUE, 16) == typed;
                note("82: right value while the PUK is locked", step.status == 1 && locked && right);
                note("82: wrong value for a PUK with limit 0", step.status == 1 && puk[puk::RETRY_LIMIT] == 0);
            }
            note("82: unlocked a locked key", done && target[key::ERRORS] == limit);
        }
        83 => {
            note("83: made a pending stale", !stale.is_empty());
            note("83: made a pending on a sibling key stale", stale.iter().any(|pending| pending.parent() != handle));
            let changed = |record: &&Record| {
                record.is_key_under(target.parent())
                    && find(after, 4, record.own())
                        .is_some_and(|now| now[key::PIN..key::AFTER_PIN] != record[key::PIN..key::AFTER_PIN])
            };
            note("83: changed several keys at once", done && before.iter().filter(changed).count() > 1);
            let sibling = before.iter().filter(changed).any(|record| record.own() != handle && record[key::ERRORS] > 0);
            note("83: sibling kept its count", done && sibling);
        }
        _ => {
            let locked = limit != 0 && target[key::ERRORS] == limit;
            let right = target.text(key::PIN, 16) == typed;
            note("100: right value while the PIN is locked", step.status == 1 && locked && right);
            note(
                "100: wrong value locked the key",
                !locked && limit != 0 && now.is_some_and(|key| key[key::ERRORS] == limit),
            );
            note("100: right value cleared the count", done && target[key::ERRORS] > 0);
        }
    }
}
