//! Soundness: one edit for each clause, and a second wording of all clauses held against the first.

use trials::crafted::{self, Pending, Record, Session};
use trials::random::Random;
use trials::sample::*;

fn int(record: &Record, place: usize) -> u32 {
    u32::from_be_bytes(record[place..place + 4].try_into().unwrap())
}

fn short(record: &Record, place: usize) -> u16 {
    u16::from_be_bytes(record[place..place + 2].try_into().unwrap())
}

// ---- one edit a clause

fn is_sound(records: &[Record]) -> bool {
    second::sound(&crafted::store(records))
}

#[test]
fn the_sample_is_sound() {
    assert!(is_sound(&sample()));
}

/// Each edit sets bytes of one record and so breaks the clause it is named after; a few break a second one on the way.
#[test]
fn edits_that_break_a_clause() {
    let edits: &[(&str, usize, usize, &[u8])] = &[
        ("kind 7", FREE, 0, &[7]),
        ("a free record is all zero", FREE, 200, &[1]),
        ("a second counter", FREE, 0, &[6, 0, 0, 0, 0, 0, 0, 9]),
        ("counter 0", COUNTER, 4, &[0, 0, 0, 0]),
        ("counter 65,537", COUNTER, 4, &[0, 1, 0, 1]),
        ("counter has another field", COUNTER, 3, &[1]),
        ("counter has a session", COUNTER, 11, &[1]),
        ("counter at a session's number", COUNTER, 4, &[0, 0, 0, 3]),
        ("no counter", COUNTER, 0, &[0, 0, 0, 0, 0, 0, 0, 0]),
        ("state 0", OPEN, 1, &[0]),
        ("state 3", OPEN, 1, &[3]),
        ("next object number 0", OPEN, 2, &[0, 0]),
        ("next object number 1,001", UNMANAGED, 2, &[3, 0xe9]),
        ("object number not below the next", OPEN, 2, &[0, 5]),
        ("session is not its own session", OPEN, 8, &[0, 1, 0, 0]),
        ("session has a parent", OPEN, 15, &[1]),
        ("ServerSessionID empty", OPEN, 16, &[0, 0, 0, 0, 0, 0, 0]),
        ("ServerSessionID with a blank", OPEN, 17, &[0x20]),
        ("ServerSessionID with 7F", OPEN, 17, &[0x7f]),
        ("ServerSessionID padding", OPEN, 48, b"x"),
        ("ClientSessionID empty", OPEN, 49, &[0, 0]),
        ("ClientSessionID of 33 bytes", OPEN, 49, &[33]),
        ("ClientSessionID in use", OPEN, 50, b"c"),
        ("MAC counter above the limit", OPEN, 114, &[0, 101]),
        ("limit 0", OPEN, 114, &[0, 0, 0, 0]),
        ("PrivacyEnabled 2", OPEN, 118, &[2]),
        ("KeyManagementKey 2", OPEN, 119, &[2]),
        ("session tail", OPEN, 128, &[1]),
        ("closed session keeps its SessionKey", CLOSED, 113, &[1]),
        ("PUK format 4", PUK, 1, &[4]),
        ("PUK errors above the limit", PUK, 3, &[4]),
        ("PUK errors where the limit is 0", NEW_PUK, 3, &[1]),
        ("PUK with a parent", NEW_PUK, 12, &[0, 2, 0, 2]),
        ("PUK value empty", NEW_PUK, 49, &[0; 17]),
        ("PUK value of 17 bytes", NEW_PUK, 49, &[17]),
        ("PUK tail", NEW_PUK, 66, &[1]),
        ("PUK of a closed session without child", POLICY, 12, &[0, 0, 0, 0]),
        ("policy format 4", NEW_POLICY, 1, &[4]),
        ("policy retry limit 0", NEW_POLICY, 2, &[0]),
        ("policy grouping 2", NEW_POLICY, 3, &[2]),
        ("policy's PUK missing", NEW_POLICY, 12, &[0, 2, 0, 0x50]),
        ("policy's PUK in another session", NEW_POLICY, 12, &[0, 1, 0, 1]),
        ("policy's PUK is a key", NEW_POLICY, 12, &[0, 2, 0, 3]),
        ("UserDefined 2", NEW_POLICY, 49, &[2]),
        ("UserModifiable 2", NEW_POLICY, 50, &[2]),
        ("patterns 8", NEW_POLICY, 51, &[8]),
        ("min 0", NEW_POLICY, 52, &[0]),
        ("min above max", NEW_POLICY, 52, &[8, 7]),
        ("max 17", NEW_POLICY, 53, &[17]),
        ("policy tail", NEW_POLICY, 54, &[1]),
        ("path 2", NEW_KEY, 1, &[2]),
        ("errors above the limit", NEW_KEY, 2, &[4]),
        ("errors without policy", PLAIN, 2, &[1]),
        ("DeleteProtection 4", NEW_KEY, 3, &[4]),
        ("DeleteProtection 1 without PIN", PLAIN, 3, &[1]),
        ("DeleteProtection 2 without policy", PLAIN, 3, &[2]),
        ("DeleteProtection 2 without PUK", NEW_KEY, 3, &[2]),
        ("own handle 0", NEW_KEY, 4, &[0, 0, 0, 0]),
        ("object number 0", NEW_KEY, 4, &[0, 2, 0, 0]),
        ("handle carries another session's number", NEW_KEY, 4, &[0, 3, 0, 3]),
        ("handle in use", NEW_KEY, 4, &[0, 2, 0, 4]),
        ("session missing", NEW_KEY, 4, &[0, 9, 0, 1, 0, 9, 0, 0, 0, 0, 0, 0]),
        ("session's handle with an object number", NEW_KEY, 8, &[0, 2, 0, 3]),
        ("key's policy missing", NEW_KEY, 12, &[0, 2, 0, 0x50]),
        ("key's policy in another session", NEW_KEY, 12, &[0, 1, 0, 2]),
        ("key's policy is a PUK", NEW_KEY, 12, &[0, 2, 0, 1]),
        ("PIN without policy", PLAIN, 49, &[1, b'1']),
        ("policy without PIN", NEW_KEY, 49, &[0, 0]),
        ("PIN of 17 bytes", NEW_KEY, 49, &[17]),
        ("PIN padding", NEW_KEY, 65, &[1]),
        ("behind the PIN", NEW_KEY, 66, &[1]),
        ("before the public key", NEW_KEY, 81, &[1]),
        ("public key empty", NEW_KEY, 82, &[0; 97]),
        ("public key of 97 bytes", NEW_KEY, 82, &[97]),
        ("public key padding", NEW_KEY, 82, &[95]),
        ("digest without path", NEW_KEY, 210, &[1]),
        ("EnablePINCaching 2", NEW_KEY, 211, &[2]),
        ("ExportProtection 4", NEW_KEY, 212, &[4]),
        ("key tail", NEW_KEY, 214, &[1]),
        ("ID of a PUK with a blank", NEW_PUK, 17, b" "),
        ("ID of a policy with 80", NEW_POLICY, 17, &[0x80]),
        ("ID of a key with 00", NEW_KEY, 17, &[0]),
        ("ID in use in the session", TWIN, 17, b"k1"),
        ("ID of a policy in use in the session", NEW_POLICY, 16, b"\x02k1\0\0\0\0"),
        ("PINs under a shared policy differ", TWIN, 50, b"4321"),
        ("policy of a closed session without child", KEY, 2, &[0, 0]),
        ("operation 52", PENDING, 1, &[52]),
        ("stale 2", PENDING, 2, &[2]),
        ("behind the stale mark", PENDING, 3, &[1]),
        ("stale with a target", PENDING, 2, &[1]),
        ("unstale without target", STALE, 2, &[0]),
        ("pending with an ID", PENDING, 16, b"\x01x"),
        ("pending tail", PENDING, 255, &[1]),
        ("target missing", PENDING, 12, &[0, 1, 0, 0x50]),
        ("target is no key", PENDING, 12, &[0, 1, 0, 2]),
        ("target in an open session", PENDING, 12, &[0, 2, 0, 3]),
        ("target without KeyManagementKey", PENDING, 1, &[50, 0, 0, 0, 2, 0, 4, 0, 2, 0, 0, 0, 3, 3, 0xe7]),
        ("unlock of a key without PIN", PENDING, 12, &[0, 1, 0, 5]),
        ("two unstale pendings on one key", STALE, 2, &[0, 0, 0, 2, 0, 5, 0, 2, 0, 0, 0, 1, 0, 3]),
        ("pending in a closed session", STALE, 4, &[0, 3, 0, 1, 0, 3, 0, 0]),
    ];
    for (name, place, start, bytes) in edits {
        let mut records = sample();
        records[*place][*start..*start + bytes.len()].copy_from_slice(bytes);
        if *name == "policy of a closed session without child" {
            // Both keys leave the policy, and their PINs and protections with it.
            for key in [KEY, TWIN] {
                records[key][2..4].fill(0);
                records[key][12..16].fill(0);
                records[key][49..66].fill(0);
            }
            // The pending on one of them would fall with its PIN.
            records[PENDING][1] = 50;
        }
        assert!(!is_sound(&records), "{name}");
        assert!(!by_the_letter(&crafted::store(&records)), "{name}");
    }
}

/// Each record breaks a clause when it stands in the free place, or in the place of another.
#[test]
fn records_that_break_a_clause() {
    let (b, e) = (131_072, 5 * 65_536);
    let fresh = |number, closed| Session { number, closed, client_session_id: b"new".to_vec(), ..Default::default() };
    let odd = |record: Record, bytes: &[u8]| {
        let mut record = record;
        record[4..4 + bytes.len()].copy_from_slice(bytes);
        record
    };
    let named = |id: &str, record: Record| {
        let mut record = record;
        record[16..49].fill(0);
        record[16] = id.len() as u8;
        record[17..17 + id.len()].copy_from_slice(id.as_bytes());
        record
    };
    let bad: &[(&str, usize, Record)] = &[
        ("session number 0", FREE, fresh(0, false).record()),
        ("session handle with an object number", FREE, odd(fresh(5, false).record(), &[0, 5, 0, 1, 0, 5, 0, 1])),
        ("closed without a key", FREE, fresh(5, true).record()),
        ("session number not below the counter's", FREE, fresh(9, false).record()),
        ("object without session", FREE, named("x", puk(e + 1).record())),
        ("PUK carries another number", FREE, odd(named("x", puk(b + 1).record()), &[0, 3, 0, 1])),
        ("policy carries another number", FREE, odd(named("x", policy(b + 1, 0).record()), &[0, 3, 0, 1])),
        (
            "pending carries another number",
            FREE,
            odd(Pending { handle: b + 1, operation: 50, target: 0 }.record(), &[0, 3, 0, 1]),
        ),
        ("key of a closed session without path", PLAIN, key(65_541, "k3", 0, b"", false).record()),
    ];
    for (name, place, record) in bad {
        let mut records = sample();
        records[*place] = *record;
        assert!(!is_sound(&records), "{name}");
        assert!(!by_the_letter(&crafted::store(&records)), "{name}");
    }
    // The like of them with nothing wrong.
    let good = [
        fresh(5, false).record(),
        fresh(8, false).record(),
        named("x", puk(b + 6).record()),
        Pending { handle: b + 6, operation: 50, target: 0 }.record(),
    ];
    for record in good {
        let mut records = sample();
        records[OPEN][2..4].copy_from_slice(&[0, 7]);
        records[FREE] = record;
        assert!(is_sound(&records) && by_the_letter(&crafted::store(&records)));
    }
}

/// Edits that stay on the right side.
#[test]
fn edits_that_break_nothing() {
    let edits: &[(&str, usize, usize, &[u8])] = &[
        // At 65,536 the counter's number equals the handle of session 1.
        ("counter 65,536", COUNTER, 4, &[0, 1, 0, 0]),
        ("next object number 1,000", OPEN, 2, &[3, 0xe8]),
        ("MAC counter at the limit", OPEN, 114, &[0, 100]),
        ("SessionKey zero in an open session", OPEN, 82, &[0; 32]),
        ("limit 0 for a PUK", PUK, 2, &[0, 0]),
        ("PIN shorter than min", NEW_KEY, 49, &[1, b'x']),
        ("digest zero with path", PLAIN, 179, &[0; 32]),
        ("removal of a key without PIN", PENDING, 1, &[50, 0, 0, 0, 2, 0, 4, 0, 2, 0, 0, 0, 1, 0, 5]),
        ("ID of an object in another session", NEW_PUK, 16, b"\x02k2\0"),
        ("ServerSessionID is no object's ID", OPEN, 16, b"\x02k1\0\0\0\0"),
        ("two pendings on two keys", STALE, 1, &[51, 0, 0, 0, 2, 0, 5, 0, 2, 0, 0, 0, 1, 0, 4]),
    ];
    for (name, place, start, bytes) in edits {
        let mut records = sample();
        records[*place][*start..*start + bytes.len()].copy_from_slice(bytes);
        assert!(is_sound(&records), "{name}");
        assert!(by_the_letter(&crafted::store(&records)), "{name}");
    }
}

#[test]
fn places_do_not_matter() {
    let mut random = Random::new(5);
    let mut records = sample();
    for _ in 0..50 {
        random.shuffle(&mut records);
        assert!(is_sound(&records));
    }
}

// ---- a second wording

/// The paper's sentence once more, clause after clause, with no thought of speed.
fn by_the_letter(store: &[u8]) -> bool {
    if !store.len().is_multiple_of(256) || store.len() < 512 || store.len() > 65_536 {
        return false;
    }
    let all: Vec<Record> = store.chunks(256).map(|piece| piece.try_into().unwrap()).collect();
    let counters: Vec<&Record> = all.iter().filter(|record| record[0] == 6).collect();
    if counters.len() != 1 {
        return false;
    }
    let next_session = int(counters[0], 4);
    let handled: Vec<(usize, &Record)> =
        all.iter().enumerate().filter(|(_, record)| (1..=5).contains(&record[0])).collect();
    let of = |kind: u8, handle: u32| {
        handled.iter().map(|entry| entry.1).find(|record| record[0] == kind && int(record, 4) == handle)
    };

    for record in &all {
        if !named_bytes_only(record) || !ranges(record) {
            return false;
        }
    }
    for &(place, record) in &handled {
        let (own, session, parent) = (int(record, 4), int(record, 8), int(record, 12));
        let Some(its_session) = of(1, session) else {
            return false;
        };
        if own >> 16 != session >> 16 || own >> 16 == 0 || own >> 16 >= next_session {
            return false;
        }
        if record[0] == 1 && own != session {
            return false;
        }
        let object = (own & 0xffff) as u16;
        if (record[0] == 1) != (object == 0) || object >= short(its_session, 2) {
            return false;
        }
        let closed = its_session[1] == 2;
        let child_of_own = |kind: u8| handled.iter().any(|(_, other)| other[0] == kind && int(other, 12) == own);
        for &(other_place, other) in &handled {
            if other_place == place {
                continue;
            }
            if int(other, 4) == own {
                return false;
            }
            let both_named = (2..=4).contains(&record[0]) && (2..=4).contains(&other[0]);
            if both_named && int(other, 8) == session && other[16..49] == record[16..49] {
                return false;
            }
            if record[0] == 1 && other[0] == 1 && other[49..82] == record[49..82] {
                return false;
            }
            if record[0] == 5
                && other[0] == 5
                && record[2] == 0
                && other[2] == 0
                && int(other, 8) == session
                && int(other, 12) == parent
            {
                return false;
            }
            if record[0] == 4 && other[0] == 4 && parent != 0 && int(other, 12) == parent {
                let shared = of(3, parent).is_some_and(|policy| policy[3] == 1);
                if shared && record[49..66] != other[49..66] {
                    return false;
                }
            }
        }
        let fine = match record[0] {
            1 => {
                let keys: Vec<&Record> =
                    handled.iter().map(|entry| entry.1).filter(|other| other[0] == 4 && int(other, 8) == own).collect();
                !closed || !keys.is_empty() && keys.iter().all(|key| key[1] == 1) && record[82..114] == [0; 32]
            }
            2 => !closed || child_of_own(3),
            3 => {
                (parent == 0 || of(2, parent).is_some_and(|puk| int(puk, 8) == session)) && (!closed || child_of_own(4))
            }
            4 => {
                let its_policy = of(3, parent).filter(|policy| int(policy, 8) == session);
                let its_puk = its_policy.and_then(|policy| of(2, int(policy, 12)));
                (parent == 0 || its_policy.is_some())
                    && (record[49] != 0) == (parent != 0)
                    && record[2] <= its_policy.map_or(0, |policy| policy[2])
                    && (record[3] != 1 || record[49] != 0)
                    && (record[3] != 2 || its_puk.is_some())
            }
            _ => {
                let target = of(4, parent);
                let owner = target.and_then(|target| of(1, int(target, 8)));
                !closed
                    && (record[2] == 1) == (parent == 0)
                    && (record[2] == 1
                        || owner.is_some_and(|owner| owner[1] == 2 && owner[119] == 1)
                            && (record[1] == 50 || target.is_some_and(|target| int(target, 12) != 0)))
            }
        };
        if !fine {
            return false;
        }
    }
    true
}

/// Every byte that the table does not name is zero, strings are padded with zeros.
#[allow(clippy::single_range_in_vec_init)] // Lists of ranges are meant, also where there is one.
fn named_bytes_only(record: &Record) -> bool {
    let text = |place: usize| place..place + 1 + usize::from(record[place]).min(255 - place);
    let common = [0..16, text(16)];
    let named: Vec<std::ops::Range<usize>> = match record[0] {
        0 => vec![],
        1 => [&common[..], &[text(49), 82..128]].concat(),
        2 => [&common[..], &[text(49)]].concat(),
        3 => [&common[..], &[49..54]].concat(),
        4 => [&common[..], &[text(49), text(82), 211..214], if record[1] == 1 { &[179..211] } else { &[] }].concat(),
        5 => vec![0..3, 4..16],
        6 => vec![0..1, 4..8],
        _ => vec![0..256],
    };
    (0..256).all(|place| record[place] == 0 || named.iter().any(|range| range.contains(&place)))
}

fn ranges(record: &Record) -> bool {
    let id = |place: usize| {
        let length = usize::from(record[place]);
        (1..=32).contains(&length)
            && record[place + 1..place + 1 + length].iter().all(|byte| (0x21..0x7f).contains(byte))
    };
    let parentless = int(record, 12) == 0;
    match record[0] {
        0 => true,
        1 => {
            (1..=2).contains(&record[1])
                && (1..=1000).contains(&short(record, 2))
                && parentless
                && id(16)
                && id(49)
                && short(record, 114) <= short(record, 116)
                && short(record, 116) > 0
                && record[118] < 2
                && record[119] < 2
        }
        2 => record[1] < 4 && record[3] <= record[2] && parentless && id(16) && (1..=16).contains(&record[49]),
        3 => {
            let (min, max) = (record[52], record[53]);
            record[1] < 4
                && record[2] > 0
                && record[3] < 2
                && id(16)
                && record[49] < 2
                && record[50] < 2
                && record[51] < 8
                && (1..=max).contains(&min)
                && max < 17
        }
        4 => {
            record[1] < 2
                && record[3] < 4
                && id(16)
                && record[49] < 17
                && (1..=96).contains(&record[82])
                && record[211] < 2
                && record[212] < 4
        }
        5 => (record[1] == 50 || record[1] == 51) && record[2] < 2,
        6 => (1..=65_536).contains(&int(record, 4)),
        _ => false,
    }
}

#[test]
fn both_wordings_agree() {
    let mut random = Random::new(20);
    let (mut sound, mut unsound) = (0, 0);
    for round in 0..30_000 {
        let count = random.between(2, if round % 50 == 0 { 256 } else { 24 });
        let mut store = crafted::random_store(&mut random, count);
        assert!(second::sound(&store), "a crafted store is sound");
        assert!(by_the_letter(&store));
        crafted::spoil(&mut store, &mut random);
        let verdict = second::sound(&store);
        assert_eq!(verdict, by_the_letter(&store), "{}", trials::notation::store_text(&store));
        if verdict {
            sound += 1;
        } else {
            unsound += 1;
        }
    }
    println!("{sound} spoilt stores were still sound, {unsound} were not");
    assert!(sound > 2000 && unsound > 10_000);
}
