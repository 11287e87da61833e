//! The cases of "Both sides of each line" and the five slips, run as calls. (The cases about the text of PINs stand
//! beside the code that reads it.)

use builder::{Built, Close, CreateKey, CreatePinPolicy, CreatePuk, CreateSession, Issuer, Post, SetPath};
use second::records::{handle, records, Fields, Record};
use trials::crafted;

/// A store with a hand on it.
struct Token {
    store: Vec<u8>,
}

/// A reply, taken apart.
#[derive(Debug, PartialEq, Eq)]
struct Answer {
    status: u8,
    handle: u32,
    attestation: [u8; 32],
}

impl Token {
    fn new(count: usize) -> Token {
        let mut store = vec![0xaa; 256 * count];
        assert_eq!(second::format(&mut store), 0);
        Token { store }
    }

    fn call(&mut self, built: &Built) -> Answer {
        let mut reply = [0x55; 40];
        let status = second::call(&mut self.store, &built.call, &built.chip, &mut reply);
        assert_eq!(reply[0], status);
        assert_eq!(reply[37..], [0x55; 3], "bytes behind the reply stay");
        assert!(second::sound(&self.store));
        Answer {
            status,
            handle: u32::from_be_bytes(reply[1..5].try_into().unwrap()),
            attestation: reply[5..37].try_into().unwrap(),
        }
    }

    fn status(&mut self, built: &Built) -> u8 {
        self.call(built).status
    }

    fn records(&self) -> Vec<Record> {
        records(&self.store).unwrap().to_vec()
    }

    fn record(&self, handle: u32) -> Option<Record> {
        self.records().into_iter().find(|record| record.kind() != 0 && record.kind() != 6 && record.own() == handle)
    }

    fn session(&mut self, client: &str) -> Hand {
        let key: Vec<u8> = client.bytes().cycle().take(32).collect();
        let new =
            CreateSession { client_session_id: client.into(), session_key: key.clone(), ..CreateSession::default() };
        let answer = self.call(&new.build());
        assert_eq!(answer.status, 0);
        Hand {
            client: client.into(),
            issuer: Issuer { session: answer.handle, session_key: key.try_into().unwrap(), counter: 0 },
        }
    }
}

/// An issuer's side of a session; it counts its uses of the SessionKey itself.
struct Hand {
    client: Vec<u8>,
    issuer: Issuer,
}

impl Hand {
    fn puk(&mut self, token: &mut Token, new: CreatePuk) -> (u32, Vec<u8>) {
        let answer = token.call(&new.build(&self.issuer));
        assert_eq!((answer.status, answer.attestation), (0, [0; 32]));
        self.issuer.counter += 1;
        (answer.handle, new.id)
    }

    fn policy(&mut self, token: &mut Token, puk: &(u32, Vec<u8>), new: CreatePinPolicy) -> (u32, Vec<u8>) {
        let new = CreatePinPolicy { puk: puk.0, puk_id: puk.1.clone(), ..new };
        let answer = token.call(&new.build(&self.issuer));
        assert_eq!((answer.status, answer.attestation), (0, [0; 32]));
        self.issuer.counter += 1;
        (answer.handle, new.id)
    }

    /// A key with its path. The policy, if any, lets the user choose the PIN.
    fn key(
        &mut self,
        token: &mut Token,
        policy: Option<&(u32, Vec<u8>)>,
        id: &str,
        pin: &[u8],
        delete_protection: u8,
    ) -> u32 {
        let none = (0, b"#N/A".to_vec());
        let policy = policy.unwrap_or(&none);
        let new = CreateKey {
            id: id.into(),
            policy: policy.0,
            policy_id: policy.1.clone(),
            pin_value: pin.to_vec(),
            delete_protection,
            ..CreateKey::default()
        };
        let answer = token.call(&new.build(&self.issuer));
        assert_eq!(answer.status, 0);
        assert_eq!(answer.attestation, self.issuer.key_attestation(&new.id, &new.public_key));
        self.issuer.counter += 2;
        let path = SetPath {
            key: answer.handle,
            key_id: new.id,
            public_key: new.public_key,
            certificates: vec![b"certificate".to_vec(), b"of the issuer".to_vec()],
            miscount: 0,
        };
        assert_eq!(token.status(&path.build(&self.issuer)), 0);
        self.issuer.counter += 1;
        answer.handle
    }

    fn post(&mut self, token: &mut Token, method: u8, key: u32) -> u8 {
        let answer = token.call(&Post::new(method, key).build(&self.issuer));
        assert_eq!(answer.handle, 0);
        self.issuer.counter += 1;
        answer.status
    }

    fn close(&mut self, token: &mut Token) -> u8 {
        let close = Close { nonce: b"nonce".to_vec(), client_session_id: self.client.clone() };
        let answer = token.call(&close.build(&self.issuer));
        let attestation = if answer.status == 0 { self.issuer.close_attestation(&close.nonce) } else { [0; 32] };
        assert_eq!((answer.handle, answer.attestation), (0, attestation));
        answer.status
    }
}

fn none() -> (u32, Vec<u8>) {
    (0, b"#N/A".to_vec())
}

fn use_key(key: u32, pin: &[u8]) -> Built {
    builder::user(100, key, &[pin])
}

/// A closed session with a PUK over a PIN policy over one key, DeleteProtection 0, PIN 1234, PUK 987654.
fn token_with_key() -> (Token, u32) {
    let mut token = Token::new(16);
    let mut hand = token.session("first");
    let puk = hand.puk(&mut token, CreatePuk::default());
    let policy = hand.policy(&mut token, &puk, CreatePinPolicy::default());
    let key = hand.key(&mut token, Some(&policy), "Key", b"1234", 0);
    assert_eq!(hand.close(&mut token), 0);
    (token, key)
}

// ---- both sides of each line

#[test]
fn handles() {
    assert_eq!(handle(1, 0), 65_536);
    assert_eq!(handle(2, 3), 131_075);

    let mut token = Token::new(8);
    let first = token.session("first");
    assert_eq!(first.issuer.session, 65_536);
    let mut second = token.session("second");
    for (number, id) in ["a", "b", "c"].iter().enumerate() {
        let made = second.puk(&mut token, CreatePuk { id: id.as_bytes().to_vec(), ..CreatePuk::default() });
        assert_eq!(made.0, 131_072 + number as u32 + 1);
    }
    assert_eq!(token.record(131_075).unwrap().id(), b"c");
}

#[test]
fn three_tries() {
    let (mut token, key) = token_with_key();
    assert_eq!(token.status(&use_key(key, b"0000")), 1);
    assert_eq!(token.status(&use_key(key, b"0000")), 1);
    assert_eq!(token.status(&use_key(key, b"1234")), 0);
    for _ in 0..3 {
        assert_eq!(token.status(&use_key(key, b"0000")), 1);
    }
    assert_eq!(token.status(&use_key(key, b"1234")), 1);
}

#[test]
fn lengths_of_stores() {
    for length in [0, 1, 255, 256, 257, 511, 513, 767, 65_535, 65_537, 65_792] {
        let mut store = vec![0xaa; length];
        assert_eq!(second::format(&mut store), 19, "{length}");
        assert_eq!(store, vec![0xaa; length], "left alone");
    }
    for count in [2, 3, 255, 256] {
        let mut store = vec![0xaa; 256 * count];
        assert_eq!(second::format(&mut store), 0);
        let mut fresh = vec![crafted::counter(1)];
        fresh.resize(count, [0; 256]);
        assert_eq!(store, crafted::store(&fresh));
        assert!(second::sound(&store));
    }
}

#[test]
fn lengths_of_replies() {
    let mut store = vec![0; 512];
    second::format(&mut store);
    let before = store.clone();
    let built = CreateSession::default().build();
    for length in 0..37 {
        let mut reply = vec![0x55; length];
        assert_eq!(second::call(&mut store, &built.call, &built.chip, &mut reply), 21);
        assert_eq!((&reply, &store), (&vec![0x55; length], &before), "nothing written");
    }
    let mut reply = vec![0x55; 37];
    assert_eq!(second::call(&mut store, &built.call, &built.chip, &mut reply), 0);
    assert_eq!(reply[..5], [0, 0, 1, 0, 0]);
    assert_eq!(reply[5..], [0; 32]);
}

#[test]
fn numbers_run_out() {
    // Sessions: 65,535 is the last one.
    let mut token = Token { store: crafted::store(&[crafted::counter(65_535), [0; 256], [0; 256]]) };
    assert_eq!(token.session("last").issuer.session, 65_535 * 65_536);
    let new = CreateSession::default().build();
    assert_eq!(token.status(&new), 2);
    assert_eq!(token.records()[0].own(), 65_536);
    // Objects: 999 is the last one; the refusal costs the session.
    let session = crafted::Session { number: 3, next_object: 999, ..Default::default() };
    let mut token = Token { store: crafted::store(&[crafted::counter(4), session.record(), [0; 256], [0; 256]]) };
    let issuer = Issuer { session: session.handle(), session_key: session.session_key, counter: 0 };
    let mut hand = Hand { client: session.client_session_id.clone(), issuer };
    assert_eq!(hand.puk(&mut token, CreatePuk::default()).0, 3 * 65_536 + 999);
    let more = CreatePuk { id: b"more".to_vec(), ..CreatePuk::default() };
    assert_eq!(token.status(&more.build(&hand.issuer)), 2);
    assert_eq!(token.records(), [crafted::counter(4), [0; 256], [0; 256], [0; 256]]);
}

#[test]
fn uses_of_the_session_key_run_out() {
    // A key uses the counter twice: 98 of 100 has room, 99 has not.
    for (counter, status) in [(98, 0), (99, 17), (100, 17)] {
        let session = crafted::Session { number: 1, mac_counter: counter, ..Default::default() };
        let mut token = Token { store: crafted::store(&[crafted::counter(2), session.record(), [0; 256]]) };
        let issuer = Issuer { session: session.handle(), session_key: session.session_key, counter };
        assert_eq!(token.status(&CreateKey::default().build(&issuer)), status);
    }
    for (counter, status) in [(99, 0), (100, 17)] {
        let session = crafted::Session { number: 1, mac_counter: counter, ..Default::default() };
        let mut token = Token { store: crafted::store(&[crafted::counter(2), session.record(), [0; 256]]) };
        let issuer = Issuer { session: session.handle(), session_key: session.session_key, counter };
        assert_eq!(token.status(&CreatePuk::default().build(&issuer)), status);
    }
}

/// What a whole enrolment leaves, byte by byte.
#[test]
fn records_of_an_enrolment() {
    let (token, key) = token_with_key();
    let mut expected = vec![
        crafted::counter(2),
        crafted::Session {
            number: 1,
            closed: true,
            next_object: 4,
            client_session_id: b"first".to_vec(),
            mac_counter: 7,
            ..Default::default()
        }
        .record(),
        crafted::Puk {
            handle: 65_537,
            id: b"PUK".to_vec(),
            format: 0,
            retry_limit: 3,
            errors: 0,
            value: b"987654".to_vec(),
        }
        .record(),
        crafted::Policy {
            handle: 65_538,
            id: b"PIN".to_vec(),
            puk: 65_537,
            format: 0,
            retry_limit: 3,
            grouping: 0,
            user_defined: 1,
            user_modifiable: 1,
            patterns: 0,
            min: 4,
            max: 8,
        }
        .record(),
        crafted::Key {
            handle: 65_539,
            id: b"Key".to_vec(),
            policy: 65_538,
            pin: b"1234".to_vec(),
            errors: 0,
            delete_protection: 0,
            public_key: vec![4; 91],
            path: Some(second::sha256::sha256(b"certificate")),
            pin_caching: 0,
            export_protection: 0,
            app_usage: 0,
        }
        .record(),
    ];
    expected.resize(16, [0; 256]);
    assert_eq!(key, 65_539);
    assert_eq!(token.records(), expected);
}

// ---- slips

/// Adding the error count after comparing a locked PIN.
#[test]
fn a_locked_pin_is_not_counted_further() {
    let (mut token, key) = token_with_key();
    for _ in 0..3 {
        assert_eq!(token.status(&use_key(key, b"0000")), 1);
    }
    let locked = token.store.clone();
    for value in [&b"0000"[..], b"1234", b"", b"987654"] {
        assert_eq!(token.status(&use_key(key, value)), 1);
        assert_eq!(token.store, locked);
        assert_eq!(token.status(&builder::user(83, key, &[value, b"5555"])), 1);
        assert_eq!(token.store, locked);
    }
    // A locked PUK likewise.
    for _ in 0..3 {
        assert_eq!(token.status(&builder::user(82, key, &[b"0"])), 1);
    }
    let locked = token.store.clone();
    for value in [&b"0"[..], b"987654"] {
        assert_eq!(token.status(&builder::user(82, key, &[value])), 1);
        assert_eq!(token.store, locked);
    }
}

/// Comparing only the first MAC byte.
#[test]
fn every_bit_of_a_mac_counts() {
    let mut token = Token::new(8);
    let mut hand = token.session("first");
    let policy = hand.policy(&mut token, &none(), CreatePinPolicy::default());
    hand.key(&mut token, Some(&policy), "Key", b"1234", 1);
    let start = token.store.clone();
    let close = Close { nonce: b"nonce".to_vec(), client_session_id: b"first".to_vec() };
    let calls = [
        close.build(&hand.issuer),
        CreatePuk::default().build(&hand.issuer),
        CreatePinPolicy { id: b"other".to_vec(), ..Default::default() }.build(&hand.issuer),
        CreateKey { id: b"other".to_vec(), ..Default::default() }.build(&hand.issuer),
    ];
    for built in calls {
        for bit in 0..256 {
            let mut wrong = built.clone();
            let place = wrong.call.len() - 32 + bit / 8;
            wrong.call[place] ^= 1 << (bit % 8);
            token.store.clone_from(&start);
            assert_eq!(token.status(&wrong), 3);
        }
        token.store.clone_from(&start);
        assert_eq!(token.status(&built), 0);
    }
}

/// Rolling back another issuer's records.
#[test]
fn a_refusal_removes_its_own_session_alone() {
    let (mut token, key) = token_with_key();
    let mut one = token.session("one");
    let mut other = token.session("other");
    one.puk(&mut token, CreatePuk::default());
    let puk = other.puk(&mut token, CreatePuk::default());
    other.policy(&mut token, &puk, CreatePinPolicy::default());
    assert_eq!(one.post(&mut token, 50, key), 0);
    assert_eq!(other.post(&mut token, 51, key), 0);
    let before = token.records();
    let mut wrong = CreatePuk { id: b"x".to_vec(), ..Default::default() }.build(&one.issuer);
    *wrong.call.last_mut().unwrap() ^= 1;
    assert_eq!(token.status(&wrong), 3);
    for (was, is) in before.iter().zip(token.records()) {
        let own = was.session() == one.issuer.session;
        assert_eq!(is, if own { [0; 256] } else { *was });
    }
    assert_eq!(token.status(&wrong), 5);
}

/// Clearing the stale mark when the target is posted anew.
#[test]
fn stale_stays_stale() {
    let (mut token, key) = token_with_key();
    let mut hand = token.session("second");
    assert_eq!(hand.post(&mut token, 51, key), 0);
    let pending = hand.issuer.session + 1;
    assert_eq!(
        token.record(pending).unwrap(),
        crafted::Pending { handle: pending, operation: 51, target: key }.record()
    );
    assert_eq!(token.status(&builder::user(83, key, &[b"1234", b"5555"])), 0);
    let stale = crafted::Pending { handle: pending, operation: 51, target: 0 }.record();
    assert_eq!(token.record(pending).unwrap(), stale);
    // Posting anew is allowed, twice is not, and the mark stays through it all.
    assert_eq!(hand.post(&mut token, 51, key), 0);
    assert_eq!(token.record(pending).unwrap(), stale);
    assert_eq!(hand.close(&mut token), 6);
    assert_eq!(token.record(hand.issuer.session), None);
    assert_eq!(token.record(pending), None);
    assert!(token.record(key).is_some());
}

#[test]
fn who_comes_second_cannot_close() {
    let (mut token, key) = token_with_key();
    let mut first = token.session("one");
    let mut second = token.session("other");
    assert_eq!(first.post(&mut token, 51, key), 0);
    assert_eq!(second.post(&mut token, 50, key), 0);
    assert_eq!(second.post(&mut token, 51, key), 17, "already pending, and its session is gone");
    let mut second = token.session("other");
    assert_eq!(second.post(&mut token, 50, key), 0);
    assert_eq!(second.close(&mut token), 0);
    assert_eq!(token.record(key), None);
    assert_eq!(first.close(&mut token), 6);
    assert_eq!(token.records()[1..], [[0; 256]; 15], "nothing is left of anyone");
}

/// Freeing a PUK that another PIN policy uses.
#[test]
fn a_puk_in_use_stays() {
    let mut token = Token::new(16);
    let mut hand = token.session("first");
    let puk = hand.puk(&mut token, CreatePuk::default());
    let one = hand.policy(&mut token, &puk, CreatePinPolicy { id: b"one".to_vec(), ..Default::default() });
    let other = hand.policy(&mut token, &puk, CreatePinPolicy { id: b"other".to_vec(), ..Default::default() });
    let key = hand.key(&mut token, Some(&one), "K1", b"1234", 2);
    let last = hand.key(&mut token, Some(&other), "K2", b"1234", 2);
    assert_eq!(hand.close(&mut token), 0);

    assert_eq!(token.status(&builder::user(80, last, &[b"wrong"])), 1);
    assert_eq!(token.record(puk.0).unwrap()[3], 1);
    assert_eq!(token.status(&builder::user(80, key, &[b"987654"])), 0);
    assert_eq!((token.record(key), token.record(one.0)), (None, None));
    assert!(token.record(other.0).is_some() && token.record(last).is_some());
    assert_eq!(token.record(puk.0).unwrap()[3], 0, "the right PUK set the count to 0");
    assert_eq!(token.status(&builder::user(80, last, &[b"987654"])), 0);
    assert_eq!(token.records()[1..], [[0; 256]; 15]);
}

// ---- a few more that are easy to miss

#[test]
fn grouping_shares_the_pin_and_not_the_count() {
    let mut token = Token::new(16);
    let mut hand = token.session("first");
    let policy = hand.policy(&mut token, &none(), CreatePinPolicy { grouping: 1, ..Default::default() });
    let one = hand.key(&mut token, Some(&policy), "K1", b"1234", 0);
    let other = hand.key(&mut token, Some(&policy), "K2", b"1234", 0);
    assert_eq!(hand.close(&mut token), 0);
    let mut watcher = token.session("watcher");
    assert_eq!(watcher.post(&mut token, 51, other), 0);
    assert_eq!(token.status(&use_key(other, b"0000")), 1);
    assert_eq!(token.status(&use_key(one, b"0000")), 1);
    assert_eq!((token.record(one).unwrap()[2], token.record(other).unwrap()[2]), (1, 1));
    assert_eq!(token.status(&builder::user(83, one, &[b"1234", b"5678"])), 0);
    assert_eq!((token.record(one).unwrap()[2], token.record(other).unwrap()[2]), (0, 1));
    assert_eq!(token.status(&use_key(other, b"5678")), 0);
    assert_eq!(watcher.close(&mut token), 6, "the sibling was given a PIN too");
}

#[test]
fn an_unlock_clears_both_counts() {
    let (mut token, key) = token_with_key();
    let puk = 65_537;
    let spend = |token: &mut Token| {
        for _ in 0..3 {
            assert_eq!(token.status(&use_key(key, b"0000")), 1);
        }
        for _ in 0..2 {
            assert_eq!(token.status(&builder::user(82, key, &[b"0"])), 1);
        }
        assert_eq!((token.record(key).unwrap()[2], token.record(puk).unwrap()[3]), (3, 2));
    };
    // By the user.
    spend(&mut token);
    let mut watcher = token.session("watcher");
    assert_eq!(watcher.post(&mut token, 50, key), 0);
    assert_eq!(token.status(&builder::user(82, key, &[b"987654"])), 0);
    assert_eq!((token.record(key).unwrap()[2], token.record(puk).unwrap()[3]), (0, 0));
    assert_eq!(watcher.close(&mut token), 6);
    // By an issuer, at the close and not before.
    spend(&mut token);
    let mut watcher = token.session("watcher");
    assert_eq!(watcher.post(&mut token, 50, key), 0);
    let mut issuer = token.session("issuer");
    assert_eq!(issuer.post(&mut token, 51, key), 0);
    assert_eq!((token.record(key).unwrap()[2], token.record(puk).unwrap()[3]), (3, 2));
    assert_eq!(issuer.close(&mut token), 0);
    assert_eq!((token.record(key).unwrap()[2], token.record(puk).unwrap()[3]), (0, 0));
    assert_eq!(watcher.close(&mut token), 6);
    assert_eq!(token.status(&use_key(key, b"1234")), 0);
}

/// A use that is right clears the count and leaves pendings alone.
#[test]
fn a_use_makes_nothing_stale() {
    let (mut token, key) = token_with_key();
    let mut hand = token.session("second");
    assert_eq!(hand.post(&mut token, 50, key), 0);
    assert_eq!(token.status(&use_key(key, b"0000")), 1);
    assert_eq!(token.status(&use_key(key, b"1234")), 0);
    assert_eq!(token.record(key).unwrap()[2], 0);
    assert_eq!(hand.close(&mut token), 0);
    assert_eq!(token.record(key), None);
}

/// Where the PIN of a new key comes from, and what is refused.
#[test]
fn the_pin_of_a_new_key() {
    let mut token = Token::new(8);
    let mut hand = token.session("first");
    let user = hand.policy(&mut token, &none(), CreatePinPolicy { id: b"user".to_vec(), ..Default::default() });
    let rules = CreatePinPolicy { id: b"issuer".to_vec(), user_defined: 0, ..Default::default() };
    let issuer = hand.policy(&mut token, &none(), rules);
    let start = token.store.clone();
    // Policy, PINValue in the call, PINValue in the MAC, PIN opened by the chip; status and PIN of the record.
    let (na, enc) = (None, Some(&b"encrypted"[..]));
    type Case<'a> = (&'a (u32, Vec<u8>), &'a [u8], Option<&'a [u8]>, &'a [u8], u8, &'a [u8]);
    let cases: [Case; 14] = [
        (&user, b"1234", na, b"", 0, b"1234"),
        (&user, b"1234", na, b"1234", 17, b""),
        (&user, b"", na, b"", 17, b""),
        (&user, b"123", na, b"", 17, b""),
        (&user, b"123456789", na, b"", 17, b""),
        (&user, b"12345678901234567", na, b"", 17, b""),
        (&user, b"1234", Some(b"1234"), b"", 3, b""),
        (&issuer, b"encrypted", enc, b"1234", 0, b"1234"),
        (&issuer, b"", Some(b""), b"1234", 17, b""),
        (&issuer, b"encrypted", enc, b"", 17, b""),
        (&issuer, b"encrypted", enc, b"12a4", 17, b""),
        (&issuer, b"encrypted", na, b"1234", 3, b""),
        (&none(), b"1234", na, b"", 17, b""),
        (&none(), b"", na, b"1234", 17, b""),
    ];
    for (policy, pin_value, pin_in_data, opened_pin, status, pin) in cases {
        token.store.clone_from(&start);
        let new = CreateKey {
            policy: policy.0,
            policy_id: policy.1.clone(),
            pin_value: pin_value.to_vec(),
            pin_in_data: pin_in_data.map(|text| text.to_vec()),
            opened_pin: opened_pin.to_vec(),
            ..CreateKey::default()
        };
        let answer = token.call(&new.build(&hand.issuer));
        assert_eq!(answer.status, status, "{new:?}");
        let record = token.record(answer.handle);
        assert_eq!(record.map_or(vec![], |record| record.text(49, 16).to_vec()), pin);
    }
}

#[test]
fn a_malformed_abort_still_ends_its_session() {
    let mut token = Token::new(4);
    let hand = token.session("first");
    let mut built = builder::abort(hand.issuer.session);
    built.call.push(0);
    assert_eq!(token.status(&built), 16);
    assert_eq!(token.record(hand.issuer.session), None);
}

#[test]
fn what_a_user_types_is_not_judged() {
    let (mut token, key) = token_with_key();
    // Empty is a wrong value where there is a PIN, and counts.
    assert_eq!(token.status(&use_key(key, b"")), 1);
    assert_eq!(token.record(key).unwrap()[2], 1);
    // DeleteProtection 0 asks for nothing: even the right PIN is one value too many, and is not counted.
    assert_eq!(token.status(&builder::user(80, key, &[b"1234"])), 1);
    assert_eq!(token.record(key).unwrap()[2], 1);
    // An unfit new PIN costs no try.
    assert_eq!(token.status(&builder::user(83, key, &[b"0000", b"12"])), 17);
    assert_eq!(token.record(key).unwrap()[2], 1);
    // 17 bytes do not have the form.
    assert_eq!(token.status(&use_key(key, &[b'1'; 17])), 16);
    assert_eq!(token.record(key).unwrap()[2], 1);
    assert_eq!(token.status(&builder::user(80, key, &[b""])), 0);
}
