//! The lines of document 01 that are run, over the proved library.

use builder::{user, Close, CreateKey, CreatePinPolicy, CreateSession, Issuer, SetPath};
use sks::{ask, Handle, Status};

/// A store with one key, its PIN 2580 and its limit 3; handed out with the key's handle.
fn store_with_key() -> (Vec<u8>, u32) {
    let mut store = vec![0xaa; 8 * sks::RECORD];
    assert_eq!(sks::format(&mut store), Status::DONE);
    let new = CreateSession::default();
    let built = new.build();
    assert_eq!(ask(&mut store, &built.call, &built.chip).handle, Some(Handle(65_536)));
    let mut issuer = Issuer { session: 65_536, session_key: [7; 32], counter: 0 };
    let policy = CreatePinPolicy { retry_limit: 3, ..CreatePinPolicy::default() };
    let built = policy.build(&issuer);
    assert_eq!(ask(&mut store, &built.call, &built.chip).handle, Some(Handle(65_537)));
    issuer.counter = 1;
    let key = CreateKey { policy: 65_537, policy_id: policy.id, pin_value: b"2580".to_vec(), ..CreateKey::default() };
    let built = key.build(&issuer);
    let reply = ask(&mut store, &built.call, &built.chip);
    assert_eq!(reply.handle, Some(Handle(65_538)));
    assert_eq!(reply.attestation, issuer.key_attestation(&key.id, &key.public_key));
    issuer.counter = 3;
    let path = SetPath {
        key: 65_538,
        key_id: key.id,
        public_key: key.public_key,
        certificates: vec![vec![0x30; 3]],
        miscount: 0,
    };
    let built = path.build(&issuer);
    assert!(ask(&mut store, &built.call, &built.chip).status.is_done());
    issuer.counter = 4;
    let close = Close { nonce: b"nonce".to_vec(), client_session_id: new.client_session_id };
    let built = close.build(&issuer);
    let reply = ask(&mut store, &built.call, &built.chip);
    assert!(reply.status.is_done());
    assert_eq!(reply.attestation, issuer.close_attestation(b"nonce"));
    (store, 65_538)
}

fn statuses(tries: &[&[u8]]) -> Vec<Status> {
    let (mut store, key) = store_with_key();
    tries.iter().map(|pin| ask(&mut store, &user(100, key, &[pin]).call, &[]).status).collect()
}

#[test]
fn two_wrong_then_right() {
    let [wrong, right]: [&[u8]; 2] = [b"0000", b"2580"];
    assert_eq!(statuses(&[wrong, wrong, right]), [Status::AUTHORIZATION, Status::AUTHORIZATION, Status::DONE]);
}

#[test]
fn three_wrong_then_right() {
    let [wrong, right]: [&[u8]; 2] = [b"0000", b"2580"];
    assert_eq!(statuses(&[wrong, wrong, wrong, right]), [Status::AUTHORIZATION; 4]);
}

#[test]
fn lengths_of_a_store() {
    for (length, expected) in [
        (0, Status::UNSOUND),
        (256, Status::UNSOUND),
        (511, Status::UNSOUND),
        (512, Status::DONE),
        (513, Status::UNSOUND),
        (65_536, Status::DONE),
        (65_792, Status::UNSOUND),
    ] {
        assert_eq!(sks::format(&mut vec![1; length]), expected, "{length} bytes");
    }
}
