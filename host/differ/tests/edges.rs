//! Orders at both sides of every line of their ranges, through `differ::hold`: each is tried in buffers that are long enough,
//! exact, a byte short, and empty. What the types of `issuer` have no word for is tried in host/python.

use builder::{Close, CreateKey, CreatePinPolicy, CreatePuk, Issuer, Post, SetPath};
use differ::{hold, session};
use trials::ordered::Ordered;

fn at(counter: u16) -> Issuer {
    Issuer { session: 65_536, session_key: [7; 32], counter }
}

fn try_at(issuer: &Issuer, ordered: impl Into<Ordered>, in_range: bool) {
    assert_eq!(hold(issuer, &ordered.into(), in_range), Ok(true));
}

fn try_it(ordered: impl Into<Ordered>, in_range: bool) {
    try_at(&at(5), ordered, in_range);
}

fn close() -> Close {
    Close { nonce: b"nonce".to_vec(), client_session_id: b"client".to_vec() }
}

/// A policy under a PUK.
fn policy() -> CreatePinPolicy {
    CreatePinPolicy { puk: 65_537, puk_id: b"PUK".to_vec(), ..CreatePinPolicy::default() }
}

/// A key under a policy, its PIN set by the user, or by the issuer.
fn key(set_by_issuer: bool) -> CreateKey {
    let pin_value = b"sealed".to_vec();
    let pin_in_data = set_by_issuer.then(|| pin_value.clone());
    CreateKey { policy: 65_538, policy_id: b"PIN".to_vec(), pin_value, pin_in_data, ..CreateKey::default() }
}

fn path(certificates: Vec<Vec<u8>>) -> SetPath {
    SetPath { key: 65_539, key_id: b"Key".to_vec(), public_key: vec![4; 91], certificates, miscount: 0 }
}

/// One order of each sort, with its uses of the counter.
fn samples() -> Vec<(Ordered, u16)> {
    vec![
        (close().into(), 2),
        (CreatePuk::default().into(), 1),
        (CreatePinPolicy::default().into(), 1),
        (policy().into(), 1),
        (CreateKey::default().into(), 2),
        (key(false).into(), 2),
        (key(true).into(), 2),
        (path(vec![vec![0x30; 700], vec![0x31; 900]]).into(), 1),
        (Post::new(50, 65_540).into(), 1),
        (Post::new(51, 65_540).into(), 1),
    ]
}

/// Texts at both sides of both ends of a range of lengths, and one whose length is in range in its two low bytes alone.
fn lengths(low: usize, high: usize) -> impl Iterator<Item = (Vec<u8>, bool)> {
    let tried = [low.wrapping_sub(1), low, low + 1, high - 1, high, high + 1, 65_536 + high];
    tried
        .into_iter()
        .filter(|&length| length < 1 << 20)
        .map(move |length| (vec![b'x'; length], (low..=high).contains(&length)))
}

/// IDs, and what is none.
fn ids() -> impl Iterator<Item = (Vec<u8>, bool)> {
    let bytes = [0, 0x20, 0x21, 0x23, 0x7e, 0x7f, 0x80, 0xff];
    let spelt = bytes.into_iter().flat_map(|byte| {
        let is_printable = (0x21..=0x7e).contains(&byte);
        [vec![byte], vec![byte, b'b', b'c'], vec![b'a', byte, b'c'], vec![b'a', b'b', byte]]
            .map(|id| (id, is_printable))
    });
    lengths(1, 32).chain(spelt)
}

#[test]
fn counters_have_room_for_the_uses() {
    for (ordered, uses) in samples() {
        for counter in [0, 1, 255, 256, 65_532, 65_533, 65_534, 65_535] {
            try_at(&at(counter), ordered.clone(), u32::from(counter) + u32::from(uses) <= 65_535);
        }
    }
}

#[test]
fn any_handle_is_written() {
    for handle in [0, 1, 65_536, 0x0102_0304, u32::MAX] {
        for (ordered, _) in samples() {
            try_at(&Issuer { session: handle, ..at(5) }, ordered, true);
        }
        try_it(SetPath { key: handle, ..path(vec![vec![1]]) }, true);
        try_it(Post::new(50, handle), true);
        if handle != 0 {
            try_it(CreatePinPolicy { puk: handle, ..policy() }, true);
            try_it(CreateKey { policy: handle, ..key(true) }, true);
        }
    }
}

#[test]
fn ids_are_printable_and_have_1_to_32_bytes() {
    for (id, fits) in ids() {
        try_it(Close { client_session_id: id.clone(), ..close() }, fits);
        try_it(CreatePuk { id: id.clone(), ..CreatePuk::default() }, fits);
        try_it(CreatePinPolicy { id: id.clone(), ..CreatePinPolicy::default() }, fits);
        try_it(CreatePinPolicy { puk_id: id.clone(), ..policy() }, fits);
        try_it(CreateKey { id: id.clone(), ..CreateKey::default() }, fits);
        try_it(CreateKey { policy_id: id.clone(), ..key(false) }, fits);
        try_it(CreateKey { policy_id: id.clone(), ..key(true) }, fits);
        try_it(SetPath { key_id: id, ..path(vec![vec![1]]) }, fits);
    }
}

#[test]
fn strings_have_their_lengths() {
    for (nonce, fits) in lengths(1, 64) {
        try_it(Close { nonce, ..close() }, fits);
    }
    for (encrypted_value, fits) in lengths(1, 64) {
        try_it(CreatePuk { encrypted_value, ..CreatePuk::default() }, fits);
    }
    for (server_seed, fits) in lengths(0, 64) {
        try_it(CreateKey { server_seed, ..CreateKey::default() }, fits);
    }
    for (pin_value, fits) in lengths(0, 64) {
        try_it(CreateKey { pin_value: pin_value.clone(), ..CreateKey::default() }, fits);
        try_it(CreateKey { pin_value: pin_value.clone(), ..key(false) }, fits);
        try_it(CreateKey { pin_in_data: Some(pin_value.clone()), pin_value, ..key(true) }, fits);
    }
    for (friendly_name, fits) in lengths(0, 100) {
        try_it(CreateKey { friendly_name, ..CreateKey::default() }, fits);
    }
    for (key_parameters, fits) in lengths(0, 8) {
        try_it(CreateKey { key_parameters, ..CreateKey::default() }, fits);
    }
    for (public_key, fits) in lengths(1, 96) {
        try_it(SetPath { public_key, ..path(vec![vec![1]]) }, fits);
    }
    for (authorization, fits) in lengths(1, 512) {
        try_it(Post { authorization: authorization.clone(), ..Post::new(50, 7) }, fits);
        try_it(Post { authorization, ..Post::new(51, 7) }, fits);
    }
}

#[test]
fn bytes_that_the_store_judges_are_written_as_ordered() {
    for byte in [0, 1, 2, 3, 4, 16, 17, 127, 128, 255] {
        try_it(CreatePuk { format: byte, retry_limit: !byte, ..CreatePuk::default() }, true);
        let rules = CreatePinPolicy { format: byte, retry_limit: !byte, grouping: byte, patterns: !byte, ..policy() };
        try_it(CreatePinPolicy { min: byte, max: !byte, input_method: byte, ..rules }, true);
        let protected = CreateKey { biometric_protection: byte, export_protection: !byte, ..CreateKey::default() };
        let endorsed_algorithms = u16::from_be_bytes([byte, !byte]);
        try_it(CreateKey { delete_protection: byte, app_usage: !byte, endorsed_algorithms, ..protected }, true);
    }
    for flags in [(0, 0), (0, 1), (1, 0), (1, 1)] {
        try_it(CreatePinPolicy { user_defined: flags.0, user_modifiable: flags.1, ..policy() }, true);
        try_it(CreateKey { pin_caching: flags.0, ..key(flags.1 == 1) }, true);
    }
}

#[test]
fn certificates_are_1_to_255_and_none_is_empty() {
    for count in [0, 1, 2, 254, 255, 256, 257, 512] {
        try_it(path(vec![b"c".to_vec(); count]), (1..=255).contains(&count));
    }
    for place in 0..3 {
        let mut certificates = vec![b"certificate".to_vec(); 3];
        certificates[place].clear();
        try_it(path(certificates), false);
    }
}

#[test]
fn a_call_has_at_most_16384_bytes() {
    let mut tried: Vec<Ordered> = vec![];
    // By its certificates: one, two, and as many as there can be.
    for length in [16_339, 16_340, 16_341, 65_535] {
        tried.push(path(vec![vec![0x30; length]]).into());
    }
    for length in [16_336, 16_337, 16_338, 16_339] {
        tried.push(path(vec![vec![1], vec![0x30; length]]).into());
        tried.push(path(vec![vec![0x30; length], vec![1]]).into());
    }
    for last in [83, 84, 85] {
        let mut certificates = vec![vec![0x30; 62]; 255];
        certificates[254] = vec![0x31; last];
        tried.push(path(certificates).into());
    }
    // By the texts of its algorithms: either, and both.
    let rest = CreateKey { algorithm: vec![], key_algorithm: vec![], ..key(true) }.build(&at(5)).call.len();
    for length in [16_383, 16_384, 16_385] {
        let text = vec![b'a'; length - rest];
        let (one, other) = text.split_at(8_000);
        tried.push(CreateKey { algorithm: text.clone(), key_algorithm: vec![], ..key(true) }.into());
        tried.push(CreateKey { algorithm: vec![], key_algorithm: text.clone(), ..key(true) }.into());
        tried.push(CreateKey { algorithm: one.to_vec(), key_algorithm: other.to_vec(), ..key(true) }.into());
    }
    for length in [16_384, 16_385, 65_535, 65_536, 65_546, 1 << 20] {
        tried.push(CreateKey { algorithm: vec![b'a'; length], ..key(true) }.into());
        tried.push(CreateKey { key_algorithm: vec![b'a'; length], ..key(true) }.into());
        tried.push(CreateKey { algorithm: vec![b'a'; length], key_algorithm: vec![b'b'; length], ..key(true) }.into());
    }
    let lengths: Vec<usize> = tried.iter().map(|ordered| ordered.build(&at(5)).call.len()).collect();
    for (length, times) in [(16_383, 7), (16_384, 7), (16_385, 7)] {
        assert_eq!(lengths.iter().filter(|&&other| other == length).count(), times);
    }
    for (ordered, length) in tried.into_iter().zip(lengths) {
        try_it(ordered, length <= 16_384);
    }
    // A certificate whose length does not go into two bytes.
    try_it(path(vec![vec![0x30; 65_536 + 100]]), false);
}

#[test]
fn attestations_are_those_of_the_call() {
    let (id, public_key, nonce) = (b"Key", [4; 91], b"nonce");
    for counter in [0, 1, 254, 255, 256, 65_533, 65_534] {
        let [issuer, next] = [at(counter), at(counter + 1)].map(|issuer| session(&issuer));
        let of_key = at(counter).key_attestation(id, &public_key);
        assert!(issuer.check_key(id, &public_key, &of_key));
        assert!(!issuer.check_key(b"key", &public_key, &of_key));
        assert!(!issuer.check_key(id, &public_key[1..], &of_key));
        assert!(!next.check_key(id, &public_key, &of_key));
        let of_close = at(counter).close_attestation(nonce);
        assert!(issuer.check_close(nonce, &of_close));
        assert!(!issuer.check_close(b"Nonce", &of_close));
        assert!(!next.check_close(nonce, &of_close));
        for bit in 0..256 {
            let spoil = |mut code: [u8; 32]| {
                code[bit / 8] ^= 1 << (bit % 8);
                code
            };
            assert!(!issuer.check_key(id, &public_key, &spoil(of_key)));
            assert!(!issuer.check_close(nonce, &spoil(of_close)));
        }
        for other in [&[][..], &of_key[..31], &[&of_key[..], &[0]].concat()] {
            assert!(!issuer.check_key(id, &public_key, other));
        }
        for other in [&[][..], &of_close[..31], &[&of_close[..], &[0]].concat()] {
            assert!(!issuer.check_close(nonce, other));
        }
    }
    // There is no counter behind the last one, not even 0.
    let last = session(&at(65_535));
    assert!(!last.check_key(id, &public_key, &at(65_535).key_attestation(id, &public_key)));
    assert!(!last.check_close(nonce, &at(65_535).close_attestation(nonce)));
}
