//! Two browser tabs and one token: the help desk unlocks a key that the badge office wants removed.
//!
//! Nobody waits, nothing counts until a session closes, and the first close stands.

use builder::{user, Built, Close, CreateKey, CreatePinPolicy, CreateSession, Issuer, Post, SetPath};
use sks::{Reply, Status};

struct Token {
    store: Vec<u8>,
}

impl Token {
    fn ask(&mut self, what: &str, built: Built, expected: Status) -> Reply {
        let reply = sks::ask(&mut self.store, &built.call, &built.chip);
        println!("{what:<40} {} {}", reply.status.0, reply.status.name());
        assert_eq!(reply.status, expected);
        reply
    }

    /// Opens a session for an issuer. The chip makes the SessionKey.
    fn open(&mut self, issuer: &str) -> Issuer {
        let session_key = [issuer.len() as u8; 32];
        let new = CreateSession {
            client_session_id: issuer.replace(' ', "-").into(),
            session_key: session_key.to_vec(),
            ..CreateSession::default()
        };
        let reply = self.ask(&format!("{issuer} opens a session"), new.build(), Status::DONE);
        Issuer { session: reply.handle.unwrap().0, session_key, counter: 0 }
    }

    fn close(&mut self, issuer: &str, session: &Issuer, expected: Status) {
        let close = Close { nonce: b"nonce".into(), client_session_id: issuer.replace(' ', "-").into() };
        let reply = self.ask(&format!("{issuer} closes"), close.build(session), expected);
        if reply.status.is_done() {
            assert_eq!(reply.attestation, session.close_attestation(b"nonce"));
        }
    }

    /// A key with PIN 2580, which three wrong tries lock.
    fn enrol(&mut self) -> u32 {
        let mut issuer = self.open("enrolment");
        let policy = CreatePinPolicy::default();
        let reply = self.ask("enrolment makes a PIN policy", policy.build(&issuer), Status::DONE);
        issuer.counter += 1;
        let key = CreateKey {
            policy: reply.handle.unwrap().0,
            policy_id: policy.id,
            pin_value: b"2580".into(),
            ..CreateKey::default()
        };
        let reply = self.ask("enrolment makes a key", key.build(&issuer), Status::DONE);
        assert_eq!(reply.attestation, issuer.key_attestation(&key.id, &key.public_key));
        issuer.counter += 2;
        let handle = reply.handle.unwrap().0;
        let path = SetPath {
            key: handle,
            key_id: key.id,
            public_key: key.public_key,
            certificates: vec![b"certificate".into()],
            miscount: 0,
        };
        self.ask("enrolment sets its certificate path", path.build(&issuer), Status::DONE);
        issuer.counter += 1;
        self.close("enrolment", &issuer, Status::DONE);
        handle
    }
}

fn main() {
    let mut token = Token { store: vec![0; 16 * sks::RECORD] };
    assert_eq!(sks::format(&mut token.store), Status::DONE);
    let key = token.enrol();
    for _ in 0..3 {
        token.ask("the user types a wrong PIN", user(100, key, &[b"0852"]), Status::AUTHORIZATION);
    }
    token.ask("the user types the right PIN: locked", user(100, key, &[b"2580"]), Status::AUTHORIZATION);

    // Each in its own tab; neither locks the token for the other.
    let mut badge_office = token.open("badge office");
    let mut help_desk = token.open("help desk");
    token.ask("badge office posts the key's removal", Post::new(50, key).build(&badge_office), Status::DONE);
    badge_office.counter += 1;
    token.ask("help desk posts its unlocking", Post::new(51, key).build(&help_desk), Status::DONE);
    help_desk.counter += 1;
    token.ask("nothing counts yet: still locked", user(100, key, &[b"2580"]), Status::AUTHORIZATION);

    token.close("help desk", &help_desk, Status::DONE);
    token.close("badge office", &badge_office, Status::NOT_FIT);
    token.ask("the key is there, and unlocked", user(100, key, &[b"2580"]), Status::DONE);
}
