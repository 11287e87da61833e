//! What is measured: a store of 256 records, one of them free, and a call of each method on it.
//!
//! The store is made by calls alone. Beside the counter it has twenty closed sessions of ten records (a PUK, a shared
//! PIN policy with three keys, another with two, a key without PIN), six open ones under way (a PUK, a PIN policy, two
//! keys, two pendings), and one ready to close (a PUK, a PIN policy, three keys, three removals and three unlocks
//! pending).

use builder::{abort, user, Built, Close, CreateKey, CreatePinPolicy, CreatePuk, CreateSession, Issuer, Post, SetPath};
use sks::{Status, RECORD};

const PUK: &[u8] = b"84620375";
const PIN: &[u8] = b"258036";

/// A call and the status that answers it.
pub struct Case {
    pub name: &'static str,
    pub built: Built,
    pub status: Status,
}

/// The store, and the calls that are tried on it, each on the store as it is here.
pub fn cases() -> (Vec<u8>, Vec<Case>) {
    let mut store = vec![0; 256 * RECORD];
    assert!(sks::format(&mut store).is_done());
    let issued: Vec<Named> = (1..=20).map(|number| issue(&mut store, number)).collect();
    let under_way: Vec<UnderWay> = (21..=26).map(|number| work(&mut store, number, &issued[..2])).collect();
    let ready = prepare(&mut store, 27, &issued[2..8]);
    assert_eq!(store.chunks(RECORD).filter(|record| record[0] == 0).count(), 1);

    let UnderWay { tab, puk, policy, key } = &under_way[0];
    let target = issued[10].handle;
    let mut forged = tab.puk();
    *forged.call.last_mut().unwrap() ^= 1;
    let done = [
        ("2 create session", session(28).build()),
        ("3 close", ready.close()),
        ("5 abort", abort(tab.issuer.session)),
        ("8 PUK", tab.puk()),
        ("9 PIN policy", tab.policy(puk, 1)),
        ("10 key", tab.key(Some(policy), 2)),
        ("12 certificate path", tab.path(key)),
        ("50 postDeleteKey", tab.post(50, target)),
        ("51 postUnlockKey", tab.post(51, target)),
        ("80 delete", user(80, target, &[PUK])),
        ("82 unlock", user(82, target, &[PUK])),
        ("83 change", user(83, target, &[PIN, b"147025"])),
        ("100 use", user(100, target, &[PIN])),
    ];
    let refused = [
        ("5 abort, no such session", abort(99 << 16), Status::NO_SESSION),
        ("8 PUK, a MAC that differs", forged, Status::MAC),
    ];
    let done = done.into_iter().map(|(name, built)| Case { name, built, status: Status::DONE });
    let refused = refused.into_iter().map(|(name, built, status)| Case { name, built, status });
    (store, done.chain(refused).collect())
}

/// An object's handle and ID.
struct Named {
    handle: u32,
    id: Vec<u8>,
}

/// An issuer's open session.
struct Tab {
    issuer: Issuer,
    client_session_id: Vec<u8>,
}

/// A session under way: its PUK, its PIN policy, and its key that has no path yet.
struct UnderWay {
    tab: Tab,
    puk: Named,
    policy: Named,
    key: Named,
}

fn session(number: u32) -> CreateSession {
    CreateSession {
        server_session_id: format!("server-session-{number:017}").into_bytes(),
        client_session_id: format!("client-session-{number:017}").into_bytes(),
        issuer_uri: b"https://issuer.example.com/provisioning".to_vec(),
        ephemeral_key: vec![4; 91],
        key_management_key: vec![4; 91],
        limit: 1000,
        ..CreateSession::default()
    }
}

/// Makes a session and closes it; hands out a key under its shared policy.
fn issue(store: &mut [u8], number: u32) -> Named {
    let mut tab = Tab::open(store, number);
    let puk = tab.make(store, tab.puk(), 1);
    let shared = tab.make(store, tab.policy(&puk, 1), 1);
    let other = tab.make(store, tab.policy(&puk, 0), 1);
    let parents = [Some(&shared), Some(&shared), Some(&other), Some(&other), None, Some(&shared)];
    let keys = parents.map(|policy| tab.make_with_path(store, policy));
    tab.make(store, tab.close(), 2);
    let [.., last] = keys;
    last
}

/// Makes a session, which stays open, with two pendings.
fn work(store: &mut [u8], number: u32, targets: &[Named]) -> UnderWay {
    let mut tab = Tab::open(store, number);
    let puk = tab.make(store, tab.puk(), 1);
    let policy = tab.make(store, tab.policy(&puk, 0), 1);
    tab.make_with_path(store, Some(&policy));
    let key = tab.make(store, tab.key(Some(&policy), 2), 2);
    tab.make(store, tab.post(50, targets[0].handle), 1);
    tab.make(store, tab.post(51, targets[1].handle), 1);
    UnderWay { tab, puk, policy, key }
}

/// Makes a session that is fit to close, with a pending on each target.
fn prepare(store: &mut [u8], number: u32, targets: &[Named]) -> Tab {
    let mut tab = Tab::open(store, number);
    let puk = tab.make(store, tab.puk(), 1);
    let policy = tab.make(store, tab.policy(&puk, 0), 1);
    for _ in 0..3 {
        tab.make_with_path(store, Some(&policy));
    }
    for (target, method) in targets.iter().zip([50, 51].into_iter().cycle()) {
        tab.make(store, tab.post(method, target.handle), 1);
    }
    tab
}

/// Calls of a session as they would be next.
impl Tab {
    fn open(store: &mut [u8], number: u32) -> Tab {
        let new = session(number);
        let handle = ask(store, &new.build());
        let session_key = new.session_key.try_into().unwrap();
        let issuer = Issuer { session: handle, session_key, counter: 0 };
        Tab { issuer, client_session_id: new.client_session_id }
    }

    /// Sends a call that uses the MAC counter so many times; what it makes has the ID that was next.
    fn make(&mut self, store: &mut [u8], built: Built, uses: u16) -> Named {
        let named = Named { handle: ask(store, &built), id: self.id() };
        self.issuer.counter += uses;
        named
    }

    fn make_with_path(&mut self, store: &mut [u8], policy: Option<&Named>) -> Named {
        let key = self.make(store, self.key(policy, if policy.is_some() { 2 } else { 0 }), 2);
        self.make(store, self.path(&key), 1);
        key
    }

    fn id(&self) -> Vec<u8> {
        format!("issuer-object-{:04}", self.issuer.counter).into_bytes()
    }

    fn puk(&self) -> Built {
        CreatePuk { id: self.id(), value: PUK.to_vec(), ..CreatePuk::default() }.build(&self.issuer)
    }

    fn policy(&self, puk: &Named, grouping: u8) -> Built {
        let parent = CreatePinPolicy { puk: puk.handle, puk_id: puk.id.clone(), ..CreatePinPolicy::default() };
        CreatePinPolicy { id: self.id(), grouping, patterns: 7, ..parent }.build(&self.issuer)
    }

    fn key(&self, policy: Option<&Named>, delete_protection: u8) -> Built {
        let mut key = CreateKey { id: self.id(), delete_protection, server_seed: vec![5; 32], ..CreateKey::default() };
        if let Some(policy) = policy {
            (key.policy, key.policy_id, key.pin_value) = (policy.handle, policy.id.clone(), PIN.to_vec());
        }
        key.build(&self.issuer)
    }

    fn path(&self, key: &Named) -> Built {
        let public_key = CreateKey::default().public_key;
        let certificates = vec![vec![0x30; 700], vec![0x31; 900]];
        SetPath { key: key.handle, key_id: key.id.clone(), public_key, certificates, miscount: 0 }.build(&self.issuer)
    }

    fn post(&self, method: u8, key: u32) -> Built {
        Post { authorization: vec![0x30; 71], ..Post::new(method, key) }.build(&self.issuer)
    }

    fn close(&self) -> Built {
        Close { nonce: vec![6; 32], client_session_id: self.client_session_id.clone() }.build(&self.issuer)
    }
}

/// Sends a call that is done, and hands out the handle that answers it, if any.
fn ask(store: &mut [u8], built: &Built) -> u32 {
    let reply = sks::ask(store, &built.call, &built.chip);
    assert!(reply.status.is_done(), "{}", reply.status);
    reply.handle.map_or(0, |handle| handle.0)
}
