//! The author of a history writes its calls.
//!
//! It reads the store, so it knows every SessionKey, PIN and PUK, and can write calls that are right, or wrong in one
//! chosen place. What it means a call to be is kept with the call: a fault bounds how late in the order of refusals the
//! answer may come.

use crate::crafted::{random_id, random_pin, random_text};
use crate::mutation::{mutate, Mutation, MUTATIONS};
use crate::ordered::{write, Ordered, Written};
use crate::random::Random;
use crate::table::Column::{self, FirstForm, SecondForm, Status};
use builder::{Built, CreateKey, CreatePinPolicy, CreatePuk, CreateSession, Issuer, Post, SetPath};
use second::pin;
use second::records::{key, pending, policy, puk, session, Fields, Record};

/// A call as its author means it.
#[derive(Clone, Debug)]
pub struct Order {
    pub intent: &'static str,
    pub built: Built,
    /// What an issuer ordered, whatever was done to the call's bytes afterwards.
    pub ordered: Option<(Issuer, Ordered)>,
    /// The refusal that the fault in it calls for; an earlier one of the order may come before it.
    pub fault: Option<Column>,
}

/// Writes calls for a store.
pub struct Author {
    pub random: Random,
}

/// The issuer of an open session.
pub fn issuer_of(session: &Record) -> Issuer {
    Issuer {
        session: session.own(),
        session_key: session[session::SESSION_KEY..session::MAC_COUNTER].try_into().unwrap(),
        counter: session.short(session::MAC_COUNTER),
    }
}

fn of_kind(records: &[Record], kind: u8) -> Vec<Record> {
    records.iter().filter(|record| record.kind() == kind).copied().collect()
}

fn objects(records: &[Record], session: &Record, kind: u8) -> Vec<Record> {
    records.iter().filter(|record| record.kind() == kind && record.session() == session.own()).copied().collect()
}

/// Sessions in a state.
pub fn sessions(records: &[Record], state: u8) -> Vec<Record> {
    records.iter().filter(|record| record.kind() == 1 && record[session::STATE] == state).copied().collect()
}

/// Keys of closed sessions.
pub fn closed_keys(records: &[Record]) -> Vec<Record> {
    let closed: Vec<u32> = sessions(records, session::CLOSED).iter().map(|session| session.own()).collect();
    of_kind(records, 4).into_iter().filter(|key| closed.contains(&key.session())).collect()
}

fn by_handle(records: &[Record], kind: u8, handle: u32) -> Option<Record> {
    records.iter().find(|record| record.kind() == kind && record.own() == handle).copied()
}

fn order(intent: &'static str, written: impl Into<Written>) -> Order {
    let Written { built, ordered } = written.into();
    Order { intent, built, ordered, fault: None }
}

fn fault(intent: &'static str, column: Column, written: impl Into<Written>) -> Order {
    Order { fault: Some(column), ..order(intent, written) }
}

impl Author {
    /// Some call for this store.
    pub fn order(&mut self, records: &[Record]) -> Order {
        let mut written = self.well_meant(records);
        if self.random.percent(5) {
            written.fault = None;
            written.intent = "bytes spoilt";
            let how = self.random.pick(&MUTATIONS);
            // Calls at the longest length are dear in a trace; a few are enough.
            if how != Mutation::TooLong || self.random.percent(10) {
                mutate(&mut written.built, how, &mut self.random);
            }
        } else if self.random.percent(3) {
            written = self.no_call(written.built);
        }
        written
    }

    /// Too short, too long, or of no method: the first 16.
    fn no_call(&mut self, mut built: Built) -> Order {
        match self.random.below(8) {
            0..=3 => built.call.truncate(self.random.below(5)),
            4 if self.random.percent(10) => built.call.resize(16_385, 0),
            _ => {
                let known = crate::table::METHODS;
                built.call[0] =
                    (0..=255).filter(|number| !known.contains(number)).nth(self.random.below(243)).unwrap_or(0);
            }
        }
        fault("no call", FirstForm, built)
            .retract_unless(|call| crate::table::method_of(call).is_none() || !(5..=16_384).contains(&call.len()))
    }

    fn well_meant(&mut self, records: &[Record]) -> Order {
        let open = sessions(records, session::OPEN);
        let keys = closed_keys(records);
        let full = records.iter().all(|record| record.kind() != 0);
        let idle = match (full, keys.is_empty()) {
            (true, _) => 5,
            (false, true) => 85,
            (false, false) => 25,
        };
        let wants_session =
            open.is_empty() && self.random.percent(idle) || !full && open.len() < 3 && self.random.percent(8);
        if wants_session || self.random.percent(2) {
            return self.create_session(records);
        }
        if !open.is_empty() && self.random.percent(if keys.is_empty() { 95 } else { 65 }) {
            let session = self.random.pick(&open);
            return self.on_session(records, &session);
        }
        if self.random.percent(8) {
            return self.on_no_session(records);
        }
        self.by_user(records)
    }

    /// A session call on what is no open session.
    fn on_no_session(&mut self, records: &[Record]) -> Order {
        let mut handles = vec![0, 65_536, 131_072, 0xffff_0000, self.random.word() as u32];
        handles.extend(
            records
                .iter()
                .filter(|record| !(record.kind() == 1 && record[session::STATE] == 1))
                .map(|record| record.own()),
        );
        let open: Vec<u32> = sessions(records, session::OPEN).iter().map(|session| session.own()).collect();
        handles.retain(|handle| !open.contains(handle));
        let issuer = Issuer { session: self.random.pick(&handles), session_key: [0; 32], counter: 0 };
        let target = self.some_handle(records);
        let written = match self.random.below(9) {
            0 => {
                let close = builder::Close { nonce: b"nonce".to_vec(), client_session_id: b"client".to_vec() };
                write(&issuer, close)
            }
            1 => builder::abort(issuer.session).into(),
            2 => write(&issuer, CreatePuk::default()),
            3 => write(&issuer, CreatePinPolicy::default()),
            4 => write(&issuer, CreateKey::default()),
            5 => {
                let (key_id, public_key, certificates) = (vec![b'k'], vec![4], vec![vec![1]]);
                write(&issuer, SetPath { key: target, key_id, public_key, certificates, miscount: 0 })
            }
            6 => write(&issuer, Post::new(50, target)),
            7 => write(&issuer, Post::new(51, target)),
            _ => {
                // No open session comes before the form.
                let mut written = write(&issuer, CreatePuk::default());
                mutate(&mut written.built, Mutation::LengthenCall, &mut self.random);
                written
            }
        };
        fault("no open session", Status(5), written)
    }

    /// Any handle: of what stands in the store, or of nothing.
    fn some_handle(&mut self, records: &[Record]) -> u32 {
        let record = self.random.pick(records);
        match self.random.below(10) {
            0 => 0,
            1 => self.random.word() as u32,
            2 => record.own().wrapping_add(1),
            3 => record.own() ^ 0x10000,
            _ => record.own(),
        }
    }

    fn bad_id(&mut self) -> Vec<u8> {
        match self.random.below(5) {
            0 => vec![],
            1 => vec![b'a'; 33],
            2 => b"a b".to_vec(),
            3 => vec![b'a', 0x7f],
            _ => vec![0x20],
        }
    }

    fn bad_bool(&mut self) -> u8 {
        self.random.pick(&[2, 3, 128, 255])
    }

    fn wrong_algorithm(&mut self, right: &[u8]) -> Vec<u8> {
        match self.random.below(6) {
            0 => vec![],
            1 => right[..right.len() - 1].to_vec(),
            2 => [right, b"1"].concat(),
            3 => {
                let length = self.random.pick(&[1, 47, 2000]);
                self.random.bytes(length)
            }
            4 => b"http://xmlns.webpki.org/sks/algorithm#none".to_vec(),
            _ => {
                let mut text = right.to_vec();
                let place = self.random.below(text.len());
                text[place] ^= 1;
                text
            }
        }
    }

    /// A length at one of the ends of its range, or one inside.
    fn length(&mut self, low: usize, high: usize) -> usize {
        match self.random.below(8) {
            0 => low,
            1 => high,
            _ => self.random.between(low, high.min(low + 20)),
        }
    }

    // ---- method 2

    fn create_session(&mut self, records: &[Record]) -> Order {
        let taken: Vec<Vec<u8>> =
            of_kind(records, 1).iter().map(|record| record.text(session::CLIENT_SESSION_ID, 32).to_vec()).collect();
        let limit = match self.random.below(6) {
            0 => self.random.between(1, 12),
            1 => 65_535,
            _ => self.random.between(20, 300),
        };
        let (ephemeral, uri, management) = (self.length(1, 512), self.length(1, 1000), self.length(0, 512));
        let mut new = CreateSession {
            privacy: self.random.bit(),
            server_session_id: random_id(&mut self.random, &[]),
            ephemeral_key: self.random.bytes(ephemeral),
            issuer_uri: self.random.bytes(uri),
            key_management_key: self.random.bytes(management),
            client_time: self.random.word() as u32,
            life_time: self.random.word() as u32,
            limit: limit as u16,
            session_key: self.random.bytes(32),
            client_session_id: random_id(&mut self.random, &taken),
            ..CreateSession::default()
        };
        if !self.random.percent(15) {
            return order("2", new.build());
        }
        let (intent, column) = match self.random.below(13) {
            0 | 1 => {
                new.algorithm = self.wrong_algorithm(builder::SESSION_ALGORITHM);
                ("2 algorithm", Status(8))
            }
            2 => {
                new.privacy = self.bad_bool();
                ("2 PrivacyEnabled", SecondForm)
            }
            3 => {
                new.server_session_id = self.bad_id();
                ("2 ServerSessionID", SecondForm)
            }
            4 => {
                new.ephemeral_key = vec![1; self.random.pick(&[0, 513])];
                ("2 ServerEphemeralKey", SecondForm)
            }
            5 => {
                new.issuer_uri = vec![b'u'; self.random.pick(&[0, 1001])];
                ("2 IssuerURI", SecondForm)
            }
            6 => {
                new.key_management_key = vec![1; 513];
                ("2 KeyManagementKey", SecondForm)
            }
            7 => {
                new.session_key = vec![1; self.random.pick(&[0, 31, 33])];
                ("2 SessionKey", SecondForm)
            }
            8 => {
                new.client_session_id = self.bad_id();
                ("2 ClientSessionID", SecondForm)
            }
            9 | 10 => {
                new.limit = 0;
                ("2 limit 0", Status(17))
            }
            _ => match self.random.choose(&taken) {
                Some(id) => {
                    new.client_session_id = id;
                    ("2 ClientSessionID taken", Status(17))
                }
                None => return order("2", new.build()),
            },
        };
        // 33 bytes of SessionKey only shift what follows: the length of the ID then reads as something else.
        fault(intent, column, new.build())
    }

    // ---- session calls

    /// Some call on this open session.
    pub fn on_session(&mut self, records: &[Record], session: &Record) -> Order {
        let unready_keys = objects(records, session, 4).iter().any(|key| key[key::HAS_PATH] == 0);
        let stale = objects(records, session, 5).iter().any(|pending| pending[pending::STALE] == 1);
        let full = records.iter().all(|record| record.kind() != 0);
        match self.random.below(100) {
            // What needs a free record would end the session.
            2..=76 if full && self.random.percent(80) => {
                if unready_keys {
                    self.path(records, session)
                } else {
                    self.close(records, session)
                }
            }
            0..=1 => self.abort(session),
            2..=13 => self.puk(records, session),
            14..=27 => self.policy(records, session),
            28..=47 => self.key(records, session),
            48..=54 => self.path(records, session),
            55..=64 if unready_keys => self.path(records, session),
            55..=76 => self.post(records, session),
            _ if stale && self.random.percent(50) => self.post(records, session),
            _ if unready_keys && self.random.percent(80) => self.path(records, session),
            _ => self.finish(records, session),
        }
    }

    /// Works towards a close: a child for what lacks one, a path for what lacks one, then the close.
    fn finish(&mut self, records: &[Record], session: &Record) -> Order {
        if self.random.percent(80) {
            if objects(records, session, 4).iter().any(|key| key[key::HAS_PATH] == 0) {
                return self.path(records, session);
            }
            if lonely(records, session, 3).is_some() {
                return self.key(records, session);
            }
            if lonely(records, session, 2).is_some() {
                return self.policy(records, session);
            }
            // A session without keys and pendings closes to nothing.
            if objects(records, session, 4).is_empty() && objects(records, session, 5).is_empty() {
                return self.key(records, session);
            }
        }
        self.close(records, session)
    }

    fn abort(&mut self, session: &Record) -> Order {
        let mut built = builder::abort(session.own());
        if self.random.percent(25) {
            if self.random.percent(50) {
                built.call.push(0);
            } else {
                built.chip.push(0);
            }
            return fault("5 a byte too many", SecondForm, built);
        }
        order("5", built)
    }

    /// A close of this open session.
    pub fn close(&mut self, records: &[Record], session: &Record) -> Order {
        let issuer = issuer_of(session);
        let length = self.length(1, 64);
        let mut close = builder::Close {
            nonce: self.random.bytes(length),
            client_session_id: session.text(session::CLIENT_SESSION_ID, 32).to_vec(),
        };
        if !self.random.percent(10) {
            return order("3", write(&issuer, close)).refused_if(!may_close(records, session), "3 not fit", Status(6));
        }
        match self.random.below(4) {
            0 => {
                close.nonce = vec![1; self.random.pick(&[0, 65])];
                fault("3 Nonce", SecondForm, write(&issuer, close))
            }
            1 => {
                let mut written = write(&issuer, close);
                written.built.chip = self.random.bytes(1);
                fault("3 chip bytes", SecondForm, written)
            }
            2 => {
                close.client_session_id = session.id().to_vec();
                let differs = session.id() != session.text(session::CLIENT_SESSION_ID, 32);
                order("3 ServerSessionID in the MAC", write(&issuer, close)).refused_if(differs, "3 MAC", Status(3))
            }
            _ => self.wrong_mac("3 MAC", write(&issuer, close), &issuer),
        }
    }

    /// A MAC with one bit wrong, or of all bits but the first byte, or at another counter.
    fn wrong_mac(&mut self, intent: &'static str, mut written: Written, issuer: &Issuer) -> Order {
        let call = &mut written.built.call;
        let start = call.len() - 32;
        match self.random.below(4) {
            0 => {
                let place = start + self.random.below(32);
                call[place] ^= 1 << self.random.below(8);
            }
            1 => call[start + 31] ^= 1,
            2 => call[start + 1..].fill(0),
            _ => {
                let code = issuer.code(b"createPUKPolicy", 1, b"");
                call[start..].copy_from_slice(&code);
            }
        }
        fault(intent, Status(3), written)
    }

    fn free_id(&mut self, records: &[Record], session: &Record) -> Vec<u8> {
        let taken = taken_ids(records, session);
        random_id(&mut self.random, &taken)
    }

    fn puk(&mut self, records: &[Record], session: &Record) -> Order {
        let issuer = issuer_of(session);
        let format = self.random.below(4) as u8;
        let (length, encrypted) = (self.length(1, 16), self.length(1, 64));
        let mut new = CreatePuk {
            id: self.free_id(records, session),
            encrypted_value: self.random.bytes(encrypted),
            format,
            retry_limit: self.random.pick(&[0, 0, 1, 2, 3, 3, 255]),
            value: random_text(&mut self.random, format, length),
        };
        if !self.random.percent(10) {
            return order("8", write(&issuer, new)).refused_if(!has_room(session, 1), "8 counter", Status(17));
        }
        let (intent, column) = match self.random.below(8) {
            0 => {
                new.id = self.bad_id();
                ("8 ID", SecondForm)
            }
            1 => match self.random.choose(&taken_ids(records, session)) {
                Some(id) => {
                    new.id = id;
                    ("8 ID taken", Status(17))
                }
                None => return order("8", write(&issuer, new)),
            },
            2 => {
                new.encrypted_value = vec![1; self.random.pick(&[0, 65])];
                ("8 EncryptedValue", SecondForm)
            }
            3 => {
                new.format = self.random.pick(&[4, 5, 255]);
                ("8 format", Status(17))
            }
            4 => {
                new.value = vec![b'1'; self.random.pick(&[0, 17])];
                ("8 opened value", SecondForm)
            }
            5 => {
                new.format = self.random.below(3) as u8;
                new.value = self.random.pick(&[
                    b"a9".to_vec(),
                    vec![0xff],
                    vec![0x80],
                    vec![0xc0],
                    vec![0xe1, 0x80],
                    vec![0xf8, 0x80, 0x80, 0x80],
                ]);
                if pin::has_format(&new.value, new.format) {
                    return order("8", write(&issuer, new));
                }
                ("8 text of the PUK", Status(17))
            }
            _ => return self.wrong_mac("8 MAC", write(&issuer, new), &issuer),
        };
        fault(intent, column, write(&issuer, new))
    }

    /// A handle that is no policy of that kind in this session.
    fn strange_handle(&mut self, records: &[Record], session: &Record, kind: u8) -> u32 {
        let own: Vec<u32> = objects(records, session, kind).iter().map(|record| record.own()).collect();
        let mut strange: Vec<u32> = records.iter().map(|record| record.own()).collect();
        strange.extend([1, session.own() + 999, self.random.word() as u32]);
        strange.retain(|handle| *handle != 0 && !own.contains(handle));
        self.random.pick(&strange)
    }

    fn policy(&mut self, records: &[Record], session: &Record) -> Order {
        let issuer = issuer_of(session);
        let puks = objects(records, session, 2);
        let puk = lonely(records, session, 2)
            .filter(|_| self.random.percent(60))
            .or_else(|| self.random.choose(&puks))
            .filter(|_| self.random.percent(80));
        let max = self.length(1, 16);
        let mut new = CreatePinPolicy {
            id: self.free_id(records, session),
            puk: puk.map_or(0, |puk| puk.own()),
            puk_id: puk.map_or(b"#N/A".to_vec(), |puk| puk.id().to_vec()),
            user_defined: self.random.bit(),
            user_modifiable: u8::from(self.random.percent(75)),
            format: self.random.below(4) as u8,
            retry_limit: self.random.pick(&[1, 2, 3, 3, 3, 255]),
            grouping: self.random.bit(),
            patterns: if self.random.percent(50) { 0 } else { self.random.below(8) as u8 },
            min: self.random.between(1, max) as u8,
            max: max as u8,
            input_method: 0,
        };
        if !self.random.percent(12) {
            return order("9", write(&issuer, new)).refused_if(!has_room(session, 1), "9 counter", Status(17));
        }
        let (intent, column) = match self.random.below(16) {
            0 => {
                new.id = self.bad_id();
                ("9 ID", SecondForm)
            }
            1 => match self.random.choose(&taken_ids(records, session)) {
                Some(id) => {
                    new.id = id;
                    ("9 ID taken", Status(17))
                }
                None => return order("9", write(&issuer, new)),
            },
            2 | 3 => {
                new.puk = self.strange_handle(records, session, 2);
                ("9 PUK handle", Status(17))
            }
            4 => {
                new.user_defined = self.bad_bool();
                ("9 UserDefined", SecondForm)
            }
            5 => {
                new.user_modifiable = self.bad_bool();
                ("9 UserModifiable", SecondForm)
            }
            6 => {
                new.format = self.random.pick(&[4, 255]);
                ("9 format", Status(17))
            }
            7 => {
                new.retry_limit = 0;
                ("9 retry limit 0", Status(17))
            }
            8 => {
                new.grouping = self.random.pick(&[2, 3, 255]);
                ("9 grouping", Status(17))
            }
            9 => {
                new.patterns = self.random.pick(&[8, 16, 255]);
                ("9 patterns", Status(17))
            }
            10 => {
                new.min = 0;
                ("9 min 0", Status(17))
            }
            11 => {
                new.min = new.max + 1;
                ("9 min above max", Status(17))
            }
            12 => {
                new.max = self.random.pick(&[17, 255]);
                ("9 max above 16", Status(17))
            }
            13 => {
                new.input_method = self.random.pick(&[1, 255]);
                ("9 InputMethod", Status(17))
            }
            14 => {
                // The MAC of another PUK, or of none.
                let right = new.puk_id.clone();
                new.puk_id = if new.puk == 0 { b"PUK".to_vec() } else { b"#N/A".to_vec() };
                let differs = right != new.puk_id;
                return order("9 MAC of another PUK", write(&issuer, new)).refused_if(
                    differs,
                    "9 MAC of another PUK",
                    Status(3),
                );
            }
            _ => return self.wrong_mac("9 MAC", write(&issuer, new), &issuer),
        };
        fault(intent, column, write(&issuer, new))
    }

    fn key(&mut self, records: &[Record], session: &Record) -> Order {
        let issuer = issuer_of(session);
        let policies = objects(records, session, 3);
        let policy = lonely(records, session, 3)
            .filter(|_| self.random.percent(60))
            .or_else(|| self.random.choose(&policies))
            .filter(|_| self.random.percent(85));
        let (seed, name, public) = (self.length(0, 64), self.length(0, 100), self.length(1, 96));
        let mut new = CreateKey {
            id: self.free_id(records, session),
            server_seed: self.random.bytes(seed),
            pin_caching: self.random.bit(),
            export_protection: self.random.below(4) as u8,
            app_usage: self.random.byte(),
            friendly_name: self.random.bytes(name),
            public_key: self.random.bytes(public),
            ..CreateKey::default()
        };
        let mut protections = vec![0, 0, 3];
        if let Some(policy) = policy {
            protections.extend([1, 1]);
            if policy.parent() != 0 {
                protections.extend([2, 2, 2]);
            }
            new.policy = policy.own();
            new.policy_id = policy.id().to_vec();
            let pin = self.fitting_pin(records, &policy);
            self.give_pin(&mut new, &policy, pin);
        }
        new.delete_protection = self.random.pick(&protections);
        if !self.random.percent(15) {
            return order("10", write(&issuer, new)).refused_if(!has_room(session, 2), "10 counter", Status(17));
        }
        self.faulty_key(records, session, policy, new, &issuer)
    }

    /// A PIN that the policy takes: under grouping 1 that of its other keys.
    fn fitting_pin(&mut self, records: &[Record], policy: &Record) -> Vec<u8> {
        let other = records.iter().find(|record| record.is_key_under(policy.own()));
        match other {
            Some(key) if policy[policy::GROUPING] == 1 => key.text(key::PIN, 16).to_vec(),
            _ => random_pin(
                &mut self.random,
                policy[policy::FORMAT],
                policy[policy::PATTERNS],
                policy[policy::MIN],
                policy[policy::MAX],
            ),
        }
    }

    /// Puts the PIN where it belongs: in the call, or as what the chip opened.
    fn give_pin(&mut self, new: &mut CreateKey, policy: &Record, pin: Vec<u8>) {
        if policy[policy::USER_DEFINED] == 1 {
            new.pin_value = pin;
            new.pin_in_data = None;
            new.opened_pin = vec![];
        } else {
            let length = self.length(1, 64);
            new.pin_value = self.random.bytes(length);
            new.pin_in_data = Some(new.pin_value.clone());
            new.opened_pin = pin;
        }
    }

    fn faulty_key(
        &mut self,
        records: &[Record],
        session: &Record,
        policy: Option<Record>,
        mut new: CreateKey,
        issuer: &Issuer,
    ) -> Order {
        let defined = policy.is_some_and(|policy| policy[policy::USER_DEFINED] == 1);
        let issued = policy.is_some() && !defined;
        let (intent, column) = match self.random.below(32) {
            0 => {
                new.id = self.bad_id();
                ("10 ID", SecondForm)
            }
            1 => match self.random.choose(&taken_ids(records, session)) {
                Some(id) => {
                    new.id = id;
                    ("10 ID taken", Status(17))
                }
                None => return order("10", write(issuer, new)),
            },
            2 => {
                new.algorithm = self.wrong_algorithm(builder::KEY_ENTRY_ALGORITHM);
                ("10 KeyEntryAlgorithm", Status(8))
            }
            3 => {
                new.key_algorithm = self.wrong_algorithm(builder::P_256);
                ("10 KeyAlgorithm", Status(8))
            }
            4 => {
                new.endorsed_algorithms = self.random.pick(&[1, 2, 256, 65_535]);
                ("10 EndorsedAlgorithms", Status(8))
            }
            5 => {
                new.endorsed_algorithms = 1;
                new.endorsed_strings = builder::string(b"http://algorithm");
                ("10 EndorsedAlgorithms with a string", SecondForm)
            }
            6 => {
                new.server_seed = vec![1; 65];
                ("10 ServerSeed", SecondForm)
            }
            7 | 8 => {
                new.policy = self.strange_handle(records, session, 3);
                ("10 policy handle", Status(17))
            }
            9 => {
                new.pin_value = vec![b'1'; 65];
                ("10 PINValue", SecondForm)
            }
            10 => {
                new.pin_caching = self.bad_bool();
                ("10 EnablePINCaching", SecondForm)
            }
            11 => {
                new.biometric_protection = self.random.pick(&[1, 255]);
                ("10 BiometricProtection", Status(17))
            }
            12 => {
                new.export_protection = self.random.pick(&[4, 255]);
                ("10 ExportProtection", Status(17))
            }
            13 => {
                new.delete_protection = self.random.pick(&[4, 255]);
                ("10 DeleteProtection", Status(17))
            }
            14 if policy.is_none() => {
                new.delete_protection = self.random.pick(&[1, 2]);
                ("10 DeleteProtection without PIN", Status(17))
            }
            15 | 14 if policy.is_some_and(|policy| policy.parent() == 0) => {
                new.delete_protection = 2;
                ("10 DeleteProtection without PUK", Status(17))
            }
            16 => {
                new.friendly_name = vec![b'n'; 101];
                ("10 FriendlyName", SecondForm)
            }
            17 => {
                let length = self.random.between(1, 8);
                new.key_parameters = self.random.bytes(length);
                ("10 KeyParameters", Status(17))
            }
            18 => {
                new.key_parameters = vec![1; 9];
                ("10 KeyParameters too long", SecondForm)
            }
            19 => {
                new.public_key = vec![4; self.random.pick(&[0, 97])];
                ("10 public key", SecondForm)
            }
            20 => {
                new.opened_pin = vec![b'1'; 17];
                ("10 opened PIN too long", SecondForm)
            }
            21 if policy.is_none() => {
                new.pin_value = self.random.pick(&[b"1".to_vec(), b"1234".to_vec()]);
                ("10 PINValue where none belongs", Status(17))
            }
            22 if !issued => {
                new.opened_pin = b"1234".to_vec();
                ("10 opened PIN where none belongs", Status(17))
            }
            23 | 22 if issued => {
                new.pin_value = vec![];
                new.pin_in_data = Some(vec![]);
                ("10 PINValue of the issuer empty", Status(17))
            }
            24 if defined => {
                let length = self.random.between(17, 64);
                new.pin_value = vec![b'1'; length];
                ("10 PINValue of the user too long", Status(17))
            }
            25..=28 if policy.is_some() => {
                let policy = policy.unwrap_or([0; 256]);
                let Some(pin) = self.unfit_pin(records, &policy) else {
                    return order("10", write(issuer, new));
                };
                self.give_pin(&mut new, &policy, pin);
                ("10 unfit PIN", Status(17))
            }
            29 if defined => {
                // What the user chose does not stand in the MAC.
                new.pin_in_data = Some(new.pin_value.clone());
                ("10 MAC over the user's PIN", Status(3))
            }
            29 if issued => {
                new.pin_in_data = None;
                if new.pin_value == b"#N/A" {
                    return order("10", write(issuer, new));
                }
                ("10 MAC without the issuer's PIN", Status(3))
            }
            30 if policy.is_some() && new.policy_id != b"#N/A" => {
                new.policy_id = b"#N/A".to_vec();
                ("10 MAC of another policy", Status(3))
            }
            _ => return self.wrong_mac("10 MAC", write(issuer, new), issuer),
        };
        fault(intent, column, write(issuer, new))
    }

    /// A PIN of 0 to 16 bytes that this policy refuses; none if the tries fail.
    fn unfit_pin(&mut self, records: &[Record], policy: &Record) -> Option<Vec<u8>> {
        let (min, max) = (usize::from(policy[policy::MIN]), usize::from(policy[policy::MAX]));
        let other = records.iter().find(|record| record.is_key_under(policy.own()));
        for _ in 0..20 {
            let format = policy[policy::FORMAT];
            let pin = match self.random.below(6) {
                0 => random_text(&mut self.random, format, min - 1),
                1 => random_text(&mut self.random, format, (max + 1).min(16)),
                2 => {
                    let length = self.random.between(min, max);
                    self.random.bytes(length)
                }
                3 => vec![b'1'; self.random.between(min, max)],
                4 => (b'0'..=b'9').chain(b'0'..=b'9').take(self.random.between(min, max)).collect(),
                _ => self.fresh_pin(policy),
            };
            let unlike = policy[policy::GROUPING] == 1 && other.is_some_and(|key| key.text(key::PIN, 16) != pin);
            if !pin::obeys(&pin, policy) || unlike {
                return Some(pin);
            }
        }
        None
    }

    fn fresh_pin(&mut self, policy: &Record) -> Vec<u8> {
        random_pin(
            &mut self.random,
            policy[policy::FORMAT],
            policy[policy::PATTERNS],
            policy[policy::MIN],
            policy[policy::MAX],
        )
    }

    fn path(&mut self, records: &[Record], session: &Record) -> Order {
        let issuer = issuer_of(session);
        let keys = objects(records, session, 4);
        let unready: Vec<Record> = keys.iter().filter(|key| key[key::HAS_PATH] == 0).copied().collect();
        let certificates: Vec<Vec<u8>> = (0..self.random.pick(&[1, 1, 1, 2, 3, 9]))
            .map(|_| {
                let length = self.length(1, 200);
                self.random.bytes(length)
            })
            .collect();
        let wish = |key: &Record, certificates| SetPath {
            key: key.own(),
            key_id: key.id().to_vec(),
            public_key: key.text(key::PUBLIC_KEY, 96).to_vec(),
            certificates,
            miscount: 0,
        };
        let Some(key) = self.random.choose(&unready) else {
            if let Some(key) = self.random.choose(&keys).filter(|_| self.random.percent(30)) {
                return fault("12 path set twice", Status(17), write(&issuer, wish(&key, certificates)));
            }
            if self.random.percent(30) {
                return self.path_of_no_key(records, session, certificates);
            }
            return self.key(records, session);
        };
        let mut path = wish(&key, certificates);
        if !self.random.percent(10) {
            return order("12", write(&issuer, path)).refused_if(!has_room(session, 1), "12 counter", Status(17));
        }
        match self.random.below(8) {
            0 => {
                path.certificates = vec![];
                fault("12 count 0", SecondForm, write(&issuer, path))
            }
            1 => {
                path.miscount = self.random.pick(&[1, 255]);
                fault("12 count wrong", SecondForm, write(&issuer, path))
            }
            2 => {
                let place = self.random.below(path.certificates.len());
                path.certificates[place] = vec![];
                fault("12 empty certificate", SecondForm, write(&issuer, path))
            }
            3 => {
                path.public_key.push(0);
                fault("12 MAC of another public key", Status(3), write(&issuer, path))
            }
            4 => self.path_of_no_key(records, session, path.certificates),
            5 => {
                let mut written = write(&issuer, path);
                written.built.chip = vec![1];
                fault("12 chip bytes", SecondForm, written)
            }
            6 => {
                // The longest path that one call can hold, or a byte more.
                let room = 16_384 - 10 - 32 - 2;
                let more = self.random.below(2);
                path.certificates = vec![vec![0x30; room + more]];
                let written = write(&issuer, path);
                if more == 1 {
                    fault("12 too long", FirstForm, written)
                } else {
                    order("12 longest", written)
                }
            }
            _ => self.wrong_mac("12 MAC", write(&issuer, path), &issuer),
        }
    }

    fn path_of_no_key(&mut self, records: &[Record], session: &Record, certificates: Vec<Vec<u8>>) -> Order {
        let keys: Vec<u32> = objects(records, session, 4).iter().map(|key| key.own()).collect();
        let mut handle = self.some_handle(records);
        while keys.contains(&handle) {
            handle = self.random.word() as u32;
        }
        let path = SetPath { key: handle, key_id: b"Key".to_vec(), public_key: vec![4], certificates, miscount: 0 };
        fault("12 no key of the session", Status(7), write(&issuer_of(session), path))
    }

    fn post(&mut self, records: &[Record], session: &Record) -> Order {
        let issuer = issuer_of(session);
        let method = self.random.pick(&[50, 51]);
        let pendings = objects(records, session, 5);
        let is_pending = |key: &Record| pendings.iter().any(|pending| pending.parent() == key.own());
        let keys = closed_keys(records);
        let owner = |key: &Record| by_handle(records, 1, key.session()).unwrap_or([0; 256]);
        let fit = |key: &Record| {
            owner(key)[session::HAS_KEY_MANAGEMENT_KEY] == 1 && !is_pending(key) && (method == 50 || key.parent() != 0)
        };
        let fitting: Vec<Record> = keys.iter().filter(|key| fit(key)).copied().collect();
        let unfit: Vec<Record> = keys.iter().filter(|key| !fit(key)).copied().collect();
        let length = self.length(1, 512);
        let mut post = Post { authorization: self.random.bytes(length), ..Post::new(method, 0) };
        if self.random.percent(5) || fitting.is_empty() && self.random.percent(30) {
            if let Some(key) = self.random.choose(&unfit) {
                post.key = key.own();
                let intent = if is_pending(&key) {
                    "50/51 already pending"
                } else if owner(&key)[session::HAS_KEY_MANAGEMENT_KEY] == 0 {
                    "50/51 without KeyManagementKey"
                } else {
                    "51 without PIN"
                };
                return fault(intent, Status(17), write(&issuer, post));
            }
            let closed: Vec<u32> = keys.iter().map(|key| key.own()).collect();
            post.key = self.some_handle(records);
            while closed.contains(&post.key) {
                post.key = self.random.word() as u32;
            }
            return fault("50/51 no key of a closed session", Status(7), write(&issuer, post));
        }
        let Some(key) = self.random.choose(&fitting) else {
            return self.puk(records, session);
        };
        post.key = key.own();
        if !self.random.percent(10) {
            return order("50/51", write(&issuer, post)).refused_if(!has_room(session, 1), "50/51 counter", Status(17));
        }
        match self.random.below(6) {
            0 => {
                post.authorization = vec![1; self.random.pick(&[0, 513])];
                fault("50/51 Authorization", SecondForm, write(&issuer, post))
            }
            1 => {
                post.verified = self.random.pick(&[vec![], vec![2], vec![255], vec![1, 1]]);
                fault("50/51 chip bytes", SecondForm, write(&issuer, post))
            }
            2 | 3 => {
                post.verified = vec![0];
                fault("50/51 signature", Status(4), write(&issuer, post))
            }
            4 => {
                // The MAC of the sister method.
                post.method = 101 - method;
                let mut written = write(&issuer, post);
                written.built.call[0] = method;
                fault("50/51 MAC of the sister", Status(3), written)
            }
            _ => self.wrong_mac("50/51 MAC", write(&issuer, post), &issuer),
        }
    }

    // ---- user calls

    fn by_user(&mut self, records: &[Record]) -> Order {
        let method = self.random.pick(&[80, 82, 82, 83, 83, 83, 100, 100, 100]);
        let keys = closed_keys(records);
        let Some(mut key) = self.random.choose(&keys).filter(|_| self.random.percent(92)) else {
            return self.user_of_no_key(records, method);
        };
        // Mostly a key that has what the method asks about.
        let policy_of = |key: &Record| by_handle(records, 3, key.parent());
        let suits = |key: &&Record| match method {
            80 => key[key::DELETE_PROTECTION] != 3,
            82 => policy_of(key).is_some_and(|policy| policy.parent() != 0),
            83 => policy_of(key).is_some_and(|policy| policy[policy::USER_MODIFIABLE] == 1),
            _ => true,
        };
        if self.random.percent(80) {
            let suiting: Vec<Record> = keys.iter().filter(suits).copied().collect();
            key = self.random.choose(&suiting).unwrap_or(key);
        }
        let its_policy = policy_of(&key);
        let its_puk = its_policy.and_then(|policy| by_handle(records, 2, policy.parent()));
        let pin = key.text(key::PIN, 16).to_vec();
        let puk = its_puk.map_or(vec![], |record| record.text(puk::VALUE, 16).to_vec());
        let right = match (method, key[key::DELETE_PROTECTION]) {
            (80, 0) => vec![],
            (80, 2) | (82, _) => puk.clone(),
            _ => pin.clone(),
        };
        let chance = self.random.below(100);
        let typed = if chance < 60 { right } else { self.wrong_value(&right, &pin, &puk) };
        let new = match its_policy {
            Some(policy) if self.random.percent(80) => self.fresh_pin(&policy),
            Some(policy) => self.unfit_pin(&[], &policy).unwrap_or_default(),
            None => vec![b'1'; self.random.below(17)],
        };
        let values: Vec<&[u8]> = if method == 83 { vec![&typed, &new] } else { vec![&typed] };
        let mut built = builder::user(method, key.own(), &values);
        if self.random.percent(6) {
            return match self.random.below(4) {
                0 => {
                    let long = vec![b'1'; 17];
                    let values: Vec<&[u8]> = match method {
                        83 if self.random.percent(50) => vec![&typed, &long],
                        83 => vec![&long, &new],
                        _ => vec![&long],
                    };
                    fault("user: 17 bytes", SecondForm, builder::user(method, key.own(), &values))
                }
                1 => {
                    built.chip = vec![0];
                    fault("user: chip bytes", SecondForm, built)
                }
                2 => {
                    built.call.push(0);
                    fault("user: a byte too many", SecondForm, built)
                }
                _ => {
                    built.call.pop();
                    fault("user: a byte too few", SecondForm, built)
                }
            };
        }
        let protected = key[key::DELETE_PROTECTION] == 3;
        match method {
            80 => order("80", built).refused_if(protected, "80 DeleteProtection 3", Status(17)),
            82 => order("82", built).refused_if(its_puk.is_none(), "82 without PUK", Status(17)),
            83 => order("83", built)
                .refused_if(its_policy.is_none(), "83 without PIN", Status(17))
                .refused_if(
                    its_policy.is_some_and(|policy| policy[policy::USER_MODIFIABLE] == 0),
                    "83 not modifiable",
                    Status(17),
                )
                .refused_if(its_policy.is_some_and(|policy| !pin::obeys(&new, &policy)), "83 unfit PIN", Status(17)),
            _ => order("100", built),
        }
    }

    /// A value that is wrong as a rule: near the right one, or right for something else.
    fn wrong_value(&mut self, right: &[u8], pin: &[u8], puk: &[u8]) -> Vec<u8> {
        let mut value = right.to_vec();
        match self.random.below(8) {
            0 => value.clear(),
            1 => value.truncate(value.len().saturating_sub(1)),
            2 if value.len() < 16 => value.push(0),
            3 if !value.is_empty() => {
                let place = self.random.below(value.len());
                value[place] ^= 1;
            }
            4 => value = puk.to_vec(),
            5 => value = pin.to_vec(),
            _ => {
                let length = self.random.below(17);
                value = self.random.bytes(length);
            }
        }
        value
    }

    /// A key of an open session, another object, or nothing.
    fn user_of_no_key(&mut self, records: &[Record], method: u8) -> Order {
        let keys: Vec<u32> = closed_keys(records).iter().map(|key| key.own()).collect();
        let mut handle = self.some_handle(records);
        while keys.contains(&handle) {
            handle = self.random.word() as u32;
        }
        let pin = by_handle(records, 4, handle).map_or(vec![], |key| key.text(key::PIN, 16).to_vec());
        let values: Vec<&[u8]> = if method == 83 { vec![&pin, b"1234"] } else { vec![&pin] };
        fault("user: no key of a closed session", Status(7), builder::user(method, handle, &values))
    }
}

impl Order {
    /// Names the refusal that the store calls for, if the condition holds and no other is named.
    fn refused_if(self, condition: bool, intent: &'static str, column: Column) -> Order {
        if condition && self.fault.is_none() {
            Order { intent, fault: Some(column), ..self }
        } else {
            self
        }
    }

    /// Takes the fault back unless the call really has it.
    fn retract_unless(self, has_it: impl Fn(&[u8]) -> bool) -> Order {
        if has_it(&self.built.call) {
            self
        } else {
            Order { fault: None, ..self }
        }
    }
}

fn has_room(session: &Record, uses: u32) -> bool {
    u32::from(session.short(session::MAC_COUNTER)) + uses <= u32::from(session.short(session::SESSION_KEY_LIMIT))
}

fn taken_ids(records: &[Record], session: &Record) -> Vec<Vec<u8>> {
    (2..=4).flat_map(|kind| objects(records, session, kind)).map(|record| record.id().to_vec()).collect()
}

/// A PUK or PIN policy of the session that has no child yet.
fn lonely(records: &[Record], session: &Record, kind: u8) -> Option<Record> {
    objects(records, session, kind)
        .into_iter()
        .find(|record| !records.iter().any(|other| other.kind() == kind + 1 && other.parent() == record.own()))
}

fn may_close(records: &[Record], session: &Record) -> bool {
    lonely(records, session, 2).is_none()
        && lonely(records, session, 3).is_none()
        && objects(records, session, 4).iter().all(|key| key[key::HAS_PATH] == 1)
        && objects(records, session, 5).iter().all(|pending| pending[pending::STALE] == 0)
}
