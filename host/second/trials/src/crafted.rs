//! Stores written record by record, without calls: sound ones that a history would reach only after a long time, and
//! spoilt ones that no history reaches.

use crate::random::Random;
use second::pin;

/// One record.
pub type Record = [u8; 256];

fn put(record: &mut Record, place: usize, bytes: &[u8]) {
    record[place..place + bytes.len()].copy_from_slice(bytes);
}

fn put_text(record: &mut Record, place: usize, text: &[u8]) {
    record[place] = text.len() as u8;
    put(record, place + 1, text);
}

fn common(kind: u8, own: u32, session: u32, parent: u32, id: &[u8]) -> Record {
    let mut record = [0; 256];
    record[0] = kind;
    put(&mut record, 4, &own.to_be_bytes());
    put(&mut record, 8, &session.to_be_bytes());
    put(&mut record, 12, &parent.to_be_bytes());
    put_text(&mut record, 16, id);
    record
}

/// The counter.
pub fn counter(next_session: u32) -> Record {
    let mut record = [0; 256];
    record[0] = 6;
    put(&mut record, 4, &next_session.to_be_bytes());
    record
}

/// A session.
#[derive(Clone, Debug)]
pub struct Session {
    pub number: u32,
    pub closed: bool,
    pub next_object: u16,
    pub server_session_id: Vec<u8>,
    pub client_session_id: Vec<u8>,
    pub session_key: [u8; 32],
    pub mac_counter: u16,
    pub limit: u16,
    pub privacy: u8,
    pub managed: u8,
    pub client_time: u32,
    pub life_time: u32,
}

impl Default for Session {
    fn default() -> Self {
        Session {
            number: 1,
            closed: false,
            next_object: 1,
            server_session_id: b"server".to_vec(),
            client_session_id: b"client".to_vec(),
            session_key: [7; 32],
            mac_counter: 0,
            limit: 100,
            privacy: 0,
            managed: 1,
            client_time: 0,
            life_time: 0,
        }
    }
}

impl Session {
    pub fn handle(&self) -> u32 {
        self.number * 65_536
    }

    pub fn record(&self) -> Record {
        let mut record = common(1, self.handle(), self.handle(), 0, &self.server_session_id);
        record[1] = if self.closed { 2 } else { 1 };
        put(&mut record, 2, &self.next_object.to_be_bytes());
        put_text(&mut record, 49, &self.client_session_id);
        if !self.closed {
            put(&mut record, 82, &self.session_key);
        }
        put(&mut record, 114, &self.mac_counter.to_be_bytes());
        put(&mut record, 116, &self.limit.to_be_bytes());
        record[118] = self.privacy;
        record[119] = self.managed;
        put(&mut record, 120, &self.client_time.to_be_bytes());
        put(&mut record, 124, &self.life_time.to_be_bytes());
        record
    }
}

/// A PUK.
#[derive(Clone, Debug)]
pub struct Puk {
    pub handle: u32,
    pub id: Vec<u8>,
    pub format: u8,
    pub retry_limit: u8,
    pub errors: u8,
    pub value: Vec<u8>,
}

impl Puk {
    pub fn record(&self) -> Record {
        let mut record = common(2, self.handle, self.handle & 0xffff_0000, 0, &self.id);
        put(&mut record, 1, &[self.format, self.retry_limit, self.errors]);
        put_text(&mut record, 49, &self.value);
        record
    }
}

/// A PIN policy.
#[derive(Clone, Debug)]
pub struct Policy {
    pub handle: u32,
    pub id: Vec<u8>,
    pub puk: u32,
    pub format: u8,
    pub retry_limit: u8,
    pub grouping: u8,
    pub user_defined: u8,
    pub user_modifiable: u8,
    pub patterns: u8,
    pub min: u8,
    pub max: u8,
}

impl Policy {
    pub fn record(&self) -> Record {
        let mut record = common(3, self.handle, self.handle & 0xffff_0000, self.puk, &self.id);
        put(&mut record, 1, &[self.format, self.retry_limit, self.grouping]);
        put(&mut record, 49, &[self.user_defined, self.user_modifiable, self.patterns, self.min, self.max]);
        record
    }
}

/// A key.
#[derive(Clone, Debug)]
pub struct Key {
    pub handle: u32,
    pub id: Vec<u8>,
    pub policy: u32,
    pub pin: Vec<u8>,
    pub errors: u8,
    pub delete_protection: u8,
    pub public_key: Vec<u8>,
    /// The digest of its certificate, if it has its path.
    pub path: Option<[u8; 32]>,
    pub pin_caching: u8,
    pub export_protection: u8,
    pub app_usage: u8,
}

impl Key {
    pub fn record(&self) -> Record {
        let mut record = common(4, self.handle, self.handle & 0xffff_0000, self.policy, &self.id);
        put(&mut record, 1, &[u8::from(self.path.is_some()), self.errors, self.delete_protection]);
        put_text(&mut record, 49, &self.pin);
        put_text(&mut record, 82, &self.public_key);
        put(&mut record, 179, &self.path.unwrap_or([0; 32]));
        put(&mut record, 211, &[self.pin_caching, self.export_protection, self.app_usage]);
        record
    }
}

/// A pending; a stale one has no target.
#[derive(Clone, Debug)]
pub struct Pending {
    pub handle: u32,
    pub operation: u8,
    pub target: u32,
}

impl Pending {
    pub fn record(&self) -> Record {
        let mut record = common(5, self.handle, self.handle & 0xffff_0000, self.target, &[]);
        put(&mut record, 1, &[self.operation, u8::from(self.target == 0)]);
        record
    }
}

/// A store of these records.
pub fn store(records: &[Record]) -> Vec<u8> {
    records.concat()
}

// ---- random texts

/// An ID that tells what it is for, or one of any length and characters.
pub fn random_id(random: &mut Random, taken: &[Vec<u8>]) -> Vec<u8> {
    loop {
        let id = match random.below(6) {
            // The mark for "none" is an ID like any other.
            0 if random.percent(20) => b"#N/A".to_vec(),
            0 | 1 => {
                let length = random.pick(&[1, 2, 31, 32]);
                (0..length).map(|_| random.between(0x21, 0x7e) as u8).collect()
            }
            _ => format!("Id.{}", random.below(400)).into_bytes(),
        };
        if !taken.contains(&id) {
            return id;
        }
    }
}

/// A text of a format and length.
pub fn random_text(random: &mut Random, format: u8, length: usize) -> Vec<u8> {
    match format {
        0 => (0..length).map(|_| random.between(b'0' as usize, b'9' as usize) as u8).collect(),
        1 => (0..length).map(|_| random.pick(b"0123456789ABCDEFGHIJKLMNOPQRSTUVWXYZ")).collect(),
        2 => {
            let mut text = Vec::new();
            while text.len() < length {
                let tail = random.below(4).min(length - text.len() - 1);
                let lead = match tail {
                    0 => random.between(0x00, 0x7f),
                    1 => random.between(0xc0, 0xdf),
                    2 => random.between(0xe0, 0xef),
                    _ => random.between(0xf0, 0xf7),
                };
                text.push(lead as u8);
                text.extend((0..tail).map(|_| random.between(0x80, 0xbf) as u8));
            }
            text
        }
        _ if random.percent(15) => {
            // A run of neighbours that crosses from FF to 00, or back, which are no neighbours.
            let (start, step) = random.pick(&[(0xfe_u8, 1_u8), (0xff, 1), (0x01, 255), (0x00, 255)]);
            (0..length).map(|place| start.wrapping_add((place as u8).wrapping_mul(step))).collect()
        }
        _ => random.bytes(length),
    }
}

/// A PIN that obeys a policy, as far as one is found.
pub fn random_pin(random: &mut Random, format: u8, patterns: u8, min: u8, max: u8) -> Vec<u8> {
    let mut pin = Vec::new();
    for _ in 0..60 {
        let length = random.between(min as usize, max as usize);
        pin = random_text(random, format, length);
        if !pin::shows_forbidden_pattern(&pin, patterns) {
            break;
        }
    }
    pin
}

// ---- random sound stores

/// A sound store of so many records, with everything in it that a sound store can have.
pub fn random_store(random: &mut Random, count: usize) -> Vec<u8> {
    let mut maker = Maker::new(random, count - 1);
    maker.sessions();
    let mut records = maker.records;
    records.resize(count, [0; 256]);
    if random.percent(60) {
        random.shuffle(&mut records);
    }
    store(&records)
}

/// A key of a closed session, as a target.
#[derive(Clone)]
struct Target {
    handle: u32,
    has_pin: bool,
    managed: bool,
}

struct Maker<'a> {
    random: &'a mut Random,
    records: Vec<Record>,
    /// Free places that are still to be filled.
    left: usize,
    next_session: u32,
    client_session_ids: Vec<Vec<u8>>,
    targets: Vec<Target>,
    /// Few objects a session, and pendings first: so that sessions meet over one key in small stores too.
    lean: bool,
    /// The first session has keys that share a policy and policies that share a PUK.
    related: bool,
}

impl<'a> Maker<'a> {
    fn new(random: &'a mut Random, room: usize) -> Maker<'a> {
        // Now and then all places are filled.
        let left = if random.percent(30) { room } else { random.between(room / 2, room) };
        let next_session = match random.below(10) {
            0 => 65_536 - random.below(4) as u32,
            1 => random.between(2, 60_000) as u32,
            _ => 1,
        };
        let lean = random.percent(60);
        let related = lean && room >= 8 && random.percent(60);
        Maker {
            random,
            records: vec![],
            left,
            next_session,
            client_session_ids: vec![],
            targets: vec![],
            lean,
            related,
        }
    }

    /// Sessions until the room is used: closed ones first, for the open ones want their keys.
    fn sessions(&mut self) {
        let for_open = match self.random.below(100) {
            0..15 => 0,
            _ if self.lean => self.left / 2 + self.random.below(self.left / 2 + 1),
            _ => self.random.below(self.left + 1),
        };
        let total = self.left;
        if self.related && self.left >= 8 && self.numbers_left() {
            self.session(true);
        }
        self.related = false;
        while self.left > for_open && self.left >= 2 && self.numbers_left() {
            self.session(true);
        }
        while self.left >= 1 && self.numbers_left() && !(self.left == total && self.random.percent(5)) {
            self.session(false);
        }
        let counter = counter(self.next_session);
        self.records.insert(0, counter);
    }

    fn numbers_left(&self) -> bool {
        self.next_session <= 65_535
    }

    fn session(&mut self, closed: bool) {
        let number = self.next_session;
        // Numbers that are gone leave gaps.
        self.next_session =
            (number + 1 + if self.random.percent(20) { self.random.below(3) as u32 } else { 0 }).min(65_536);
        self.left -= 1;
        let limit = match self.random.below(5) {
            0 => self.random.between(1, 5) as u16,
            1 => 65_535 - self.random.below(3) as u16,
            _ => self.random.between(1, 3000) as u16,
        };
        // Few uses left, or many.
        let spare = if self.random.percent(15) {
            self.random.below(4) as u16
        } else {
            self.random.below(limit as usize + 1) as u16
        };
        let client_session_id = random_id(self.random, &self.client_session_ids);
        self.client_session_ids.push(client_session_id.clone());
        let mut session = Session {
            number,
            closed,
            next_object: 1,
            server_session_id: random_id(self.random, &[]),
            client_session_id,
            session_key: self.random.bytes(32).try_into().unwrap(),
            mac_counter: limit - spare.min(limit),
            limit,
            privacy: self.random.bit(),
            managed: u8::from(self.related || self.random.percent(80)),
            client_time: self.random.word() as u32,
            life_time: self.random.word() as u32,
        };
        let place = self.records.len();
        self.records.push([0; 256]);
        let mut objects = Objects::new(self, &session);
        if closed && objects.maker.related {
            objects.related();
        } else if closed {
            objects.finished(true);
        } else if objects.maker.lean {
            let all_unstale = objects.maker.random.percent(80);
            objects.pendings(all_unstale);
            if objects.maker.random.percent(30) && objects.maker.left > 0 {
                objects.finished(false);
            }
        } else if objects.maker.random.percent(50) {
            if objects.maker.random.percent(70) && objects.maker.left > 0 {
                objects.finished(false);
            }
            objects.pendings(true);
        } else {
            objects.unfinished();
            objects.pendings(false);
        }
        let last = objects.last;
        session.next_object = match self.random.below(8) {
            0 => 1000,
            1 => 999.max(last + 1),
            2 => self.random.between(last as usize + 1, 1000) as u16,
            _ => last + 1,
        };
        self.records[place] = session.record();
    }
}

struct Objects<'m, 'a> {
    maker: &'m mut Maker<'a>,
    session: u32,
    managed: bool,
    ids: Vec<Vec<u8>>,
    puks: Vec<u32>,
    policies: Vec<(Policy, Option<Vec<u8>>)>,
    /// The last object number given.
    last: u16,
}

impl<'m, 'a> Objects<'m, 'a> {
    fn new(maker: &'m mut Maker<'a>, session: &Session) -> Objects<'m, 'a> {
        let last = if maker.random.percent(15) { maker.random.between(700, 740) as u16 } else { 0 };
        Objects {
            maker,
            session: session.handle(),
            managed: session.managed == 1,
            ids: vec![],
            puks: vec![],
            policies: vec![],
            last,
        }
    }

    fn next_handle(&mut self) -> u32 {
        self.last += 1;
        if self.maker.random.percent(10) && self.last < 700 {
            self.last += self.maker.random.below(3) as u16;
        }
        self.session + u32::from(self.last)
    }

    fn next_id(&mut self) -> Vec<u8> {
        let id = random_id(self.maker.random, &self.ids);
        self.ids.push(id.clone());
        id
    }

    fn push(&mut self, record: Record) {
        self.maker.records.push(record);
        self.maker.left -= 1;
    }

    /// Keys with their paths, and only policies and PUKs that have a child.
    fn finished(&mut self, closed: bool) {
        let usual = match self.maker.random.below(10) {
            0 if !self.maker.lean => 20,
            _ if self.maker.lean => 2,
            _ => 4,
        };
        let most = self.maker.random.between(1, usual);
        for made in 0..most {
            // A key may need a PUK and a PIN policy of its own.
            let room = self.maker.left;
            if room == 0 {
                break;
            }
            let policy = match self.maker.random.below(4) {
                0 => None,
                1 if !self.policies.is_empty() => Some(self.maker.random.below(self.policies.len())),
                _ if room >= 2 => {
                    let puk = match self.maker.random.below(3) {
                        0 => 0,
                        1 if !self.puks.is_empty() => self.maker.random.pick(&self.puks),
                        _ if room >= 3 => self.puk(),
                        _ => 0,
                    };
                    Some(self.policy(puk))
                }
                _ => None,
            };
            self.key(policy, true, closed);
            if made > 0 && self.maker.random.percent(10) {
                break;
            }
        }
    }

    /// Two keys under one policy, which they often share; now and then a third under a second policy of the same PUK.
    fn related(&mut self) {
        let puk = if self.maker.random.percent(85) { self.puk() } else { 0 };
        let policy = self.policy(puk);
        self.key(Some(policy), true, true);
        self.key(Some(policy), true, true);
        if self.maker.random.percent(40) {
            let second = self.policy(puk);
            self.key(Some(second), true, true);
        }
    }

    /// Any objects: what an open session has on its way.
    fn unfinished(&mut self) {
        let usual = if self.maker.random.percent(10) { 30 } else { 6 };
        let most = self.maker.random.below(usual);
        for _ in 0..most.min(self.maker.left) {
            match self.maker.random.below(6) {
                0 | 1 => {
                    self.puk();
                }
                2 | 3 => {
                    let puk = if self.maker.random.percent(60) {
                        self.maker.random.choose(&self.puks).unwrap_or(0)
                    } else {
                        0
                    };
                    self.policy(puk);
                }
                _ => {
                    let policy = (!self.policies.is_empty() && self.maker.random.percent(70))
                        .then(|| self.maker.random.below(self.policies.len()));
                    let path = self.maker.random.percent(50);
                    self.key(policy, path, false);
                }
            }
        }
    }

    fn puk(&mut self) -> u32 {
        let format = self.maker.random.below(4) as u8;
        let retry_limit = self.maker.random.pick(&[0, 0, 1, 2, 3, 3, 5, 255]);
        let length = self.maker.random.between(1, 16);
        // Soundness never looks at the text.
        let text = if self.maker.random.percent(90) { format } else { 3 };
        let puk = Puk {
            handle: self.next_handle(),
            id: self.next_id(),
            format,
            retry_limit,
            errors: errors(self.maker.random, retry_limit),
            value: random_text(self.maker.random, text, length),
        };
        self.push(puk.record());
        self.puks.push(puk.handle);
        puk.handle
    }

    fn policy(&mut self, puk: u32) -> usize {
        let random = &mut self.maker.random;
        let max = random.between(1, 16) as u8;
        let format = random.below(4) as u8;
        let retry_limit = random.pick(&[1, 2, 3, 3, 3, 5, 255]);
        let grouping = u8::from(random.percent(60));
        let user_defined = random.bit();
        let user_modifiable = u8::from(random.percent(80));
        let patterns = if random.percent(50) { 0 } else { random.below(8) as u8 };
        let min = random.between(1, max as usize) as u8;
        let policy = Policy {
            handle: self.next_handle(),
            id: self.next_id(),
            puk,
            format,
            retry_limit,
            grouping,
            user_defined,
            user_modifiable,
            patterns,
            min,
            max,
        };
        self.push(policy.record());
        self.policies.push((policy, None));
        self.policies.len() - 1
    }

    fn key(&mut self, policy: Option<usize>, path: bool, closed: bool) {
        let random = &mut self.maker.random;
        let mut delete_protections = vec![0, 0, 3];
        let (mut parent, mut pin, mut limit) = (0, vec![], 0);
        if let Some(place) = policy {
            let (policy, shared_pin) = &mut self.policies[place];
            parent = policy.handle;
            limit = policy.retry_limit;
            delete_protections.extend([1, 1]);
            if policy.puk != 0 {
                delete_protections.extend([2, 2]);
            }
            pin = match (&shared_pin, policy.grouping) {
                (Some(pin), 1) => pin.clone(),
                _ if random.percent(5) => random.bytes(3),
                _ => random_pin(random, policy.format, policy.patterns, policy.min, policy.max),
            };
            *shared_pin = Some(pin.clone());
        }
        let length = random.pick(&[1, 65, 91, 91, 95, 96]);
        let key = Key {
            policy: parent,
            errors: errors(random, limit),
            pin,
            delete_protection: random.pick(&delete_protections),
            public_key: random.bytes(length),
            path: path.then(|| random.bytes(32).try_into().unwrap()),
            pin_caching: random.bit(),
            export_protection: random.below(4) as u8,
            app_usage: random.byte(),
            handle: self.next_handle(),
            id: self.next_id(),
        };
        self.push(key.record());
        if closed {
            self.maker.targets.push(Target { handle: key.handle, has_pin: parent != 0, managed: self.managed });
        }
    }

    /// Pendings on keys of closed sessions, at most one unstale one a key.
    fn pendings(&mut self, all_unstale: bool) {
        let mut targets: Vec<Target> = self.maker.targets.iter().filter(|target| target.managed).cloned().collect();
        self.maker.random.shuffle(&mut targets);
        let most = if self.maker.lean { self.maker.random.between(1, 2) } else { self.maker.random.below(4) };
        for _ in 0..most.min(self.maker.left) {
            let stale = !all_unstale && self.maker.random.percent(25);
            let operation = self.maker.random.pick(&[50, 51]);
            if stale {
                let handle = self.next_handle();
                self.push(Pending { handle, operation, target: 0 }.record());
            } else if let Some(target) = targets.pop() {
                let operation = if target.has_pin { operation } else { 50 };
                let handle = self.next_handle();
                self.push(Pending { handle, operation, target: target.handle }.record());
            }
        }
    }
}

/// A count up to the limit, often at one of its ends.
fn errors(random: &mut Random, limit: u8) -> u8 {
    match random.below(4) {
        0 => limit,
        1 => limit.saturating_sub(1),
        2 => random.below(limit as usize + 1) as u8,
        _ => 0,
    }
}

// ---- spoilt stores

/// The places of a record, by kind, at which a clause of soundness looks most closely.
fn touchy_places(kind: u8) -> &'static [usize] {
    match kind {
        1 => &[
            1, 2, 3, 4, 5, 6, 7, 8, 9, 11, 12, 15, 16, 17, 48, 49, 50, 81, 82, 113, 114, 115, 116, 117, 118, 119, 120,
            127, 128, 255,
        ],
        2 => &[1, 2, 3, 5, 6, 7, 9, 11, 12, 15, 16, 17, 48, 49, 50, 65, 66, 255],
        3 => &[1, 2, 3, 5, 6, 7, 9, 11, 12, 13, 14, 15, 16, 17, 48, 49, 50, 51, 52, 53, 54, 255],
        4 => &[
            1, 2, 3, 5, 6, 7, 9, 11, 12, 13, 14, 15, 16, 17, 48, 49, 50, 65, 66, 81, 82, 83, 178, 179, 210, 211, 212,
            213, 214, 255,
        ],
        5 => &[1, 2, 3, 5, 6, 7, 9, 11, 12, 13, 14, 15, 16, 49, 255],
        6 => &[1, 2, 3, 4, 5, 6, 7, 8, 12, 16, 255],
        _ => &[1, 4, 8, 255],
    }
}

/// Changes a store so that it is unsound as a rule; often in one clause alone. Its length may change too.
pub fn spoil(store: &mut Vec<u8>, random: &mut Random) {
    let count = store.len() / 256;
    let used: Vec<usize> = (0..count).filter(|place| store[place * 256] != 0).collect();
    let (Some(one), Some(other)) = (random.choose(&used), random.choose(&used)) else {
        return;
    };
    let kind = store[one * 256];
    match random.below(24) {
        0 => store.truncate(store.len() - 1),
        1 => store.push(0),
        2 if random.percent(20) => store.resize(257 * 256, 0),
        2 => store.truncate(random.pick(&[0, 255, 256])),
        3 => store[one * 256] = random.pick(&[0, 1, 2, 3, 4, 5, 6, 7, 255]),
        // A record gone: a parent, a session, the counter, the last child.
        4 | 5 => store[one * 256..one * 256 + 256].fill(0),
        // A record twice, or in the place of another.
        6 => {
            let free = (0..count).find(|place| store[place * 256] == 0).unwrap_or(other);
            store.copy_within(one * 256..one * 256 + 256, free * 256);
        }
        // A field of the one into the other: handles, sessions, parents, IDs, ClientSessionIDs, PINs.
        7 | 8 => {
            let (start, length) =
                random.pick(&[(4, 4), (8, 4), (12, 4), (12, 4), (4, 8), (16, 33), (49, 33), (49, 17), (1, 3)]);
            store.copy_within(one * 256 + start..one * 256 + start + length, other * 256 + start);
        }
        // The own handle of the one as the parent of the other.
        9 => store.copy_within(one * 256 + 4..one * 256 + 8, other * 256 + 12),
        10 => {
            let place = random.below(256);
            store[one * 256 + place] ^= 1 << random.below(8);
        }
        11 => {
            let place = random.below(store.len());
            store[place] = random.byte();
        }
        _ => {
            let place = one * 256 + random.pick(touchy_places(kind));
            let (byte, any) = (store[place], random.byte());
            store[place] = match random.below(5) {
                0 => byte.wrapping_add(1),
                1 => byte.wrapping_sub(1),
                2 => random.pick(&[0, 1, 2, 3, 4, 7, 8, 16, 17, 32, 33, 96, 97, 0x20, 0x7f]),
                3 => 0,
                _ => random.pick(&[49, 50, 51, 52, 255, any]),
            };
        }
    }
}
