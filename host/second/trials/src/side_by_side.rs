//! Two sessions at work side by side: demand 3 as random trials, over any implementation of the store.
//!
//! First half, `both_orders`: a sound store, two different open sessions, one call on each. Each call names only its
//! own session's objects or keys of closed sessions, no key is held or asked for by both, and neither order meets
//! status 2. Then both orders give the same two replies and the same records, though perhaps at other places.
//!
//! Second half, `first_close_stands`: both sessions hold an operation on one key, and one closes with status 0. Then no
//! later close of the other succeeds, whatever calls come between.

use crate::author::{closed_keys, sessions, Author};
use crate::crafted::random_store;
use crate::mutation::{mutate, MUTATIONS};
use crate::notation::{hex, store_text};
use crate::random::Random;
use builder::Built;
use second::calls::{decode, Call, Method};
use second::records::{records, session, Fields, Record};
use std::collections::BTreeMap;
use std::fmt;

/// The call of an implementation: store, call, chip bytes, reply; the status comes back.
pub type Implementation = fn(&mut [u8], &[u8], &[u8], &mut [u8]) -> u8;

/// The methods of a session.
const ON_SESSION: [u8; 8] = [3, 5, 8, 9, 10, 12, 50, 51];

// ---- the words of the premises

/// The handle a call names besides its session, if it has the form; 0 names nothing.
pub fn named(built: &Built) -> Option<u32> {
    let method = Method::of_call(&built.call)?;
    let handle = match decode(method, &built.call, &built.chip)? {
        Call::CreatePinPolicy(call) => call.puk,
        Call::CreateKey(call) => call.pin_policy,
        Call::SetPath(call) => call.key,
        Call::PostDelete(call) | Call::PostUnlock(call) => call.key,
        _ => 0,
    };
    Some(handle).filter(|&handle| handle != 0)
}

/// The key a call asks for, whatever it will be answered.
pub fn asked(built: &Built) -> Option<u32> {
    named(built).filter(|_| matches!(built.call[0], 50 | 51))
}

/// The keys a session holds: those it has an unstale pending on.
pub fn held(records: &[Record], session: u32) -> Vec<u32> {
    let pendings = records.iter().filter(|record| record.kind() == 5 && record.session() == session);
    pendings.map(|pending| pending.parent()).filter(|&target| target != 0).collect()
}

/// The keys a session holds or its call asks for.
pub fn wanted(records: &[Record], session: u32, built: &Built) -> Vec<u32> {
    let mut keys = held(records, session);
    keys.extend(asked(built));
    keys
}

/// Whether the two have a key in common.
pub fn share_a_key(one: &[u32], other: &[u32]) -> bool {
    one.iter().any(|key| other.contains(key))
}

fn is_object_of(records: &[Record], handle: u32, session: u32) -> bool {
    let is_it = |record: &Record| (2..=5).contains(&record.kind()) && record.own() == handle;
    records.iter().any(|record| is_it(record) && record.session() == session)
}

/// Whether a call names an object of that session.
pub fn names_object_of(records: &[Record], built: &Built, session: u32) -> bool {
    named(built).is_some_and(|handle| is_object_of(records, handle, session))
}

/// Whether a call names only its own session's objects or keys of closed sessions.
pub fn names_only_those(records: &[Record], built: &Built, session: u32) -> bool {
    named(built).is_none_or(|handle| {
        is_object_of(records, handle, session) || closed_keys(records).iter().any(|key| key.own() == handle)
    })
}

/// Whether a call is one on this session, malformed or not.
fn is_on(built: &Built, session: u32) -> bool {
    built.call.len() >= 5 && ON_SESSION.contains(&built.call[0]) && built.call[1..5] == session.to_be_bytes()
}

// ---- the means of the trials

/// The same records, at whatever places.
pub fn bag(store: &[u8]) -> Vec<Record> {
    let mut bag = records(store).map_or(vec![], |records| records.to_vec());
    bag.sort_unstable();
    bag
}

/// The reply to a call.
pub fn run(implementation: Implementation, store: &mut [u8], built: &Built) -> [u8; 37] {
    let mut reply = [0; 37];
    implementation(store, &built.call, &built.chip, &mut reply);
    reply
}

/// A call on this session: often a close, sometimes spoilt, but always on this session.
pub fn call_on(author: &mut Author, records: &[Record], session: &Record) -> Built {
    let order =
        if author.random.percent(35) { author.close(records, session) } else { author.on_session(records, session) };
    if author.random.percent(8) {
        let how = author.random.pick(&MUTATIONS);
        let mut spoilt = order.built.clone();
        mutate(&mut spoilt, how, &mut author.random);
        if is_on(&spoilt, session.own()) {
            return spoilt;
        }
    }
    order.built
}

/// The two orders of two calls: what each call was replied, and the store left behind.
pub struct Both {
    pub there: ([u8; 37], [u8; 37], Vec<u8>),
    pub back: ([u8; 37], [u8; 37], Vec<u8>),
}

impl Both {
    /// Runs both orders from copies of a store.
    pub fn run(implementation: Implementation, store: &[u8], first: &Built, second: &Built) -> Both {
        let (mut there, mut back) = (store.to_vec(), store.to_vec());
        let first_there = run(implementation, &mut there, first);
        let second_there = run(implementation, &mut there, second);
        let second_back = run(implementation, &mut back, second);
        let first_back = run(implementation, &mut back, first);
        Both { there: (first_there, second_there, there), back: (first_back, second_back, back) }
    }

    /// Whether some call met status 2.
    pub fn met_full(&self) -> bool {
        [&self.there, &self.back].iter().any(|order| order.0[0] == 2 || order.1[0] == 2)
    }

    /// Whether the replies and the records are the same.
    pub fn agree(&self) -> bool {
        (self.there.0, self.there.1) == (self.back.0, self.back.1) && bag(&self.there.2) == bag(&self.back.2)
    }
}

// ---- the first half

/// What came of the trials of the first half.
#[derive(Default)]
pub struct Orders {
    /// Pairs that agreed, by their methods. Of names it was asked only that no call names the other session's objects.
    pub agreed: BTreeMap<(u8, u8), u64>,
    /// Those of them that meet the premises to the word.
    pub met: u64,
    /// Pairs outside the premises on names and keys.
    pub outside: u64,
    /// Pairs of which one order met status 2.
    pub full: u64,
    /// Pairs of closes that were both done.
    pub closes: u64,
    /// Those of them with pendings on keys of one closed session.
    pub close_by: u64,
}

/// Tries pairs until so many meet the premises to the word. What disagrees is told in hex.
pub fn both_orders(implementation: Implementation, seed: u64, pairs: u64) -> Result<Orders, String> {
    let mut author = Author { random: Random::new(seed) };
    let mut found = Orders::default();
    while found.met < pairs {
        let count = author.random.between(4, 40);
        let store = random_store(&mut author.random, count);
        let open = records(&store).map_or(vec![], |records| sessions(records, session::OPEN));
        if !second::sound(&store) || open.len() < 2 {
            continue;
        }
        // One store serves for several pairs.
        for _ in 0..8 {
            let [one, other] = [author.random.pick(&open), author.random.pick(&open)];
            if one.own() != other.own() {
                found.try_pair(implementation, &mut author, &store, &one, &other)?;
            }
        }
    }
    Ok(found)
}

impl Orders {
    fn try_pair(
        &mut self,
        implementation: Implementation,
        author: &mut Author,
        store: &[u8],
        one: &Record,
        other: &Record,
    ) -> Result<(), String> {
        let records = records(store).unwrap_or(&[]);
        let [first, second] = [call_on(author, records, one), call_on(author, records, other)];
        let [wants, others_wants] = [wanted(records, one.own(), &first), wanted(records, other.own(), &second)];
        let crossed = names_object_of(records, &first, other.own()) || names_object_of(records, &second, one.own());
        if share_a_key(&wants, &others_wants) || crossed {
            self.outside += 1;
            return Ok(());
        }
        let both = Both::run(implementation, store, &first, &second);
        if both.met_full() {
            self.full += 1;
            return Ok(());
        }
        if !both.agree() {
            return Err(told(store, &first, &second, &both));
        }
        let methods = [first.call[0], second.call[0]];
        *self.agreed.entry((methods[0].min(methods[1]), methods[0].max(methods[1]))).or_default() += 1;
        let to_the_word =
            names_only_those(records, &first, one.own()) && names_only_those(records, &second, other.own());
        self.met += u64::from(to_the_word);
        if methods == [3, 3] && both.there.0[0] == 0 && both.there.1[0] == 0 {
            self.closes += 1;
            let neighbours = wants.iter().any(|key| others_wants.iter().any(|near| near >> 16 == key >> 16));
            self.close_by += u64::from(neighbours);
        }
        Ok(())
    }

    /// Whether all 36 pairs of methods were met, and enough pairs of closes that are done, some of them over one closed
    /// session.
    pub fn are_enough(&self) -> bool {
        self.agreed.len() == 36 && self.closes * 120 > self.met && self.close_by * 1200 > self.met
    }
}

impl fmt::Display for Orders {
    fn fmt(&self, f: &mut fmt::Formatter) -> fmt::Result {
        let agreed: u64 = self.agreed.values().sum();
        writeln!(f, "{} pairs of calls meet the premises and agree in both orders;", self.met)?;
        writeln!(f, "{} more that name a handle of nothing or of a third session agree too", agreed - self.met)?;
        writeln!(f, "left out: {} over the premises on names and keys, {} over status 2", self.outside, self.full)?;
        writeln!(f, "{} of the 36 pairs of methods; both closes done in {} pairs,", self.agreed.len(), self.closes)?;
        writeln!(f, "with pendings on keys of one closed session in {}", self.close_by)
    }
}

fn told(store: &[u8], first: &Built, second: &Built, both: &Both) -> String {
    let call = |name: &str, built: &Built| format!("{name} {}\n  chip {}\n", hex(&built.call), hex(&built.chip));
    let order = |name: &str, order: &([u8; 37], [u8; 37], Vec<u8>)| {
        format!("{name}\n  first {}\n  second {}\n  store {}\n", hex(&order.0), hex(&order.1), store_text(&order.2))
    };
    format!(
        "store {}\n{}{}{}{}",
        store_text(store),
        call("first", first),
        call("second", second),
        order("first before second:", &both.there),
        order("second before first:", &both.back)
    )
}

// ---- the second half

/// What came of the trials of the second half.
#[derive(Default)]
pub struct Stands {
    /// Histories that begin with two sessions that hold one key.
    pub histories: u64,
    /// Those in which one of them closed with status 0 while both still held it.
    pub met: u64,
    /// How later closes of the other were answered.
    pub later: BTreeMap<u8, u64>,
}

/// How long a history is.
const STEPS: usize = 30;

/// Runs histories until so many meet the premise. A second close that is done is told in hex.
pub fn first_close_stands(implementation: Implementation, seed: u64, histories: u64) -> Result<Stands, String> {
    let mut author = Author { random: Random::new(seed) };
    let mut found = Stands::default();
    while found.met < histories {
        let count = author.random.between(6, 24);
        let mut store = random_store(&mut author.random, count);
        if let Some(rivals) = records(&store).and_then(two_rivals) {
            found.histories += 1;
            found.follow(implementation, &mut author, &mut store, &rivals)?;
        }
    }
    Ok(found)
}

/// Two open sessions that hold one key, as they stand in the store.
fn two_rivals(records: &[Record]) -> Option<[Record; 2]> {
    let open = sessions(records, session::OPEN);
    open.iter().enumerate().find_map(|(place, one)| {
        let other = open[place + 1..].iter().find(|other| are_rivals(records, one, other));
        other.map(|other| [*one, *other])
    })
}

fn are_rivals(records: &[Record], one: &Record, other: &Record) -> bool {
    share_a_key(&held(records, one.own()), &held(records, other.own()))
}

impl Stands {
    fn follow(
        &mut self,
        implementation: Implementation,
        author: &mut Author,
        store: &mut [u8],
        rivals: &[Record; 2],
    ) -> Result<(), String> {
        let mut closed = None;
        for step in 0..=STEPS {
            let found = records(store).unwrap_or(&[]);
            let both_hold = are_rivals(found, &rivals[0], &rivals[1]);
            let built = if step == STEPS || author.random.percent(25) {
                let rival = rivals[closed.map_or_else(|| author.random.below(2), |first: usize| 1 - first)];
                // A session that is gone is asked to close as it stood at the start.
                let open = sessions(found, session::OPEN).into_iter().find(|session| session.own() == rival.own());
                author.close(found, &open.unwrap_or(rival)).built
            } else {
                author.order(found).built
            };
            let before = store_text(store);
            let status = run(implementation, store, &built)[0];
            let is_close = |rival: &Record| built.call.first() == Some(&3) && is_on(&built, rival.own());
            let Some(rival) = rivals.iter().position(is_close) else {
                continue;
            };
            match closed {
                None if status == 0 => {
                    closed = Some(rival);
                    self.met += u64::from(both_hold);
                }
                Some(first) if first != rival => {
                    *self.later.entry(status).or_default() += 1;
                    if status == 0 {
                        return Err(format!("both closed: store {before}\nthe second close {}\n", hex(&built.call)));
                    }
                }
                _ => {}
            }
        }
        Ok(())
    }

    /// Whether the premise was met often enough among the histories, and often by closes that are refused for what
    /// the first one did.
    pub fn are_enough(&self) -> bool {
        self.met * 10 > self.histories && self.later.get(&6).is_some_and(|&refused| refused * 5 > self.met)
    }
}

impl fmt::Display for Stands {
    fn fmt(&self, f: &mut fmt::Formatter) -> fmt::Result {
        write!(f, "{} of {} histories: one session closed while both held one key", self.met, self.histories)?;
        let later: Vec<String> = self.later.iter().map(|(status, count)| format!("{count} with {status}")).collect();
        writeln!(f, "; later closes of the other answered {}", later.join(", "))
    }
}
