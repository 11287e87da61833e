//! `orders_built [CALLS [SEED]]`: the orders of random histories, as they were before anything was spoilt, through the
//! proved library of the issuer and the proved store.
//!
//! Each is built by `builder` and by the library, byte for byte alike; one out of range is refused with 16. Each call is
//! then sent to the store as it stood. Where the store has the session at that key and counter, and behind the handles what
//! the order says, it never answers 3. The attestation of a call that was done is right, and is not with one bit changed
//! or at the next counter. The run fails with the case in hex where one of these is broken, and if a method was too seldom
//! met in one of these ways.

use builder::Issuer;
use differ::{hold, session};
use second::calls::{decode, Method, LONGEST};
use second::records::{key, policy, records, session as place, Fields, Record};
use std::collections::BTreeMap;
use std::fmt::Write;
use std::process::ExitCode;
use trials::histories::{History, Step};
use trials::notation::{hex, store_text};
use trials::ordered::Ordered;

const USAGE: &str = "usage: orders_built [CALLS [SEED]], the orders among 100000 calls of seed 1 if not given";

fn main() -> ExitCode {
    let arguments: Result<Vec<u64>, _> = std::env::args().skip(1).map(|word| word.parse()).collect();
    let (calls, seed) = match arguments.as_deref() {
        Ok([]) => (100_000, 1),
        Ok(&[calls]) => (calls, 1),
        Ok(&[calls, seed]) => (calls, seed),
        _ => {
            eprintln!("{USAGE}");
            return ExitCode::from(2);
        }
    };
    let mut met = Met::default();
    let told = History::new(seed, 40).take(calls as usize).try_for_each(|step| met.add(&step));
    let text = met.text();
    match told.and_then(|()| if met.is_enough() { Ok(()) } else { Err("some of these were too seldom met\n".into()) }) {
        Ok(()) => {
            print!("{text}");
            ExitCode::SUCCESS
        }
        Err(told) => {
            print!("{text}{told}");
            ExitCode::FAILURE
        }
    }
}

/// What was met, by method.
#[derive(Default)]
struct Met {
    counts: BTreeMap<u8, Counts>,
}

#[derive(Default)]
struct Counts {
    /// Orders for which the types of `issuer` have no word, as a bool of 2.
    unsayable: u64,
    refused: u64,
    built: u64,
    /// Calls that were sent where the store has what the order says.
    named: u64,
    /// Calls that were sent elsewhere, and were answered with 3.
    mac: u64,
    done: u64,
    attested: u64,
}

impl Met {
    fn add(&mut self, step: &Step) -> Result<(), String> {
        let Some((issuer, ordered)) = &step.ordered else {
            return Ok(());
        };
        let built = ordered.build(issuer);
        let counts = self.counts.entry(built.call[0]).or_default();
        let in_range = is_in_range(issuer, ordered, &built.call);
        if !hold(issuer, ordered, in_range)? {
            counts.unsayable += 1;
            return Ok(());
        }
        if !in_range {
            counts.refused += 1;
            return Ok(());
        }
        counts.built += 1;
        let reply = sks::ask(&mut step.before.clone(), &built.call, &built.chip);
        let is_named = records(&step.before).is_some_and(|records| names_what_is_there(records, issuer, ordered));
        counts.named += u64::from(is_named);
        match reply.status.0 {
            3 if is_named => {
                let (store, call, chip) = (store_text(&step.before), hex(&built.call), hex(&built.chip));
                return Err(format!("answered with 3: store {store}\ncall {call}\nchip {chip}\n"));
            }
            3 => counts.mac += 1,
            0 => {
                counts.done += 1;
                counts.attested += u64::from(is_attested(issuer, ordered, &reply.attestation)?);
            }
            _ => {}
        }
        Ok(())
    }

    /// Whether each of the seven methods was met in every way: refused, built, sent where it belongs, done; answered with 3
    /// where the order has a wrong name; attested where it is.
    fn is_enough(&self) -> bool {
        let is_met = |(method, counts): (&u8, &Counts)| {
            let ways = [counts.refused, counts.built, counts.named, counts.done];
            ways.iter().all(|&count| count > 0)
                && (counts.mac > 0 || matches!(method, 8 | 50 | 51))
                && (counts.attested > 0 || !matches!(method, 3 | 10))
        };
        self.counts.len() == 7 && self.counts.iter().all(is_met)
    }

    fn text(&self) -> String {
        let mut text = String::from(
            "method  refused 16  built alike  sent to what it names: never 3     done  attested  elsewhere: 3  no word for it\n",
        );
        for (method, counts) in &self.counts {
            let Counts { unsayable, refused, built, named, done, mac, attested } = counts;
            let _ = writeln!(
                text,
                "{method:>6}{refused:>12}{built:>13}{named:>33}{done:>9}{attested:>10}{mac:>14}{unsayable:>16}"
            );
        }
        text
    }
}

/// Whether an order is in range: the second implementation finds the form in its call, whatever the chip bytes, the counter
/// has room, and what the call does not carry has its form too.
fn is_in_range(issuer: &Issuer, ordered: &Ordered, call: &[u8]) -> bool {
    let is_id = |id: &[u8]| (1..=32).contains(&id.len()) && id.iter().all(|byte| (0x21..=0x7e).contains(byte));
    let (uses, names, chip): (_, _, &[u8]) = match ordered {
        Ordered::Close(close) => (2, is_id(&close.client_session_id), b""),
        Ordered::Puk(_) => (1, true, b"1"),
        Ordered::Policy(new) => (1, new.puk == 0 || is_id(&new.puk_id), b""),
        Ordered::Key(new) => (2, new.policy == 0 || is_id(&new.policy_id), b"\0\x01k\0\0"),
        Ordered::Path(path) => (1, is_id(&path.key_id) && (1..=96).contains(&path.public_key.len()), b""),
        Ordered::Post(_) => (1, true, b"\x01"),
    };
    let has_form =
        call.len() <= LONGEST && Method::of_call(call).is_some_and(|method| decode(method, call, chip).is_some());
    has_form && names && u32::from(issuer.counter) + uses <= 65_535
}

/// Whether the store has the session at that key and counter, and behind the handles what the order says.
fn names_what_is_there(records: &[Record], issuer: &Issuer, ordered: &Ordered) -> bool {
    let is_session = |record: &&Record| {
        record.kind() == 1
            && record.own() == issuer.session
            && record[place::STATE] == place::OPEN
            && record[place::SESSION_KEY..place::MAC_COUNTER] == issuer.session_key
            && record.short(place::MAC_COUNTER) == issuer.counter
    };
    let object = |kind, handle, id: &[u8]| {
        let is_it =
            |record: &&Record| record.kind() == kind && record.own() == handle && record.session() == issuer.session;
        records.iter().find(is_it).filter(|record| record.id() == id)
    };
    let Some(session) = records.iter().find(is_session) else {
        return false;
    };
    match ordered {
        Ordered::Close(close) => session.text(place::CLIENT_SESSION_ID, 32) == close.client_session_id,
        Ordered::Policy(new) => new.puk == 0 || object(2, new.puk, &new.puk_id).is_some(),
        Ordered::Key(new) => {
            let is_set_as_told = |policy: &Record| (policy[policy::USER_DEFINED] == 1) == new.pin_in_data.is_none();
            new.policy == 0 || object(3, new.policy, &new.policy_id).is_some_and(is_set_as_told)
        }
        Ordered::Path(path) => {
            object(4, path.key, &path.key_id).is_some_and(|key| key.text(key::PUBLIC_KEY, 96) == path.public_key)
        }
        Ordered::Puk(_) | Ordered::Post(_) => true,
    }
}

/// Whether the reply has an attestation; one that is not as it should be is told.
fn is_attested(issuer: &Issuer, ordered: &Ordered, attestation: &[u8; 32]) -> Result<bool, String> {
    let now = session(issuer);
    let next = session(&Issuer { counter: issuer.counter + 1, ..issuer.clone() });
    let check = |session: &issuer::Session, attestation: &[u8; 32]| match ordered {
        Ordered::Close(close) => Some(session.check_close(&close.nonce, attestation)),
        Ordered::Key(new) => Some(session.check_key(&new.id, &new.public_key, attestation)),
        _ => None,
    };
    let mut other = *attestation;
    // Some bit, another in each call.
    let bit = usize::from(attestation[0]);
    other[bit / 8] ^= 1 << (bit % 8);
    match [check(&now, attestation), check(&now, &other), check(&next, attestation)] {
        [None, ..] => Ok(false),
        [Some(true), Some(false), Some(false)] => Ok(true),
        told => Err(format!("{issuer:?} orders {ordered:?}\nthe attestation {}: {told:?}\n", hex(attestation))),
    }
}
