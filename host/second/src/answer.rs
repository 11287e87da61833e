//! The two entry points: the order of the numbers, what a refusal leaves behind, and the reply.

use crate::calls::{self, Call, Method};
use crate::closing;
use crate::methods;
use crate::records::{counter, find_session, kind, pending, records_mut, session, Fields, Record, FREE};
use crate::soundness::sound;

/// Bytes of a reply: the status, a handle of 4 bytes, an attestation of 32. Bytes behind them stay as they are.
pub const REPLY: usize = 37;

/// The numbers the caller sees.
#[derive(Clone, Copy, Debug, PartialEq, Eq)]
pub enum Status {
    /// Done.
    Done = 0,
    /// PIN or PUK locked or wrong.
    Authorization = 1,
    /// No free record, or session or object numbers used up.
    Full = 2,
    /// The MAC differs.
    Mac = 3,
    /// The chip byte is 0: the signature did not verify.
    Signature = 4,
    /// No open session of that handle.
    NoSession = 5,
    /// The session is not fit to close.
    NotFit = 6,
    /// No such key.
    NoKey = 7,
    /// An unknown algorithm.
    Algorithm = 8,
    /// Method, length or field form.
    Form = 16,
    /// A value out of its range, or at odds with what stands in the store.
    NotAllowed = 17,
    /// The store is unsound, or has a wrong length for format.
    Unsound = 19,
    /// Unlock or use finds a parent missing.
    ParentMissing = 20,
    /// The reply is too short.
    ShortReply = 21,
}

/// What a call that was done hands back: the handle of what it made, or 0, and an attestation, or zeros.
#[allow(missing_docs)]
#[derive(Clone, Copy, Debug, PartialEq, Eq)]
pub struct Made {
    pub handle: u32,
    pub attestation: [u8; 32],
}

impl Made {
    /// Neither handle nor attestation.
    pub fn nothing() -> Made {
        Made { handle: 0, attestation: [0; 32] }
    }
    /// A handle alone.
    pub fn handle(handle: u32) -> Made {
        Made { handle, ..Made::nothing() }
    }
    /// An attestation alone.
    pub fn attestation(attestation: [u8; 32]) -> Made {
        Made { attestation, ..Made::nothing() }
    }
}

/// What a call comes to.
pub type Outcome = Result<Made, Status>;

/// Makes a fresh store, whatever stood there: the counter at 1 in the first place, all else free. Returns 0, or 19
/// and leaves the bytes alone if their length does not fit.
pub fn format(store: &mut [u8]) -> u8 {
    let Some(records) = records_mut(store) else {
        return Status::Unsound as u8;
    };
    records.fill(FREE);
    records[0][0] = kind::COUNTER;
    records[0].set_int(counter::NEXT_SESSION, 1);
    Status::Done as u8
}

/// Takes one call with its chip bytes, changes the store, writes the reply and returns the status.
///
/// The order of refusals is 21, 19, 16 (method known, call length), 5 (session calls), 16 (the rest, and chip bytes),
/// 8, 7, 17, 20, 1, 3, 4, 6, 2. The first four stand here, the others in `methods`.
pub fn call(store: &mut [u8], call: &[u8], chip: &[u8], reply: &mut [u8]) -> u8 {
    call_with(sound, store, call, chip, reply)
}

/// The same with another test of soundness, which has to say the same of every store: to time it beside this one.
pub fn call_with(sound: fn(&[u8]) -> bool, store: &mut [u8], call: &[u8], chip: &[u8], reply: &mut [u8]) -> u8 {
    let Some(reply) = reply.first_chunk_mut::<REPLY>() else {
        return Status::ShortReply as u8;
    };
    let outcome = decide(sound, store, call, chip);
    write(reply, outcome)
}

fn decide(sound: fn(&[u8]) -> bool, store: &mut [u8], call: &[u8], chip: &[u8]) -> Outcome {
    if !sound(store) {
        return Err(Status::Unsound);
    }
    let records = records_mut(store).ok_or(Status::Unsound)?;
    let method = Method::of_call(call).ok_or(Status::Form)?;
    if method.is_on_session() {
        on_session(records, method, call, chip)
    } else {
        on_no_session(records, method, call, chip)
    }
}

/// A session call. Refused for want of an open session it changes nothing; refused for any other reason it removes
/// its session with all its records, and no other record.
fn on_session(records: &mut [Record], method: Method, call: &[u8], chip: &[u8]) -> Outcome {
    let handle = calls::session_handle(call);
    let at = find_session(records, handle, session::OPEN).ok_or(Status::NoSession)?;
    let outcome = match calls::decode(method, call, chip) {
        Some(Call::Close(call)) => methods::close(records, at, &call),
        Some(Call::Abort) => methods::abort(records, at),
        Some(Call::CreatePuk(call)) => methods::create_puk(records, at, &call),
        Some(Call::CreatePinPolicy(call)) => methods::create_pin_policy(records, at, &call),
        Some(Call::CreateKey(call)) => methods::create_key(records, at, &call),
        Some(Call::SetPath(call)) => methods::set_path(records, at, &call),
        Some(Call::PostDelete(call)) => methods::post(records, at, &call, pending::DELETE),
        Some(Call::PostUnlock(call)) => methods::post(records, at, &call, pending::UNLOCK),
        _ => Err(Status::Form),
    };
    if outcome.is_err() {
        closing::remove_session(records, handle);
    }
    outcome
}

/// Method 2 or a user call. Refused it changes nothing, but for the count of a wrong PIN or PUK.
fn on_no_session(records: &mut [Record], method: Method, call: &[u8], chip: &[u8]) -> Outcome {
    match calls::decode(method, call, chip) {
        Some(Call::CreateSession(call)) => methods::create_session(records, &call),
        Some(Call::Delete { key, authorization }) => methods::delete(records, key, authorization),
        Some(Call::Unlock { key, puk }) => methods::unlock(records, key, puk),
        Some(Call::ChangePin { key, pin, new_pin }) => methods::change_pin(records, key, pin, new_pin),
        Some(Call::Use { key, pin }) => methods::use_key(records, key, pin),
        _ => Err(Status::Form),
    }
}

/// Writes the 37 bytes and returns the status that stands in them.
fn write(reply: &mut [u8; REPLY], outcome: Outcome) -> u8 {
    let (status, made) = match outcome {
        Ok(made) => (Status::Done, made),
        Err(status) => (status, Made::nothing()),
    };
    reply[0] = status as u8;
    reply[1..5].copy_from_slice(&made.handle.to_be_bytes());
    reply[5..].copy_from_slice(&made.attestation);
    status as u8
}
