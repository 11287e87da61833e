//! What each method checks and changes.
//!
//! Each function checks in the paper's order of numbers and changes the store only when nothing is left to refuse; the
//! counting of a wrong PIN or PUK is the one exception. What a refusal of a session call does to its session
//! stands in `answer`, in one place.

use crate::answer::{Made, Outcome, Status};
use crate::calls::{Close, CreateKey, CreatePinPolicy, CreatePuk, CreateSession, Post, SetPath};
use crate::closing;
use crate::mac;
use crate::pin::{self, Try};
use crate::records::*;
use crate::sha256::sha256;

const SESSION_ALGORITHM: &[u8] = b"http://xmlns.webpki.org/sks/algorithm#session.1";
const KEY_ENTRY_ALGORITHM: &[u8] = b"http://xmlns.webpki.org/sks/algorithm#key.1";
const P_256: &[u8] = b"urn:oid:1.2.840.10045.3.1.7";

/// A refusal with this number unless the condition holds.
fn unless(holds: bool, otherwise: Status) -> Result<(), Status> {
    if holds {
        Ok(())
    } else {
        Err(otherwise)
    }
}

// ---- method 2

/// createProvisioningSession. An algorithm other than session.1 is 8; a SessionKeyLimit of 0, or a ClientSessionID that
/// some session in the store has, is 17; no free record, or no session number left, is 2. The counter moves only when
/// the session is made. The KeyManagementKey itself is the chip's; the store keeps whether one was given.
pub fn create_session(records: &mut [Record], call: &CreateSession) -> Outcome {
    unless(call.session_key_algorithm == SESSION_ALGORITHM, Status::Algorithm)?;
    let is_taken = records.iter().any(|record| {
        record.kind() == kind::SESSION && record.text(session::CLIENT_SESSION_ID, LONGEST_ID) == call.client_session_id
    });
    unless(call.session_key_limit != 0 && !is_taken, Status::NotAllowed)?;
    let counter_place = find_counter(records).ok_or(Status::Unsound)?;
    let number = records[counter_place].int(counter::NEXT_SESSION);
    let place = lowest_free(records).filter(|_| number <= LAST_SESSION).ok_or(Status::Full)?;

    let own = handle(number, 0);
    let mut record = new_record(kind::SESSION, own, own, 0, call.server_session_id);
    record[session::STATE] = session::OPEN;
    record.set_short(session::NEXT_OBJECT, 1);
    record.set_text(session::CLIENT_SESSION_ID, LONGEST_ID, call.client_session_id);
    record[session::SESSION_KEY..session::MAC_COUNTER].copy_from_slice(call.session_key);
    record.set_short(session::SESSION_KEY_LIMIT, call.session_key_limit);
    record[session::PRIVACY_ENABLED] = u8::from(call.privacy_enabled);
    record[session::HAS_KEY_MANAGEMENT_KEY] = u8::from(!call.key_management_key.is_empty());
    record.set_int(session::CLIENT_TIME, call.client_time);
    record.set_int(session::SESSION_LIFE_TIME, call.session_life_time);
    records[place] = record;
    records[counter_place].set_int(counter::NEXT_SESSION, number + 1);
    Ok(Made::handle(own))
}

// ---- session calls: `at` is the place of the open session

/// closeProvisioningSession. The counter is used twice, for the MAC and for the attestation that answers it: no room for
/// both is 17. A wrong MAC is 3; a session that is not fit to close is 6. The attestation is given also where the
/// session goes because it has no key.
pub fn close(records: &mut [Record], at: usize, call: &Close) -> Outcome {
    let session = records[at];
    unless(mac::has_room(&session, 2), Status::NotAllowed)?;
    unless(mac::equal(&mac::of_close(&session, call), call.mac), Status::Mac)?;
    unless(closing::may_close(records, session.own()), Status::NotFit)?;

    let attestation = mac::attest_close(&session, call.nonce);
    mac::count(&mut records[at], 2);
    closing::close(records, at);
    Ok(Made::attestation(attestation))
}

/// abortProvisioningSession. The session and all its records are gone; the counter is not used and no MAC asked for.
pub fn abort(records: &mut [Record], at: usize) -> Outcome {
    closing::remove_session(records, records[at].own());
    Ok(Made::nothing())
}

/// createPUKPolicy. 17: an ID taken, a format above 3, a value that does not have its format, no room for a use of the
/// counter. A retry limit of 0 is allowed and means no limit.
pub fn create_puk(records: &mut [Record], at: usize, call: &CreatePuk) -> Outcome {
    let session = records[at];
    let allowed = !is_id_taken(records, &session, call.id)
        && call.format <= 3
        && pin::has_format(call.value, call.format)
        && mac::has_room(&session, 1);
    unless(allowed, Status::NotAllowed)?;
    unless(mac::equal(&mac::of_puk(&session, call), call.mac), Status::Mac)?;
    let room = room_for_object(records, &session)?;

    let mut record = new_record(kind::PUK, room.handle, session.own(), 0, call.id);
    record[puk::FORMAT] = call.format;
    record[puk::RETRY_LIMIT] = call.retry_limit;
    record.set_text(puk::VALUE, LONGEST_PIN, call.value);
    put_object(records, at, &room, record, 1);
    Ok(Made::handle(room.handle))
}

/// createPINPolicy. 17: an ID taken; a PUK handle, not 0, that is no PUK of this session; a format above 3, grouping
/// above 1, patterns above 7, InputMethod not 0; a retry limit of 0; not 1 ≤ min ≤ max ≤ 16; no room for a use of the
/// counter. InputMethod stands in the MAC but is not kept.
pub fn create_pin_policy(records: &mut [Record], at: usize, call: &CreatePinPolicy) -> Outcome {
    let session = records[at];
    let puk = find_in_session(records, kind::PUK, call.puk, session.own());
    let allowed = !is_id_taken(records, &session, call.id)
        && (call.puk == 0 || puk.is_some())
        && call.format <= 3
        && call.retry_limit != 0
        && call.grouping <= 1
        && call.patterns <= 7
        && 1 <= call.min
        && call.min <= call.max
        && usize::from(call.max) <= LONGEST_PIN
        && call.input_method == 0
        && mac::has_room(&session, 1);
    unless(allowed, Status::NotAllowed)?;
    let expected = mac::of_pin_policy(&session, call, puk.map(|place| &records[place]));
    unless(mac::equal(&expected, call.mac), Status::Mac)?;
    let room = room_for_object(records, &session)?;

    let mut record = new_record(kind::PIN_POLICY, room.handle, session.own(), call.puk, call.id);
    record[policy::FORMAT] = call.format;
    record[policy::RETRY_LIMIT] = call.retry_limit;
    record[policy::GROUPING] = call.grouping;
    record[policy::USER_DEFINED] = u8::from(call.user_defined);
    record[policy::USER_MODIFIABLE] = u8::from(call.user_modifiable);
    record[policy::PATTERNS] = call.patterns;
    record[policy::MIN] = call.min;
    record[policy::MAX] = call.max;
    put_object(records, at, &room, record, 1);
    Ok(Made::handle(room.handle))
}

/// createKeyEntry. An algorithm other than the one of each kind, or EndorsedAlgorithms not 0, is 8. 17: an ID taken; a
/// policy handle, not 0, that is no PIN policy of this session; BiometricProtection not 0, ExportProtection above 3; a
/// DeleteProtection that is out of range or has nothing to ask for; KeyParameters not empty; a PIN that does not belong
/// or does not obey; no room for two uses of the counter, one for the MAC and one for the attestation.
pub fn create_key(records: &mut [Record], at: usize, call: &CreateKey) -> Outcome {
    let algorithms =
        call.key_entry_algorithm == KEY_ENTRY_ALGORITHM && call.key_algorithm == P_256 && call.endorsed_algorithms == 0;
    unless(algorithms, Status::Algorithm)?;

    let session = records[at];
    let policy =
        find_in_session(records, kind::PIN_POLICY, call.pin_policy, session.own()).map(|place| &records[place]);
    let allowed = !is_id_taken(records, &session, call.id)
        && (call.pin_policy == 0 || policy.is_some())
        && call.biometric_protection == 0
        && call.export_protection <= 3
        && is_delete_protection_possible(call.delete_protection, policy)
        && call.key_parameters.is_empty()
        && is_pin_allowed(records, call, policy)
        && mac::has_room(&session, 2);
    unless(allowed, Status::NotAllowed)?;
    unless(mac::equal(&mac::of_key(&session, call, policy), call.mac), Status::Mac)?;
    let room = room_for_object(records, &session)?;

    let mut record = new_record(kind::KEY, room.handle, session.own(), call.pin_policy, call.id);
    record[key::DELETE_PROTECTION] = call.delete_protection;
    record.set_text(key::PIN, LONGEST_PIN, chosen_pin(call, policy));
    record.set_text(key::PUBLIC_KEY, LONGEST_PUBLIC_KEY, call.public_key);
    record[key::ENABLE_PIN_CACHING] = u8::from(call.enable_pin_caching);
    record[key::EXPORT_PROTECTION] = call.export_protection;
    record[key::APP_USAGE] = call.app_usage;
    let attestation = mac::attest_key(&session, call.id, call.public_key);
    put_object(records, at, &room, record, 2);
    Ok(Made { handle: room.handle, attestation })
}

/// DeleteProtection goes up to 3; 1 needs a PIN, 2 a PUK.
fn is_delete_protection_possible(protection: u8, policy: Option<&Record>) -> bool {
    match protection {
        0 | 3 => true,
        1 => policy.is_some(),
        2 => policy.is_some_and(|policy| policy.parent() != 0),
        _ => false,
    }
}

/// The PIN of a new key: none without policy; a part of the call if the user defines it; else a part of the chip
/// bytes, where the issuer's value was opened.
fn chosen_pin<'a>(call: &CreateKey<'a>, policy: Option<&Record>) -> &'a [u8] {
    match policy {
        None => &[],
        Some(policy) if policy[policy::USER_DEFINED] == 1 => call.pin_value,
        Some(_) => call.opened_pin,
    }
}

/// A PIN or PINValue is not given where none belongs, an issuer-set PINValue is not empty, the PIN obeys its policy,
/// and under grouping 1 it is that of the policy's other keys.
fn is_pin_allowed(records: &[Record], call: &CreateKey, policy: Option<&Record>) -> bool {
    let Some(policy) = policy else {
        return call.pin_value.is_empty() && call.opened_pin.is_empty();
    };
    let given_rightly =
        if policy[policy::USER_DEFINED] == 1 { call.opened_pin.is_empty() } else { !call.pin_value.is_empty() };
    let pin = chosen_pin(call, Some(policy));
    let like_the_others = policy[policy::GROUPING] != policy::SHARED
        || records
            .iter()
            .filter(|record| record.is_key_under(policy.own()))
            .all(|other| other.text(key::PIN, LONGEST_PIN) == pin);
    given_rightly && pin::obeys(pin, policy) && like_the_others
}

/// setCertificatePath. A handle that is no key of this session is 7; a path set before, or no room for a use of the
/// counter, is 17. Of the path the key keeps the SHA-256 of the end-entity certificate, which is the first.
pub fn set_path(records: &mut [Record], at: usize, call: &SetPath) -> Outcome {
    let session = records[at];
    let place = find_in_session(records, kind::KEY, call.key, session.own()).ok_or(Status::NoKey)?;
    let allowed = records[place][key::HAS_PATH] == 0 && mac::has_room(&session, 1);
    unless(allowed, Status::NotAllowed)?;
    unless(mac::equal(&mac::of_path(&session, call, &records[place]), call.mac), Status::Mac)?;

    records[place][key::HAS_PATH] = 1;
    records[place][key::CERTIFICATE_DIGEST..key::ENABLE_PIN_CACHING].copy_from_slice(&sha256(call.end_entity));
    mac::count(&mut records[at], 1);
    Ok(Made::nothing())
}

/// postDeleteKey and postUnlockKey; `operation` is the method's number, which the pending keeps. A handle that is no key
/// of a closed session is 7. 17: a target whose session was given no KeyManagementKey, or that this session has
/// an unstale pending on, of either kind; for 51 a target without PIN; no room for a use of the counter. A wrong MAC is
/// 3, a signature that did not verify is 4. The target's DeleteProtection plays no part, and a stale pending is neither
/// in the way nor revived.
pub fn post(records: &mut [Record], at: usize, call: &Post, operation: u8) -> Outcome {
    let session = records[at];
    let target = find_key(records, call.key)?;
    let owner = find(records, kind::SESSION, records[target].session());
    let is_manageable = owner.is_some_and(|place| records[place][session::HAS_KEY_MANAGEMENT_KEY] == 1);
    let is_pending = records.iter().any(|record| {
        record.kind() == kind::PENDING
            && record.session() == session.own()
            && record[pending::STALE] == 0
            && record.parent() == call.key
    });
    let allowed = is_manageable
        && !is_pending
        && (operation != pending::UNLOCK || records[target].parent() != 0)
        && mac::has_room(&session, 1);
    unless(allowed, Status::NotAllowed)?;
    unless(mac::equal(&mac::of_post(&session, call, operation), call.mac), Status::Mac)?;
    unless(call.verified, Status::Signature)?;
    let room = room_for_object(records, &session)?;

    let mut record = new_record(kind::PENDING, room.handle, session.own(), call.key, &[]);
    record[pending::OPERATION] = operation;
    put_object(records, at, &room, record, 1);
    Ok(Made::nothing())
}

/// Whether an object of the session has that ID. PUKs, PIN policies and keys share one space of names.
fn is_id_taken(records: &[Record], session: &Record, id: &[u8]) -> bool {
    records.iter().any(|record| record.is_named_object() && record.session() == session.own() && record.id() == id)
}

/// Where a new object goes and what handle it gets.
struct Room {
    place: usize,
    handle: u32,
}

/// Room for one more object of the session: a free record and an object number, or status 2.
fn room_for_object(records: &[Record], session: &Record) -> Result<Room, Status> {
    let number = session.short(session::NEXT_OBJECT);
    let place = lowest_free(records).filter(|_| number <= LAST_OBJECT).ok_or(Status::Full)?;
    Ok(Room { place, handle: session.own() + u32::from(number) })
}

/// Puts the new object in its place and moves the session's two numbers.
fn put_object(records: &mut [Record], at: usize, room: &Room, record: Record, uses: u16) {
    records[room.place] = record;
    let next = records[at].short(session::NEXT_OBJECT) + 1;
    records[at].set_short(session::NEXT_OBJECT, next);
    mac::count(&mut records[at], uses);
}

// ---- user calls

/// A key that users and other sessions can name: one of a closed session. Else status 7.
fn find_key(records: &[Record], handle: u32) -> Result<usize, Status> {
    find(records, kind::KEY, handle)
        .filter(|&place| find_session(records, records[place].session(), session::CLOSED).is_some())
        .ok_or(Status::NoKey)
}

/// What protects a key: the place of its PIN policy and that of its PUK, as far as it has them.
struct Protection {
    policy: Option<usize>,
    puk: Option<usize>,
}

/// The protection of a key. A parent that is named and missing is status 20. No sound store can meet it, and unsound ones
/// are refused before, so it does not matter that it stands before some 17 here.
fn protection(records: &[Record], place: usize) -> Result<Protection, Status> {
    let named = |kind, handle| match handle {
        0 => Ok(None),
        _ => find(records, kind, handle).map(Some).ok_or(Status::ParentMissing),
    };
    let policy = named(kind::PIN_POLICY, records[place].parent())?;
    let puk = match policy {
        Some(policy) => named(kind::PUK, records[policy].parent())?,
        None => None,
    };
    Ok(Protection { policy, puk })
}

/// A try at a key's PIN; its count moves. Locked or wrong is status 1.
fn try_pin(records: &mut [Record], place: usize, policy: usize, typed: &[u8]) -> Result<(), Status> {
    let limit = records[policy][policy::RETRY_LIMIT];
    let key = &mut records[place];
    let tried = pin::attempt(typed, key.text(key::PIN, LONGEST_PIN), key[key::ERRORS], limit);
    settle(&mut key[key::ERRORS], tried)
}

/// A try at a PUK; its count moves. Locked or wrong is status 1.
fn try_puk(records: &mut [Record], puk: usize, typed: &[u8]) -> Result<(), Status> {
    let record = &mut records[puk];
    let tried =
        pin::attempt(typed, record.text(puk::VALUE, LONGEST_PIN), record[puk::ERRORS], record[puk::RETRY_LIMIT]);
    settle(&mut record[puk::ERRORS], tried)
}

fn settle(errors: &mut u8, tried: Try) -> Result<(), Status> {
    match tried {
        Try::Locked => Err(Status::Authorization),
        Try::Wrong(count) => {
            *errors = count;
            Err(Status::Authorization)
        }
        Try::Right => {
            *errors = 0;
            Ok(())
        }
    }
}

/// deleteKey. DeleteProtection 0 asks for no value, and one given is status 1, be it the right PIN; 1 asks for the PIN, 2
/// for the PUK; 3 keeps the key from being deleted by its user (17).
pub fn delete(records: &mut [Record], handle: u32, authorization: &[u8]) -> Outcome {
    let place = find_key(records, handle)?;
    let by = protection(records, place)?;
    match (records[place][key::DELETE_PROTECTION], by.policy, by.puk) {
        (0, _, _) => unless(authorization.is_empty(), Status::Authorization)?,
        (1, Some(policy), _) => try_pin(records, place, policy, authorization)?,
        (2, _, Some(puk)) => try_puk(records, puk, authorization)?,
        _ => return Err(Status::NotAllowed),
    }
    closing::remove_key(records, place);
    Ok(Made::nothing())
}

/// unlockKey. A key without PUK is 17. The right PUK also clears the key's count.
pub fn unlock(records: &mut [Record], handle: u32, typed: &[u8]) -> Outcome {
    let place = find_key(records, handle)?;
    let puk = protection(records, place)?.puk.ok_or(Status::NotAllowed)?;
    try_puk(records, puk, typed)?;
    closing::unlock_key(records, place);
    Ok(Made::nothing())
}

/// changePIN. 17: a key without PIN, a policy with UserModifiable 0, a new PIN that breaks the policy; this is said before
/// the old PIN is tried, so an unfit new one costs no try. Under grouping 1 every key of the policy is given the new PIN,
/// and the pendings on each become stale, but each keeps its own count.
pub fn change_pin(records: &mut [Record], handle: u32, typed: &[u8], new: &[u8]) -> Outcome {
    let place = find_key(records, handle)?;
    let policy_place = protection(records, place)?.policy.ok_or(Status::NotAllowed)?;
    let policy = records[policy_place];
    unless(policy[policy::USER_MODIFIABLE] == 1 && pin::obeys(new, &policy), Status::NotAllowed)?;
    try_pin(records, place, policy_place, typed)?;

    let shared = policy[policy::GROUPING] == policy::SHARED;
    for other in 0..records.len() {
        if other == place || shared && records[other].is_key_under(policy.own()) {
            records[other].set_text(key::PIN, LONGEST_PIN, new);
            closing::mark_stale(records, records[other].own());
        }
    }
    Ok(Made::nothing())
}

/// The use of a key (signHashedData in document 000; the chip signs). A key without PIN asks for no value, and one given
/// is status 1. A use makes no pending stale.
pub fn use_key(records: &mut [Record], handle: u32, typed: &[u8]) -> Outcome {
    let place = find_key(records, handle)?;
    match protection(records, place)?.policy {
        None => unless(typed.is_empty(), Status::Authorization)?,
        Some(policy) => try_pin(records, place, policy, typed)?,
    }
    Ok(Made::nothing())
}
