//! MACs and attestations.
//!
//! The HMAC key is the SessionKey, a name as plain bytes, and the session's counter, joined. Each use moves the counter
//! by one. Data is the call's fields from the ID up to the MAC, with the changes that the paper lists; strings stand in
//! it with their two-byte length.

use crate::calls::{Close, CreateKey, CreatePinPolicy, CreatePuk, Mac, Post, SetPath};
use crate::hmac::Hmac;
use crate::records::{key, pending, policy, session, Fields, Record, LONGEST_ID, LONGEST_PUBLIC_KEY};

/// Stands in the data for a policy that is not there, and for a PINValue that is not the issuer's.
pub const NOT_APPLICABLE: &[u8] = b"#N/A";
/// The name under which attestations are made.
pub const DEVICE_ATTESTATION: &[u8] = b"Device Attestation";

/// Whether the counter has room for so many more uses: it must not pass the SessionKeyLimit.
pub fn has_room(session: &Record, uses: u16) -> bool {
    let after = u32::from(session.short(session::MAC_COUNTER)) + u32::from(uses);
    after <= u32::from(session.short(session::SESSION_KEY_LIMIT))
}

/// The counter after so many uses.
pub fn count(session: &mut Record, uses: u16) {
    session.set_short(session::MAC_COUNTER, session.short(session::MAC_COUNTER).saturating_add(uses));
}

/// Whether two codes are equal. All 32 bytes are looked at, whatever the first ones say.
pub fn equal(one: &Mac, other: &Mac) -> bool {
    one.iter().zip(other).fold(0, |differs, (a, b)| differs | (a ^ b)) == 0
}

/// The MAC of a close.
pub fn of_close(session: &Record, call: &Close) -> Mac {
    let mut code = begin(session, b"closeProvisioningSession", 0);
    string(&mut code, session.text(session::CLIENT_SESSION_ID, LONGEST_ID));
    string(&mut code, call.nonce);
    code.finish()
}

/// The MAC of method 8.
pub fn of_puk(session: &Record, call: &CreatePuk) -> Mac {
    let mut code = begin(session, b"createPUKPolicy", 0);
    string(&mut code, call.id);
    string(&mut code, call.encrypted_value);
    code.update(&[call.format, call.retry_limit]);
    code.finish()
}

/// The MAC of method 9; the PUK stands in it by its ID.
pub fn of_pin_policy(session: &Record, call: &CreatePinPolicy, puk: Option<&Record>) -> Mac {
    let mut code = begin(session, b"createPINPolicy", 0);
    string(&mut code, call.id);
    string(&mut code, id_or_none(puk));
    code.update(&[
        u8::from(call.user_defined),
        u8::from(call.user_modifiable),
        call.format,
        call.retry_limit,
        call.grouping,
        call.patterns,
        call.min,
        call.max,
        call.input_method,
    ]);
    code.finish()
}

/// The MAC of method 10. The policy stands in it by its ID; PINValue stands in it only where the issuer sets the
/// PIN; EndorsedAlgorithms is left out.
pub fn of_key(session: &Record, call: &CreateKey, policy: Option<&Record>) -> Mac {
    let set_by_issuer = policy.is_some_and(|policy| policy[policy::USER_DEFINED] == 0);
    let mut code = begin(session, b"createKeyEntry", 0);
    string(&mut code, call.id);
    string(&mut code, call.key_entry_algorithm);
    string(&mut code, call.server_seed);
    string(&mut code, id_or_none(policy));
    string(&mut code, if set_by_issuer { call.pin_value } else { NOT_APPLICABLE });
    code.update(&[
        u8::from(call.enable_pin_caching),
        call.biometric_protection,
        call.export_protection,
        call.delete_protection,
        call.app_usage,
    ]);
    string(&mut code, call.friendly_name);
    string(&mut code, call.key_algorithm);
    string(&mut code, call.key_parameters);
    code.finish()
}

/// The MAC of method 12: the key's ID and public key, then the certificates as they stand in the call.
pub fn of_path(session: &Record, call: &SetPath, key: &Record) -> Mac {
    let mut code = begin(session, b"setCertificatePath", 0);
    string(&mut code, key.id());
    string(&mut code, key.text(key::PUBLIC_KEY, LONGEST_PUBLIC_KEY));
    code.update(call.certificates);
    code.finish()
}

/// The MAC of methods 50 and 51, which differ in their names.
pub fn of_post(session: &Record, call: &Post, operation: u8) -> Mac {
    let name: &[u8] = if operation == pending::DELETE { b"postDeleteKey" } else { b"postUnlockKey" };
    let mut code = begin(session, name, 0);
    string(&mut code, call.authorization);
    code.finish()
}

/// The attestation of method 10, at the second of its two uses of the counter.
pub fn attest_key(session: &Record, id: &[u8], public_key: &[u8]) -> Mac {
    let mut code = begin(session, DEVICE_ATTESTATION, 1);
    string(&mut code, id);
    string(&mut code, public_key);
    code.finish()
}

/// The attestation of a close, at the second of its two uses of the counter.
pub fn attest_close(session: &Record, nonce: &[u8]) -> Mac {
    let mut code = begin(session, DEVICE_ATTESTATION, 1);
    string(&mut code, nonce);
    code.finish()
}

/// An HMAC under SessionKey, name and the counter, `ahead` uses past where the record has it.
fn begin(session: &Record, name: &[u8], ahead: u16) -> Hmac {
    let counter = session.short(session::MAC_COUNTER).saturating_add(ahead);
    Hmac::new(&[&session[session::SESSION_KEY..session::MAC_COUNTER], name, &counter.to_be_bytes()])
}

/// A string of the data: two bytes of length, then its bytes. All strings of a call or record are below 65,536 bytes.
fn string(code: &mut Hmac, text: &[u8]) {
    code.update(&(text.len() as u16).to_be_bytes());
    code.update(text);
}

fn id_or_none(record: Option<&Record>) -> &[u8] {
    record.map_or(NOT_APPLICABLE, |record| record.id())
}
