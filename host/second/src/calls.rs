//! The form of calls and chip bytes.
//!
//! A call is a method byte and fields in a fixed order; what the chip made for it comes beside it. Both must be filled
//! exactly by their fields. This file says what has the form (status 16) and takes the fields out; it knows nothing
//! of the store and judges no value beyond its form.

use crate::records::{LONGEST_ID, LONGEST_PIN, LONGEST_PUBLIC_KEY};
use std::ops::RangeInclusive;

/// The shortest call: a method byte and four more.
pub const SHORTEST: usize = 5;
/// The longest call.
pub const LONGEST: usize = 16_384;

/// The thirteen methods, by their numbers in document 000.
#[allow(missing_docs)]
#[derive(Clone, Copy, Debug, PartialEq, Eq)]
pub enum Method {
    CreateSession = 2,
    Close = 3,
    Abort = 5,
    CreatePuk = 8,
    CreatePinPolicy = 9,
    CreateKey = 10,
    SetPath = 12,
    PostDelete = 50,
    PostUnlock = 51,
    Delete = 80,
    Unlock = 82,
    ChangePin = 83,
    Use = 100,
}

impl Method {
    /// All of them, by rising number.
    pub const ALL: [Method; 13] = [
        Method::CreateSession,
        Method::Close,
        Method::Abort,
        Method::CreatePuk,
        Method::CreatePinPolicy,
        Method::CreateKey,
        Method::SetPath,
        Method::PostDelete,
        Method::PostUnlock,
        Method::Delete,
        Method::Unlock,
        Method::ChangePin,
        Method::Use,
    ];

    /// The method of that number.
    pub fn of_number(number: u8) -> Option<Method> {
        Method::ALL.into_iter().find(|&method| method as u8 == number)
    }

    /// The first 16 of the order: the call's length fits and its method is known. Nothing else is looked at.
    pub fn of_call(call: &[u8]) -> Option<Method> {
        if !(SHORTEST..=LONGEST).contains(&call.len()) {
            return None;
        }
        Method::of_number(call[0])
    }

    /// Whether calls of this method start with the handle of an open session.
    pub fn is_on_session(self) -> bool {
        !matches!(self, Method::CreateSession | Method::Delete | Method::Unlock | Method::ChangePin | Method::Use)
    }
}

/// The handle behind the method byte of a session call. Every call that passed `Method::of_call` has these bytes.
pub fn session_handle(call: &[u8]) -> u32 {
    let mut reader = Reader::new(call);
    reader.byte().and_then(|_| reader.int()).unwrap_or(0)
}

/// A MAC as it stands in the call.
pub type Mac = [u8; 32];

/// Method 2.
#[allow(missing_docs)]
#[derive(Debug)]
pub struct CreateSession<'a> {
    pub session_key_algorithm: &'a [u8],
    pub privacy_enabled: bool,
    pub server_session_id: &'a [u8],
    pub key_management_key: &'a [u8],
    pub client_time: u32,
    pub session_life_time: u32,
    pub session_key_limit: u16,
    /// Made by the chip.
    pub session_key: &'a [u8],
    /// Made by the chip.
    pub client_session_id: &'a [u8],
}

/// Method 3.
#[allow(missing_docs)]
#[derive(Debug)]
pub struct Close<'a> {
    pub nonce: &'a [u8],
    pub mac: &'a Mac,
}

/// Method 8.
#[allow(missing_docs)]
#[derive(Debug)]
pub struct CreatePuk<'a> {
    pub id: &'a [u8],
    pub encrypted_value: &'a [u8],
    pub format: u8,
    pub retry_limit: u8,
    pub mac: &'a Mac,
    /// Opened by the chip.
    pub value: &'a [u8],
}

/// Method 9.
#[allow(missing_docs)]
#[derive(Debug)]
pub struct CreatePinPolicy<'a> {
    pub id: &'a [u8],
    pub puk: u32,
    pub user_defined: bool,
    pub user_modifiable: bool,
    pub format: u8,
    pub retry_limit: u8,
    pub grouping: u8,
    pub patterns: u8,
    pub min: u8,
    pub max: u8,
    pub input_method: u8,
    pub mac: &'a Mac,
}

/// Method 10.
#[allow(missing_docs)]
#[derive(Debug)]
pub struct CreateKey<'a> {
    pub id: &'a [u8],
    pub key_entry_algorithm: &'a [u8],
    pub server_seed: &'a [u8],
    pub pin_policy: u32,
    pub pin_value: &'a [u8],
    pub enable_pin_caching: bool,
    pub biometric_protection: u8,
    pub export_protection: u8,
    pub delete_protection: u8,
    pub app_usage: u8,
    pub friendly_name: &'a [u8],
    pub key_algorithm: &'a [u8],
    pub key_parameters: &'a [u8],
    pub endorsed_algorithms: u16,
    pub mac: &'a Mac,
    /// Made by the chip.
    pub public_key: &'a [u8],
    /// Opened by the chip.
    pub opened_pin: &'a [u8],
}

/// Method 12.
#[allow(missing_docs)]
#[derive(Debug)]
pub struct SetPath<'a> {
    pub key: u32,
    /// All certificates with their lengths, as one part of the call.
    pub certificates: &'a [u8],
    /// The end-entity certificate: the first one, a part of the call.
    pub end_entity: &'a [u8],
    pub mac: &'a Mac,
}

/// Methods 50 and 51.
#[allow(missing_docs)]
#[derive(Debug)]
pub struct Post<'a> {
    pub key: u32,
    pub authorization: &'a [u8],
    pub mac: &'a Mac,
    /// The chip's word on the signature.
    pub verified: bool,
}

/// A call that has the form, with its fields. User calls have the key's handle and what was typed.
#[allow(missing_docs)]
#[derive(Debug)]
pub enum Call<'a> {
    CreateSession(CreateSession<'a>),
    Close(Close<'a>),
    Abort,
    CreatePuk(CreatePuk<'a>),
    CreatePinPolicy(CreatePinPolicy<'a>),
    CreateKey(CreateKey<'a>),
    SetPath(SetPath<'a>),
    PostDelete(Post<'a>),
    PostUnlock(Post<'a>),
    Delete { key: u32, authorization: &'a [u8] },
    Unlock { key: u32, puk: &'a [u8] },
    ChangePin { key: u32, pin: &'a [u8], new_pin: &'a [u8] },
    Use { key: u32, pin: &'a [u8] },
}

/// The fields of a call of this method, or nothing if the call or its chip bytes do not have the form: the second 16
/// of the order.
pub fn decode<'a>(method: Method, call: &'a [u8], chip: &'a [u8]) -> Option<Call<'a>> {
    let mut call = Reader::new(call);
    let mut chip = Reader::new(chip);
    call.byte()?; // The method.
    if method.is_on_session() {
        call.int()?; // The session.
    }
    let decoded = fields(method, &mut call, &mut chip)?;
    (call.is_at_end() && chip.is_at_end()).then_some(decoded)
}

fn fields<'a>(method: Method, call: &mut Reader<'a>, chip: &mut Reader<'a>) -> Option<Call<'a>> {
    Some(match method {
        Method::CreateSession => Call::CreateSession(create_session(call, chip)?),
        Method::Close => Call::Close(Close { nonce: call.string(1..=64)?, mac: call.mac()? }),
        Method::Abort => Call::Abort,
        Method::CreatePuk => Call::CreatePuk(create_puk(call, chip)?),
        Method::CreatePinPolicy => Call::CreatePinPolicy(create_pin_policy(call)?),
        Method::CreateKey => Call::CreateKey(create_key(call, chip)?),
        Method::SetPath => Call::SetPath(set_path(call)?),
        Method::PostDelete => Call::PostDelete(post(call, chip)?),
        Method::PostUnlock => Call::PostUnlock(post(call, chip)?),
        Method::Delete => Call::Delete { key: call.int()?, authorization: call.typed()? },
        Method::Unlock => Call::Unlock { key: call.int()?, puk: call.typed()? },
        Method::ChangePin => Call::ChangePin { key: call.int()?, pin: call.typed()?, new_pin: call.typed()? },
        Method::Use => Call::Use { key: call.int()?, pin: call.typed()? },
    })
}

// In the functions below the fields are read in the order in which they stand, and Rust takes the fields of a
// struct in the order in which they are written.

fn create_session<'a>(call: &mut Reader<'a>, chip: &mut Reader<'a>) -> Option<CreateSession<'a>> {
    let session_key_algorithm = call.any_string()?;
    let privacy_enabled = call.bool()?;
    let server_session_id = call.id()?;
    // The chip has used these two; the store keeps neither.
    let _server_ephemeral_key = call.string(1..=512)?;
    let _issuer_uri = call.string(1..=1000)?;
    Some(CreateSession {
        session_key_algorithm,
        privacy_enabled,
        server_session_id,
        key_management_key: call.string(0..=512)?,
        client_time: call.int()?,
        session_life_time: call.int()?,
        session_key_limit: call.short()?,
        session_key: chip.take(32)?,
        client_session_id: chip.id()?,
    })
}

fn create_puk<'a>(call: &mut Reader<'a>, chip: &mut Reader<'a>) -> Option<CreatePuk<'a>> {
    Some(CreatePuk {
        id: call.id()?,
        encrypted_value: call.string(1..=64)?,
        format: call.byte()?,
        retry_limit: call.byte()?,
        mac: call.mac()?,
        value: chip.all(1..=LONGEST_PIN)?,
    })
}

fn create_pin_policy<'a>(call: &mut Reader<'a>) -> Option<CreatePinPolicy<'a>> {
    Some(CreatePinPolicy {
        id: call.id()?,
        puk: call.int()?,
        user_defined: call.bool()?,
        user_modifiable: call.bool()?,
        format: call.byte()?,
        retry_limit: call.byte()?,
        grouping: call.byte()?,
        patterns: call.byte()?,
        min: call.byte()?,
        max: call.byte()?,
        input_method: call.byte()?,
        mac: call.mac()?,
    })
}

fn create_key<'a>(call: &mut Reader<'a>, chip: &mut Reader<'a>) -> Option<CreateKey<'a>> {
    Some(CreateKey {
        id: call.id()?,
        key_entry_algorithm: call.any_string()?,
        server_seed: call.string(0..=64)?,
        pin_policy: call.int()?,
        pin_value: call.string(0..=64)?,
        enable_pin_caching: call.bool()?,
        biometric_protection: call.byte()?,
        export_protection: call.byte()?,
        delete_protection: call.byte()?,
        app_usage: call.byte()?,
        friendly_name: call.string(0..=100)?,
        key_algorithm: call.any_string()?,
        key_parameters: call.string(0..=8)?,
        // A count of strings in document 000. Any count but 0 is refused, so the MAC follows at once.
        endorsed_algorithms: call.short()?,
        mac: call.mac()?,
        public_key: chip.string(1..=LONGEST_PUBLIC_KEY)?,
        opened_pin: chip.string(0..=LONGEST_PIN)?,
    })
}

fn set_path<'a>(call: &mut Reader<'a>) -> Option<SetPath<'a>> {
    let key = call.int()?;
    let count = call.byte()?;
    if count == 0 {
        return None;
    }
    let start = call.place;
    let end_entity = call.string(1..=usize::from(u16::MAX))?;
    for _ in 1..count {
        call.string(1..=usize::from(u16::MAX))?;
    }
    let certificates = call.since(start);
    Some(SetPath { key, certificates, end_entity, mac: call.mac()? })
}

fn post<'a>(call: &mut Reader<'a>, chip: &mut Reader<'a>) -> Option<Post<'a>> {
    Some(Post { key: call.int()?, authorization: call.string(1..=512)?, mac: call.mac()?, verified: chip.bool()? })
}

/// A reader knows its bytes and its place. Each question moves the place past the field, or answers nothing if the
/// field is cut short or out of its range.
struct Reader<'a> {
    bytes: &'a [u8],
    place: usize,
}

impl<'a> Reader<'a> {
    fn new(bytes: &'a [u8]) -> Reader<'a> {
        Reader { bytes, place: 0 }
    }

    fn is_at_end(&self) -> bool {
        self.place == self.bytes.len()
    }

    fn take(&mut self, length: usize) -> Option<&'a [u8]> {
        let end = self.place.checked_add(length)?;
        let part = self.bytes.get(self.place..end)?;
        self.place = end;
        Some(part)
    }

    /// What was read since that place.
    fn since(&self, start: usize) -> &'a [u8] {
        self.bytes.get(start..self.place).unwrap_or(&[])
    }

    /// All that is left, if its length is in range.
    fn all(&mut self, range: RangeInclusive<usize>) -> Option<&'a [u8]> {
        let length = self.bytes.len() - self.place;
        if !range.contains(&length) {
            return None;
        }
        self.take(length)
    }

    fn byte(&mut self) -> Option<u8> {
        self.take(1).map(|part| part[0])
    }

    fn bool(&mut self) -> Option<bool> {
        match self.byte()? {
            0 => Some(false),
            1 => Some(true),
            _ => None,
        }
    }

    fn short(&mut self) -> Option<u16> {
        self.take(2).map(|part| u16::from_be_bytes([part[0], part[1]]))
    }

    fn int(&mut self) -> Option<u32> {
        self.take(4).map(|part| u32::from_be_bytes([part[0], part[1], part[2], part[3]]))
    }

    fn mac(&mut self) -> Option<&'a Mac> {
        self.take(32).and_then(|part| part.try_into().ok())
    }

    /// A string of any length: its text is judged later.
    fn any_string(&mut self) -> Option<&'a [u8]> {
        let length = self.short()?;
        self.take(usize::from(length))
    }

    fn string(&mut self, range: RangeInclusive<usize>) -> Option<&'a [u8]> {
        self.any_string().filter(|text| range.contains(&text.len()))
    }

    fn id(&mut self) -> Option<&'a [u8]> {
        self.string(1..=LONGEST_ID).filter(|text| text.iter().all(|byte| (0x21..=0x7e).contains(byte)))
    }

    /// A PIN or PUK as typed: its length has a range, its text none.
    fn typed(&mut self) -> Option<&'a [u8]> {
        self.string(0..=LONGEST_PIN)
    }
}
