//! A safe binding to the token's store: the C functions of `libtoken.a`, over lent slices.
//!
//! A store is 2 to 256 records of 256 bytes, which the caller owns and lends for the length of a call. Any bytes may be
//! handed in, as store, call, chip bytes or reply: the functions behind this binding are proved to return for all of
//! them, and never to reach outside what they were lent.
//!
//! | here | what |
//! |---|---|
//! | [`format()`] | makes a fresh store |
//! | [`call`] | answers one call, into a reply buffer of any length |
//! | [`ask`] | the same, with the reply taken apart |
//! | [`is_sound`] | says whether a call over a store would get further than [`Status::UNSOUND`] |
//! | [`Status`], [`Handle`], [`Reply`] | what comes back |
//!
//! The package `builder` beside this one writes calls with their MACs, for tests; `examples/two_tabs.rs` is a story of
//! two issuers who want the same key.

#![warn(missing_docs)]

mod status;

pub use status::Status;
use std::fmt;

/// Bytes in a record.
pub const RECORD: usize = 256;
/// Bytes in a reply: the status, a handle of 4 bytes, an attestation of 32.
pub const REPLY: usize = 37;

mod library {
    unsafe extern "C" {
        pub fn sks_format(store: *mut u8, store_length: usize) -> u8;
        pub fn sks_sound(store: *const u8, store_length: usize) -> bool;
        pub fn sks_call(
            store: *mut u8,
            store_length: usize,
            call: *const u8,
            call_length: usize,
            chip: *const u8,
            chip_length: usize,
            reply: *mut u8,
            reply_length: usize,
        ) -> u8;
    }
}

/// Makes a fresh store of whatever stood there: the counter at 1 in the first place, all else free.
///
/// The answer is [`Status::DONE`], or [`Status::UNSOUND`] with the bytes unchanged if their length does not fit.
///
/// ```
/// use sks::Status;
///
/// let mut store = [0xff; 512];
/// assert_eq!(sks::format(&mut store[..511]), Status::UNSOUND);
/// assert_eq!(store, [0xff; 512]);
/// assert_eq!(sks::format(&mut store), Status::DONE);
/// assert_eq!(store[..8], [6, 0, 0, 0, 0, 0, 0, 1]);
/// ```
pub fn format(store: &mut [u8]) -> Status {
    // SAFETY: pointer and length are those of a slice that is lent for this call, and the function takes any bytes.
    Status(unsafe { library::sks_format(store.as_mut_ptr(), store.len()) })
}

/// Whether a store is sound. A call over any other is told [`Status::UNSOUND`]; this asks the same without a call.
///
/// ```
/// let mut store = [0xff; 512];
/// assert!(!sks::is_sound(&store));
/// sks::format(&mut store);
/// assert!(sks::is_sound(&store));
/// assert!(!sks::is_sound(&store[..511]));
/// ```
pub fn is_sound(store: &[u8]) -> bool {
    // SAFETY: pointer and length are those of a slice that is lent for this call, and the function takes any bytes.
    unsafe { library::sks_sound(store.as_ptr(), store.len()) }
}

/// Answers one call, which changes the store and writes the first 37 bytes of the reply.
///
/// `chip` is what the chip made for this call. The reply's later bytes stay as they are; one that is too short is
/// [`Status::SHORT_REPLY`], and nothing is written.
///
/// ```
/// use sks::Status;
///
/// let mut store = [0; 512];
/// sks::format(&mut store);
/// let (abort, mut reply) = ([5, 0, 1, 0, 0], [0xee; 40]);
/// assert_eq!(sks::call(&mut store, &abort, &[], &mut reply[..36]), Status::SHORT_REPLY);
/// assert_eq!(reply, [0xee; 40]);
/// // No session is open yet.
/// assert_eq!(sks::call(&mut store, &abort, &[], &mut reply), Status::NO_SESSION);
/// assert_eq!(reply[..37], [[5].as_slice(), &[0; 36]].concat());
/// assert_eq!(reply[37..], [0xee; 3]);
/// ```
pub fn call(store: &mut [u8], call: &[u8], chip: &[u8], reply: &mut [u8]) -> Status {
    // SAFETY: pointers and lengths are those of slices that are lent for this call. The two that are written are lent
    // alone, so they overlap with nothing. The function takes any bytes.
    Status(unsafe {
        library::sks_call(
            store.as_mut_ptr(),
            store.len(),
            call.as_ptr(),
            call.len(),
            chip.as_ptr(),
            chip.len(),
            reply.as_mut_ptr(),
            reply.len(),
        )
    })
}

/// Answers one call and takes the reply apart.
///
/// ```
/// use builder::CreateSession;
/// use sks::{Handle, Status};
///
/// let mut store = vec![0; 8 * sks::RECORD];
/// sks::format(&mut store);
/// let new = CreateSession::default().build();
/// let reply = sks::ask(&mut store, &new.call, &new.chip);
/// assert_eq!(reply.status, Status::DONE);
/// assert_eq!(reply.handle, Some(Handle(65_536)));
/// // The same again: another session has that ClientSessionID.
/// let reply = sks::ask(&mut store, &new.call, &new.chip);
/// assert_eq!(reply.status, Status::NOT_ALLOWED);
/// assert_eq!(reply.handle, None);
/// ```
pub fn ask(store: &mut [u8], call: &[u8], chip: &[u8]) -> Reply {
    let mut reply = [0; REPLY];
    self::call(store, call, chip, &mut reply);
    Reply::of(&reply)
}

/// The name of a record: session number × 65,536 + object number.
#[derive(Clone, Copy, Debug, PartialEq, Eq, PartialOrd, Ord, Hash)]
pub struct Handle(pub u32);

impl Handle {
    /// The number of the session, from 1.
    ///
    /// ```
    /// assert_eq!(sks::Handle(131_075).session_number(), 2);
    /// ```
    pub fn session_number(self) -> u32 {
        self.0 >> 16
    }

    /// The number of the object within its session, 0 for the session itself.
    ///
    /// ```
    /// assert_eq!(sks::Handle(131_075).object_number(), 3);
    /// ```
    pub fn object_number(self) -> u16 {
        self.0 as u16
    }
}

impl fmt::Display for Handle {
    fn fmt(&self, f: &mut fmt::Formatter) -> fmt::Result {
        self.0.fmt(f)
    }
}

/// A reply, taken apart.
#[derive(Clone, Copy, Debug, PartialEq, Eq)]
pub struct Reply {
    /// How the call was answered.
    pub status: Status,
    /// The session, policy or key that the call made, if it made one.
    pub handle: Option<Handle>,
    /// What methods 3 and 10 attest when they are done, zeros otherwise.
    pub attestation: [u8; 32],
}

impl Reply {
    /// The reply that these bytes are.
    pub fn of(bytes: &[u8; REPLY]) -> Reply {
        let [status, h0, h1, h2, h3, attestation @ ..] = *bytes;
        let handle = u32::from_be_bytes([h0, h1, h2, h3]);
        Reply { status: Status(status), handle: (handle != 0).then_some(Handle(handle)), attestation }
    }
}
