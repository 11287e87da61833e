//! The issuer's half: what an issuer orders, as types, written as calls with their MACs by the C functions of
//! `libissuer.a`.
//!
//! An order has the fields of its call, and what the store will find behind the handles in it: a ClientSessionID, IDs, who
//! sets a PIN, a public key. It is built into a lent buffer. An order in range, sent to a store that has the session at
//! that SessionKey and counter and finds those things behind the handles, is never answered with status 3.
//!
//! | order | method | uses of the counter |
//! |---|---|---|
//! | [`CloseOrder`] | 3 closeProvisioningSession | 2 |
//! | [`PukOrder`] | 8 createPUKPolicy | 1 |
//! | [`PolicyOrder`] | 9 createPINPolicy | 1 |
//! | [`KeyOrder`] | 10 createKeyEntry | 2 |
//! | [`PathOrder`] | 12 setCertificatePath | 1 |
//! | [`PostOrder`] | 50 postDeleteKey, 51 postUnlockKey | 1 |
//!
//! Building moves nothing: whoever sees the store answer with status 0 adds the order's `USES` to the counter, and for no
//! other status. The attestations of 10 and 3 are checked before that, at the call's own counter.
//!
//! ```
//! use issuer::{KeyOrder, PinKind, PolicyOrder, Refusal, Session, LONGEST_CALL};
//!
//! let mut session = Session { session: 65_536, session_key: [7; 32], counter: 0 };
//! let mut out = [0; LONGEST_CALL];
//! let policy = PolicyOrder { id: b"PIN", user_defined: true, retry_limit: 3, min: 4, max: 8, ..Default::default() };
//! let length = policy.build(&session, &mut out)?;
//! assert_eq!(out[..10], [9, 0, 1, 0, 0, 0, 3, b'P', b'I', b'N']);
//! assert_eq!(length, 55);
//! // The call is sent; the store answers with 0 and the handle 65,537.
//! session.counter += PolicyOrder::USES;
//!
//! let key = KeyOrder { id: b"Key", policy: 65_537, policy_id: b"PIN", pin_kind: PinKind::User, ..Default::default() };
//! let length = key.build(&session, &mut out)?;
//! assert_eq!(out[0], 10);
//! assert_eq!(key.build(&session, &mut out[..length - 1]), Err(Refusal::ShortBuffer));
//! // A key under a policy has a PIN.
//! let key = KeyOrder { pin_kind: PinKind::None, ..key };
//! assert_eq!(key.build(&session, &mut out), Err(Refusal::OutOfRange));
//! # Ok::<(), Refusal>(())
//! ```

#![warn(missing_docs)]

mod library;

use std::fmt;

/// The longest call: a buffer of so many bytes is never too short.
pub const LONGEST_CALL: usize = 16_384;
/// The algorithm of key entries, the one text that the store takes.
pub const KEY_ENTRY_ALGORITHM: &[u8] = b"http://xmlns.webpki.org/sks/algorithm#key.1";
/// The one key algorithm that the store takes.
pub const P_256: &[u8] = b"urn:oid:1.2.840.10045.3.1.7";

/// Why an order was not built. The buffer is as it was.
#[derive(Clone, Copy, Debug, PartialEq, Eq)]
pub enum Refusal {
    /// A field is out of its range, the counter has no room for the uses, or the call would have more than 16,384 bytes.
    OutOfRange = 16,
    /// The order is in range, and its call is longer than the buffer.
    ShortBuffer = 21,
}

impl fmt::Display for Refusal {
    fn fmt(&self, f: &mut fmt::Formatter) -> fmt::Result {
        f.write_str(match self {
            Refusal::OutOfRange => "16: a field, the counter or the call's length is out of range",
            Refusal::ShortBuffer => "21: the buffer is shorter than the call",
        })
    }
}

impl std::error::Error for Refusal {}

/// What an issuer knows of its session.
#[derive(Clone, Debug)]
pub struct Session {
    /// Its handle, from the reply to method 2.
    pub session: u32,
    /// The SessionKey, agreed on with the chip.
    pub session_key: [u8; 32],
    /// The MAC counter before the call, 0 in a new session. With the call's uses it is at most 65,535.
    pub counter: u16,
}

impl Session {
    /// Whether this is the attestation that answers a call of method 10 built at this counter, for that ID and the public
    /// key that the chip made.
    ///
    /// ```
    /// use builder::Issuer;
    ///
    /// let session = issuer::Session { session: 65_536, session_key: [7; 32], counter: 4 };
    /// // What the token would answer.
    /// let attestation = Issuer { session: 65_536, session_key: [7; 32], counter: 4 }.key_attestation(b"Key", &[4; 91]);
    /// assert!(session.check_key(b"Key", &[4; 91], &attestation));
    /// assert!(!session.check_key(b"Kez", &[4; 91], &attestation));
    /// ```
    pub fn check_key(&self, id: &[u8], public_key: &[u8], attestation: &[u8]) -> bool {
        // SAFETY: here and below, pointers and lengths are those of slices that are lent for this call, and the function
        // takes any bytes. What is written is lent alone, so it overlaps with nothing.
        unsafe {
            library::sks_check_key(
                self.session_key.as_ptr(),
                self.session_key.len(),
                self.counter,
                id.as_ptr(),
                id.len(),
                public_key.as_ptr(),
                public_key.len(),
                attestation.as_ptr(),
                attestation.len(),
            )
        }
    }

    /// Whether this is the attestation that answers a close built at this counter with that nonce.
    pub fn check_close(&self, nonce: &[u8], attestation: &[u8]) -> bool {
        // SAFETY: as above.
        unsafe {
            library::sks_check_close(
                self.session_key.as_ptr(),
                self.session_key.len(),
                self.counter,
                nonce.as_ptr(),
                nonce.len(),
                attestation.as_ptr(),
                attestation.len(),
            )
        }
    }
}

/// What a C function told: its status, and the length that it wrote.
fn told(build: impl FnOnce(*mut usize) -> u8) -> Result<usize, Refusal> {
    let mut written = 0;
    match build(&mut written) {
        0 => Ok(written),
        16 => Err(Refusal::OutOfRange),
        21 => Err(Refusal::ShortBuffer),
        other => unreachable!("the library has no status {other}"),
    }
}

/// Method 3: makes everything in the session count.
#[derive(Clone, Debug, Default)]
pub struct CloseOrder<'a> {
    /// The session's ClientSessionID. It stands in the MAC alone.
    pub client_session_id: &'a [u8],
    /// 1 to 64 bytes, fresh ones: the attestation is over them.
    pub nonce: &'a [u8],
}

impl CloseOrder<'_> {
    /// How often the call uses the counter.
    pub const USES: u16 = 2;

    /// Writes the call and tells its length. The bytes behind it stay.
    pub fn build(&self, session: &Session, out: &mut [u8]) -> Result<usize, Refusal> {
        // SAFETY: as above.
        told(|written| unsafe {
            library::sks_build_close(
                session.session,
                session.session_key.as_ptr(),
                session.session_key.len(),
                session.counter,
                self.client_session_id.as_ptr(),
                self.client_session_id.len(),
                self.nonce.as_ptr(),
                self.nonce.len(),
                out.as_mut_ptr(),
                out.len(),
                written,
            )
        })
    }
}

/// Method 8: makes a PUK.
#[derive(Clone, Debug, Default)]
pub struct PukOrder<'a> {
    /// An ID: 1 to 32 bytes, each from 0x21 to 0x7E.
    pub id: &'a [u8],
    /// 1 to 64 bytes: the PUK, sealed for the chip.
    pub encrypted_value: &'a [u8],
    /// The store takes 0 to 3, and answers another with 17.
    pub format: u8,
    /// After so many wrong tries it is locked; 0: never.
    pub retry_limit: u8,
}

impl PukOrder<'_> {
    /// How often the call uses the counter.
    pub const USES: u16 = 1;

    /// Writes the call and tells its length. The bytes behind it stay.
    pub fn build(&self, session: &Session, out: &mut [u8]) -> Result<usize, Refusal> {
        // SAFETY: as above.
        told(|written| unsafe {
            library::sks_build_puk(
                session.session,
                session.session_key.as_ptr(),
                session.session_key.len(),
                session.counter,
                self.id.as_ptr(),
                self.id.len(),
                self.encrypted_value.as_ptr(),
                self.encrypted_value.len(),
                self.format,
                self.retry_limit,
                out.as_mut_ptr(),
                out.len(),
                written,
            )
        })
    }
}

/// Method 9: makes a PIN policy. The store answers a byte out of the range told here with 17.
#[derive(Clone, Debug, Default)]
pub struct PolicyOrder<'a> {
    /// An ID.
    pub id: &'a [u8],
    /// The handle of a PUK of the session, or 0 for none.
    pub puk: u32,
    /// The PUK's ID; not looked at where the handle is 0.
    pub puk_id: &'a [u8],
    /// Whether the user sets the PINs, or the issuer.
    pub user_defined: bool,
    /// Whether the user may change them.
    pub user_modifiable: bool,
    /// 0 to 3.
    pub format: u8,
    /// From 1.
    pub retry_limit: u8,
    /// 0, or 1 for one PIN for all keys of the policy.
    pub grouping: u8,
    /// 0 to 7: bits of what a PIN must not have.
    pub patterns: u8,
    /// The fewest bytes of a PIN, from 1 to `max`.
    pub min: u8,
    /// The most bytes of a PIN, at most 16.
    pub max: u8,
    /// 0.
    pub input_method: u8,
}

impl PolicyOrder<'_> {
    /// How often the call uses the counter.
    pub const USES: u16 = 1;

    /// Writes the call and tells its length. The bytes behind it stay.
    pub fn build(&self, session: &Session, out: &mut [u8]) -> Result<usize, Refusal> {
        // SAFETY: as above.
        told(|written| unsafe {
            library::sks_build_policy(
                session.session,
                session.session_key.as_ptr(),
                session.session_key.len(),
                session.counter,
                self.id.as_ptr(),
                self.id.len(),
                self.puk,
                self.puk_id.as_ptr(),
                self.puk_id.len(),
                self.user_defined.into(),
                self.user_modifiable.into(),
                self.format,
                self.retry_limit,
                self.grouping,
                self.patterns,
                self.min,
                self.max,
                self.input_method,
                out.as_mut_ptr(),
                out.len(),
                written,
            )
        })
    }
}

/// Who sets the PIN of a key.
#[derive(Clone, Copy, Debug, Default, PartialEq, Eq)]
pub enum PinKind {
    /// Nobody: the key has no PIN policy.
    #[default]
    None = 0,
    /// The user, and the MAC is made without the PIN: a policy with UserDefined.
    User = 1,
    /// The issuer, and PINValue is the PIN, sealed for the chip: a policy without UserDefined.
    Issuer = 2,
}

/// Method 10: makes a key. The store answers a byte out of the range told here with 17.
#[derive(Clone, Debug)]
pub struct KeyOrder<'a> {
    /// An ID.
    pub id: &'a [u8],
    /// [`KEY_ENTRY_ALGORITHM`]; the store answers another with 8.
    pub algorithm: &'a [u8],
    /// 0 to 64 bytes.
    pub server_seed: &'a [u8],
    /// The handle of a PIN policy of the session, or 0 for a key without PIN.
    pub policy: u32,
    /// The policy's ID; not looked at where the handle is 0.
    pub policy_id: &'a [u8],
    /// Who sets the PIN: [`PinKind::None`] with the handle 0 and with no other.
    pub pin_kind: PinKind,
    /// 0 to 64 bytes, written as given. Where the user sets the PIN the console may fill it in.
    pub pin_value: &'a [u8],
    /// Whether a console may keep the PIN for a while.
    pub pin_caching: bool,
    /// 0.
    pub biometric_protection: u8,
    /// 0 to 3.
    pub export_protection: u8,
    /// What the user gives to delete the key: 0 nothing, 1 the PIN, 2 the PUK, 3 cannot.
    pub delete_protection: u8,
    /// Any.
    pub app_usage: u8,
    /// 0 to 100 bytes.
    pub friendly_name: &'a [u8],
    /// [`P_256`]; the store answers another with 8.
    pub key_algorithm: &'a [u8],
    /// 0 to 8 bytes; the store takes none.
    pub key_parameters: &'a [u8],
    /// 0; the store answers another with 8.
    pub endorsed_algorithms: u16,
}

/// A key without PIN, with the two algorithms that the store takes, and all else 0 or empty.
impl Default for KeyOrder<'_> {
    fn default() -> Self {
        KeyOrder {
            id: &[],
            algorithm: KEY_ENTRY_ALGORITHM,
            server_seed: &[],
            policy: 0,
            policy_id: &[],
            pin_kind: PinKind::None,
            pin_value: &[],
            pin_caching: false,
            biometric_protection: 0,
            export_protection: 0,
            delete_protection: 0,
            app_usage: 0,
            friendly_name: &[],
            key_algorithm: P_256,
            key_parameters: &[],
            endorsed_algorithms: 0,
        }
    }
}

impl KeyOrder<'_> {
    /// How often the call uses the counter.
    pub const USES: u16 = 2;

    /// Writes the call and tells its length. The bytes behind it stay.
    pub fn build(&self, session: &Session, out: &mut [u8]) -> Result<usize, Refusal> {
        // SAFETY: as above.
        told(|written| unsafe {
            library::sks_build_key(
                session.session,
                session.session_key.as_ptr(),
                session.session_key.len(),
                session.counter,
                self.id.as_ptr(),
                self.id.len(),
                self.algorithm.as_ptr(),
                self.algorithm.len(),
                self.server_seed.as_ptr(),
                self.server_seed.len(),
                self.policy,
                self.policy_id.as_ptr(),
                self.policy_id.len(),
                self.pin_kind as u8,
                self.pin_value.as_ptr(),
                self.pin_value.len(),
                self.pin_caching.into(),
                self.biometric_protection,
                self.export_protection,
                self.delete_protection,
                self.app_usage,
                self.friendly_name.as_ptr(),
                self.friendly_name.len(),
                self.key_algorithm.as_ptr(),
                self.key_algorithm.len(),
                self.key_parameters.as_ptr(),
                self.key_parameters.len(),
                self.endorsed_algorithms,
                out.as_mut_ptr(),
                out.len(),
                written,
            )
        })
    }
}

/// Method 12: sets the certificate path of a key.
#[derive(Clone, Debug, Default)]
pub struct PathOrder<'a> {
    /// The handle of a key of the session that has no path yet.
    pub key: u32,
    /// The key's ID.
    pub key_id: &'a [u8],
    /// The key's public key, 1 to 96 bytes.
    pub public_key: &'a [u8],
    /// 1 to 255 certificates of at least a byte, the key's own first; with their lengths at most 16,342 bytes.
    pub certificates: &'a [&'a [u8]],
}

impl PathOrder<'_> {
    /// How often the call uses the counter.
    pub const USES: u16 = 1;

    /// Writes the call and tells its length. The bytes behind it stay.
    ///
    /// ```
    /// use issuer::{PathOrder, Refusal, Session, LONGEST_CALL};
    ///
    /// let (session, mut out) = (Session { session: 65_536, session_key: [7; 32], counter: 4 }, [0; LONGEST_CALL]);
    /// let path = PathOrder { key: 65_538, key_id: b"Key", public_key: &[4; 91], certificates: &[b"own", b"root"] };
    /// let length = path.build(&session, &mut out)?;
    /// assert_eq!(out[5..length - 32], *b"\0\x01\0\x02\x02\0\x03own\0\x04root");
    /// # Ok::<(), Refusal>(())
    /// ```
    pub fn build(&self, session: &Session, out: &mut [u8]) -> Result<usize, Refusal> {
        let count = u8::try_from(self.certificates.len()).map_err(|_| Refusal::OutOfRange)?;
        let mut certificates = vec![];
        for certificate in self.certificates {
            let length = u16::try_from(certificate.len()).map_err(|_| Refusal::OutOfRange)?;
            certificates.extend(length.to_be_bytes());
            certificates.extend_from_slice(certificate);
        }
        // SAFETY: as above.
        told(|written| unsafe {
            library::sks_build_path(
                session.session,
                session.session_key.as_ptr(),
                session.session_key.len(),
                session.counter,
                self.key,
                self.key_id.as_ptr(),
                self.key_id.len(),
                self.public_key.as_ptr(),
                self.public_key.len(),
                count,
                certificates.as_ptr(),
                certificates.len(),
                out.as_mut_ptr(),
                out.len(),
                written,
            )
        })
    }
}

/// What is posted for a key of a closed session.
#[derive(Clone, Copy, Debug, PartialEq, Eq)]
pub enum PostMethod {
    /// Its removal.
    Delete = 50,
    /// Its unlocking.
    Unlock = 51,
}

/// Methods 50 and 51: queues what a close will do to a key of a closed session.
#[derive(Clone, Debug)]
pub struct PostOrder<'a> {
    /// Which of the two.
    pub method: PostMethod,
    /// The key's handle.
    pub key: u32,
    /// 1 to 512 bytes: the signature that the chip verifies.
    pub authorization: &'a [u8],
}

impl PostOrder<'_> {
    /// How often the call uses the counter.
    pub const USES: u16 = 1;

    /// Writes the call and tells its length. The bytes behind it stay.
    pub fn build(&self, session: &Session, out: &mut [u8]) -> Result<usize, Refusal> {
        // SAFETY: as above.
        told(|written| unsafe {
            library::sks_build_post(
                session.session,
                session.session_key.as_ptr(),
                session.session_key.len(),
                session.counter,
                self.method as u8,
                self.key,
                self.authorization.as_ptr(),
                self.authorization.len(),
                out.as_mut_ptr(),
                out.len(),
                written,
            )
        })
    }
}
