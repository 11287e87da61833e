//! Builds calls of all thirteen methods with their chip bytes and MACs.
//!
//! Every field is open and takes any value, also one out of its range, and the MAC is made over what stands there: so a
//! call can be wrong in one field and right in all else. The layout is written down here once more and shares
//! nothing with the reader of the store but the hash.
//!
//! ```
//! use builder::{CreatePuk, Issuer};
//!
//! // The handle is from the reply to method 2; the chip made the key.
//! let mut issuer = Issuer { session: 65_536, session_key: [7; 32], counter: 0 };
//! let puk = CreatePuk { retry_limit: 5, ..CreatePuk::default() };
//! let built = puk.build(&issuer);
//! assert_eq!(built.call[..5], [8, 0, 1, 0, 0]);
//! assert_eq!(built.chip, puk.value);
//! // Once the call is answered with 0 the counter has moved, and the same call has another MAC.
//! issuer.counter += 1;
//! let (again, length) = (puk.build(&issuer), built.call.len());
//! assert_eq!(again.call[..length - 32], built.call[..length - 32]);
//! assert_ne!(again.call[length - 32..], built.call[length - 32..]);
//! ```

use second::hmac::hmac;

/// The algorithm of sessions.
pub const SESSION_ALGORITHM: &[u8] = b"http://xmlns.webpki.org/sks/algorithm#session.1";
/// The algorithm of key entries.
pub const KEY_ENTRY_ALGORITHM: &[u8] = b"http://xmlns.webpki.org/sks/algorithm#key.1";
/// The one key algorithm.
pub const P_256: &[u8] = b"urn:oid:1.2.840.10045.3.1.7";

/// A call and its chip bytes.
#[derive(Clone, Debug, PartialEq, Eq)]
pub struct Built {
    pub call: Vec<u8>,
    pub chip: Vec<u8>,
}

/// What an issuer knows of its session.
#[derive(Clone, Debug)]
pub struct Issuer {
    pub session: u32,
    pub session_key: [u8; 32],
    pub counter: u16,
}

impl Issuer {
    /// The code over the data, under the SessionKey, a name and the counter, `ahead` uses from now.
    pub fn code(&self, name: &[u8], ahead: u16, data: &[u8]) -> [u8; 32] {
        let counter = self.counter.wrapping_add(ahead);
        hmac(&[&self.session_key[..], name, &counter.to_be_bytes()].concat(), data)
    }

    /// A session call: method, session, fields, and the MAC of the data at its end.
    fn call(&self, method: u8, fields: &[u8], name: &[u8], data: &[u8], chip: Vec<u8>) -> Built {
        let mac = self.code(name, 0, data);
        Built { call: [&[method][..], &self.session.to_be_bytes(), fields, &mac].concat(), chip }
    }

    /// The attestation that answers the making of a key at this counter.
    pub fn key_attestation(&self, id: &[u8], public_key: &[u8]) -> [u8; 32] {
        self.code(b"Device Attestation", 1, &[string(id), string(public_key)].concat())
    }

    /// The attestation that answers a close at this counter.
    pub fn close_attestation(&self, nonce: &[u8]) -> [u8; 32] {
        self.code(b"Device Attestation", 1, &string(nonce))
    }
}

/// A string: two bytes of length, then its bytes.
pub fn string(text: &[u8]) -> Vec<u8> {
    [&(text.len() as u16).to_be_bytes()[..], text].concat()
}

/// Method 2.
#[derive(Clone, Debug)]
pub struct CreateSession {
    pub algorithm: Vec<u8>,
    pub privacy: u8,
    pub server_session_id: Vec<u8>,
    pub ephemeral_key: Vec<u8>,
    pub issuer_uri: Vec<u8>,
    pub key_management_key: Vec<u8>,
    pub client_time: u32,
    pub life_time: u32,
    pub limit: u16,
    pub session_key: Vec<u8>,
    pub client_session_id: Vec<u8>,
}

impl Default for CreateSession {
    fn default() -> Self {
        CreateSession {
            algorithm: SESSION_ALGORITHM.to_vec(),
            privacy: 0,
            server_session_id: b"server".to_vec(),
            ephemeral_key: b"ephemeral".to_vec(),
            issuer_uri: b"https://issuer".to_vec(),
            key_management_key: b"management".to_vec(),
            client_time: 0,
            life_time: 0,
            limit: 100,
            session_key: vec![7; 32],
            client_session_id: b"client".to_vec(),
        }
    }
}

impl CreateSession {
    pub fn build(&self) -> Built {
        let call = [
            &[2][..],
            &string(&self.algorithm),
            &[self.privacy],
            &string(&self.server_session_id),
            &string(&self.ephemeral_key),
            &string(&self.issuer_uri),
            &string(&self.key_management_key),
            &self.client_time.to_be_bytes(),
            &self.life_time.to_be_bytes(),
            &self.limit.to_be_bytes(),
        ]
        .concat();
        Built { call, chip: [&self.session_key[..], &string(&self.client_session_id)].concat() }
    }
}

/// Method 3.
#[derive(Clone, Debug)]
pub struct Close {
    pub nonce: Vec<u8>,
    /// What the issuer takes the ClientSessionID for.
    pub client_session_id: Vec<u8>,
}

impl Close {
    pub fn build(&self, issuer: &Issuer) -> Built {
        let data = [string(&self.client_session_id), string(&self.nonce)].concat();
        issuer.call(3, &string(&self.nonce), b"closeProvisioningSession", &data, vec![])
    }
}

/// Method 5.
pub fn abort(session: u32) -> Built {
    Built { call: [&[5][..], &session.to_be_bytes()].concat(), chip: vec![] }
}

/// Method 8.
#[derive(Clone, Debug)]
pub struct CreatePuk {
    pub id: Vec<u8>,
    pub encrypted_value: Vec<u8>,
    pub format: u8,
    pub retry_limit: u8,
    pub value: Vec<u8>,
}

impl Default for CreatePuk {
    fn default() -> Self {
        CreatePuk {
            id: b"PUK".to_vec(),
            encrypted_value: vec![9; 32],
            format: 0,
            retry_limit: 3,
            value: b"987654".to_vec(),
        }
    }
}

impl CreatePuk {
    pub fn build(&self, issuer: &Issuer) -> Built {
        let fields = [&string(&self.id)[..], &string(&self.encrypted_value), &[self.format, self.retry_limit]].concat();
        issuer.call(8, &fields, b"createPUKPolicy", &fields, self.value.clone())
    }
}

/// Method 9.
#[derive(Clone, Debug)]
pub struct CreatePinPolicy {
    pub id: Vec<u8>,
    pub puk: u32,
    /// The ID under which the PUK stands in the data.
    pub puk_id: Vec<u8>,
    pub user_defined: u8,
    pub user_modifiable: u8,
    pub format: u8,
    pub retry_limit: u8,
    pub grouping: u8,
    pub patterns: u8,
    pub min: u8,
    pub max: u8,
    pub input_method: u8,
}

impl Default for CreatePinPolicy {
    fn default() -> Self {
        CreatePinPolicy {
            id: b"PIN".to_vec(),
            puk: 0,
            puk_id: b"#N/A".to_vec(),
            user_defined: 1,
            user_modifiable: 1,
            format: 0,
            retry_limit: 3,
            grouping: 0,
            patterns: 0,
            min: 4,
            max: 8,
            input_method: 0,
        }
    }
}

impl CreatePinPolicy {
    pub fn build(&self, issuer: &Issuer) -> Built {
        let rules = [
            self.user_defined,
            self.user_modifiable,
            self.format,
            self.retry_limit,
            self.grouping,
            self.patterns,
            self.min,
            self.max,
            self.input_method,
        ];
        let fields = [&string(&self.id)[..], &self.puk.to_be_bytes(), &rules].concat();
        let data = [&string(&self.id)[..], &string(&self.puk_id), &rules].concat();
        issuer.call(9, &fields, b"createPINPolicy", &data, vec![])
    }
}

/// Method 10.
#[derive(Clone, Debug)]
pub struct CreateKey {
    pub id: Vec<u8>,
    pub algorithm: Vec<u8>,
    pub server_seed: Vec<u8>,
    pub policy: u32,
    /// The ID under which the policy stands in the data.
    pub policy_id: Vec<u8>,
    pub pin_value: Vec<u8>,
    /// PINValue as it stands in the data; nothing means `#N/A`.
    pub pin_in_data: Option<Vec<u8>>,
    pub pin_caching: u8,
    pub biometric_protection: u8,
    pub export_protection: u8,
    pub delete_protection: u8,
    pub app_usage: u8,
    pub friendly_name: Vec<u8>,
    pub key_algorithm: Vec<u8>,
    pub key_parameters: Vec<u8>,
    pub endorsed_algorithms: u16,
    /// Behind EndorsedAlgorithms nothing stands but the MAC; document 000 would have strings here.
    pub endorsed_strings: Vec<u8>,
    pub public_key: Vec<u8>,
    pub opened_pin: Vec<u8>,
}

impl Default for CreateKey {
    fn default() -> Self {
        CreateKey {
            id: b"Key".to_vec(),
            algorithm: KEY_ENTRY_ALGORITHM.to_vec(),
            server_seed: vec![],
            policy: 0,
            policy_id: b"#N/A".to_vec(),
            pin_value: vec![],
            pin_in_data: None,
            pin_caching: 0,
            biometric_protection: 0,
            export_protection: 0,
            delete_protection: 0,
            app_usage: 0,
            friendly_name: vec![],
            key_algorithm: P_256.to_vec(),
            key_parameters: vec![],
            endorsed_algorithms: 0,
            endorsed_strings: vec![],
            public_key: vec![4; 91],
            opened_pin: vec![],
        }
    }
}

impl CreateKey {
    pub fn build(&self, issuer: &Issuer) -> Built {
        let head = [string(&self.id), string(&self.algorithm), string(&self.server_seed)].concat();
        let flags = [
            self.pin_caching,
            self.biometric_protection,
            self.export_protection,
            self.delete_protection,
            self.app_usage,
        ];
        let tail = [string(&self.friendly_name), string(&self.key_algorithm), string(&self.key_parameters)].concat();
        let fields = [
            &head[..],
            &self.policy.to_be_bytes(),
            &string(&self.pin_value),
            &flags,
            &tail,
            &self.endorsed_algorithms.to_be_bytes(),
            &self.endorsed_strings,
        ]
        .concat();
        let pin = self.pin_in_data.as_deref().unwrap_or(b"#N/A");
        let data = [&head[..], &string(&self.policy_id), &string(pin), &flags, &tail].concat();
        let chip = [string(&self.public_key), string(&self.opened_pin)].concat();
        issuer.call(10, &fields, b"createKeyEntry", &data, chip)
    }
}

/// Method 12.
#[derive(Clone, Debug)]
pub struct SetPath {
    pub key: u32,
    /// What the issuer takes the key's ID and public key for.
    pub key_id: Vec<u8>,
    pub public_key: Vec<u8>,
    pub certificates: Vec<Vec<u8>>,
    /// Added to the count byte, to make it lie.
    pub miscount: u8,
}

impl SetPath {
    pub fn build(&self, issuer: &Issuer) -> Built {
        let path: Vec<u8> = self.certificates.iter().flat_map(|certificate| string(certificate)).collect();
        let count = (self.certificates.len() as u8).wrapping_add(self.miscount);
        let fields = [&self.key.to_be_bytes()[..], &[count], &path].concat();
        let data = [string(&self.key_id), string(&self.public_key), path].concat();
        issuer.call(12, &fields, b"setCertificatePath", &data, vec![])
    }
}

/// Methods 50 and 51.
#[derive(Clone, Debug)]
pub struct Post {
    pub method: u8,
    pub key: u32,
    pub authorization: Vec<u8>,
    pub verified: Vec<u8>,
}

impl Post {
    pub fn new(method: u8, key: u32) -> Post {
        Post { method, key, authorization: b"signature".to_vec(), verified: vec![1] }
    }

    pub fn build(&self, issuer: &Issuer) -> Built {
        let authorization = string(&self.authorization);
        let fields = [&self.key.to_be_bytes()[..], &authorization].concat();
        let name: &[u8] = if self.method == 50 { b"postDeleteKey" } else { b"postUnlockKey" };
        issuer.call(self.method, &fields, name, &authorization, self.verified.clone())
    }
}

/// Methods 80, 82, 83 and 100: a key and what was typed.
pub fn user(method: u8, key: u32, typed: &[&[u8]]) -> Built {
    let strings: Vec<u8> = typed.iter().flat_map(|text| string(text)).collect();
    Built { call: [&[method][..], &key.to_be_bytes(), &strings].concat(), chip: vec![] }
}
