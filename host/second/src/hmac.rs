//! HMAC-SHA256 of RFC 2104, with key and text fed in pieces.

use crate::sha256::{sha256, Sha256, BLOCK};

/// An HMAC under way.
#[derive(Clone)]
pub struct Hmac {
    inner: Sha256,
    outer: Sha256,
}

impl Hmac {
    /// Begins under the key that the pieces give when joined. A key longer than a block is hashed first, a shorter
    /// one is followed by zeros.
    pub fn new(pieces: &[&[u8]]) -> Hmac {
        let joined = pieces.concat();
        let mut key = [0; BLOCK];
        if joined.len() > BLOCK {
            key[..32].copy_from_slice(&sha256(&joined));
        } else {
            key[..joined.len()].copy_from_slice(&joined);
        }
        let mut inner = Sha256::new();
        inner.update(&key.map(|byte| byte ^ 0x36));
        let mut outer = Sha256::new();
        outer.update(&key.map(|byte| byte ^ 0x5c));
        Hmac { inner, outer }
    }

    /// Feeds one more piece of the text.
    pub fn update(&mut self, piece: &[u8]) {
        self.inner.update(piece);
    }

    /// The 32 bytes of the code.
    pub fn finish(mut self) -> [u8; 32] {
        self.outer.update(&self.inner.finish());
        self.outer.finish()
    }
}

/// The code of one text.
pub fn hmac(key: &[u8], text: &[u8]) -> [u8; 32] {
    let mut code = Hmac::new(&[key]);
    code.update(text);
    code.finish()
}

#[cfg(test)]
mod tests {
    use super::*;

    fn hex(bytes: &[u8]) -> String {
        bytes.iter().map(|b| format!("{b:02x}")).collect()
    }

    #[test]
    fn rfc_4231_cases() {
        assert_eq!(
            hex(&hmac(&[0x0b; 20], b"Hi There")),
            "b0344c61d8db38535ca8afceaf0bf12b881dc200c9833da726e9376c2e32cff7"
        );
        assert_eq!(
            hex(&hmac(b"Jefe", b"what do ya want for nothing?")),
            "5bdcc146bf60754e6a042426089575c75a003f089d2739839dec58b964ec3843"
        );
        assert_eq!(
            hex(&hmac(&[0xaa; 20], &[0xdd; 50])),
            "773ea91e36800e46854db8ebd09181a72959098b3ef8c122d9635514ced565fe"
        );
        let counting: Vec<u8> = (1..=25).collect();
        assert_eq!(
            hex(&hmac(&counting, &[0xcd; 50])),
            "82558a389a443c0ea4cc819899f2083a85f0faa3e578f8077a2e3ff46729665b"
        );
        // Case 5 of the RFC gives the first 128 bits only.
        assert_eq!(hex(&hmac(&[0x0c; 20], b"Test With Truncation")[..16]), "a3b6167473100ee06e0c796c2955552b");
        assert_eq!(
            hex(&hmac(&[0xaa; 131], b"Test Using Larger Than Block-Size Key - Hash Key First")),
            "60e431591ee0b67f0d8a26aacbf5b77f8e0bc6213728c5140546040f0ee37f54"
        );
        assert_eq!(
            hex(&hmac(
                &[0xaa; 131],
                b"This is a test using a larger than block-size key and a larger than block-size data. The key needs to be hashed before being used by the HMAC algorithm."
            )),
            "9b09ffa71b942fcb27635fbcd5b0e944bfdc63644f0713938a7f51535c3a35e2"
        );
    }

    #[test]
    fn a_key_in_pieces_is_the_joined_key() {
        for length in [0, 1, 58, 63, 64, 65, 130] {
            let key: Vec<u8> = (0..length as u8).collect();
            for cut in 0..=length {
                let mut code = Hmac::new(&[&key[..cut], &key[cut..]]);
                code.update(b"te");
                code.update(b"xt");
                assert_eq!(code.finish(), hmac(&key, b"text"));
            }
        }
    }
}
